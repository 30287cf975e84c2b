/* Loaded before the C library: makes calls fail, as the environment says.
   REFUSE=N   growth of memory number N, counted from 1, is refused; then a line is written to descriptor REFUSE_ON, or 9
   READ=N     standard input gives N bytes and then fails
   WRITE=N    standard output takes N bytes and then fails
   AT_ONCE=N  one call reads or writes at most N bytes of these two */
#define _GNU_SOURCE
#include <dlfcn.h>
#include <errno.h>
#include <stdlib.h>
#include <unistd.h>

/* What is left of a number of the environment; -1 where it has none. */
struct left {
    const char *name;
    int is_read;
    long count;
};

static struct left growths = {"REFUSE", 0, 0}, input = {"READ", 0, 0}, output = {"WRITE", 0, 0};

static long *left_of(struct left *of) {
    if (!of->is_read) {
        const char *number = getenv(of->name);
        of->is_read = 1;
        of->count = number ? atol(number) : -1;
    }
    return &of->count;
}

static int refused(void) {
    long *left = left_of(&growths);
    const char *on = getenv("REFUSE_ON");
    if (*left <= 0 || --*left > 0)
        return 0;
    return write(on ? atoi(on) : 9, "refused\n", 8) == 8;
}

/* How many of these bytes a call may move; -1 where it fails. */
static ssize_t allowed(struct left *of, size_t size) {
    long left = *left_of(of);
    const char *at_once = getenv("AT_ONCE");
    if (left == 0 && size > 0) {
        errno = EIO;
        return -1;
    }
    if (left > 0 && (size_t)left < size)
        size = left;
    if (at_once && (size_t)atol(at_once) < size)
        size = atol(at_once);
    return size;
}

static ssize_t moved(struct left *of, ssize_t count) {
    if (count > 0 && of->count > 0)
        of->count -= count;
    return count;
}

void *malloc(size_t size) {
    static void *(*next)(size_t);
    if (!next)
        next = dlsym(RTLD_NEXT, "malloc");
    return refused() ? NULL : next(size);
}

void *realloc(void *old, size_t size) {
    static void *(*next)(void *, size_t);
    if (!next)
        next = dlsym(RTLD_NEXT, "realloc");
    return refused() ? NULL : next(old, size);
}

ssize_t read(int descriptor, void *bytes, size_t size) {
    static ssize_t (*next)(int, void *, size_t);
    ssize_t most;
    if (!next)
        next = dlsym(RTLD_NEXT, "read");
    if (descriptor != 0)
        return next(descriptor, bytes, size);
    most = allowed(&input, size);
    return most < 0 ? most : moved(&input, next(descriptor, bytes, most));
}

ssize_t write(int descriptor, const void *bytes, size_t size) {
    static ssize_t (*next)(int, const void *, size_t);
    ssize_t most;
    if (!next)
        next = dlsym(RTLD_NEXT, "write");
    if (descriptor != 1)
        return next(descriptor, bytes, size);
    most = allowed(&output, size);
    return most < 0 ? most : moved(&output, next(descriptor, bytes, most));
}

ssize_t __write(int descriptor, const void *bytes, size_t size) {
    return write(descriptor, bytes, size);
}
