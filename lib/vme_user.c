/* libvme_user: the device files of the Linux driver vme_user over a machine, for programs that are started with this library before them
 * (LD_PRELOAD). bendrika-vme-user makes the machine and starts the programs; docs/LIBRARY.md is the manual.
 *
 * VME_SEGMENT names the segment in which the machine is, and VME_SLOT the slot whose processor the program is. All processes of a slot
 * use its processor in turn, by a lock in the segment, and share the windows of its masters, as they share the images of the driver. */
#define _GNU_SOURCE
#include <dlfcn.h>
#include <errno.h>
#include <fcntl.h>
#include <pthread.h>
#include <stdarg.h>
#include <stdio.h>
#include <stdlib.h>
#include <sys/mman.h>
#include <unistd.h>

#include "../examples/machine/segment.h"
#include "vme_alloc.h"
#include "vme_user.h"

enum { MOST_BOARDS = 21, MASTERS = 4, MOST_FILES = 1024, LIMIT = 10000 /* ms in which nothing happens */, FAILED = 0xff };

/* An image of a master: its window, and the codes of its cycles, 0 for none. */
typedef struct image {
    struct master_window window;
    uint8_t single, block, wide;
} image;

/* What the processes of a slot share. */
typedef struct slot {
    pthread_mutex_t one;
    image images[MASTERS];
} slot;

/* What all processes share besides the machine. */
typedef struct crate {
    size_t count;
    vme_board boards[MOST_BOARDS];
    slot slots[MOST_BOARDS];
} crate;

/* An open file: a master 'm', a slave 's' or the control file 'c', or none, 0. */
typedef struct file {
    char kind;
    uint8_t number;
    int access;
} file;

static segment *mapped;
static size_t own; /* the index of the processor's board */
static file files[MOST_FILES];

static crate *shared(void)
{
    return (crate *)mapped->shared;
}

/* ---- The machine ---- */

/* Makes a machine of boards in a new segment, for bendrika-vme-user. Returns the result of opening it, or 0xff if there is no segment. */
uint8_t vme_user_make(const char *path, const vme_board *boards, size_t count, uint8_t arbiter);

uint8_t vme_user_make(const char *path, const vme_board *boards, size_t count, uint8_t arbiter)
{
    vme_processor opened[MOST_BOARDS];
    pthread_mutexattr_t kind;
    size_t size = SEGMENT_BYTES;
    for (size_t i = 0; i < count && i < MOST_BOARDS; i++)
        size += boards[i].entry.size + (1u << 14);
    segment *at = segment_make(path, size);
    if (!at)
        return FAILED;
    memset(opened, 0, sizeof opened);
    const vme_block block = rattle_alloc(sizeof(crate), 16);
    if (count > MOST_BOARDS || !block.ok)
        return VME_NO_MEMORY;
    const uint8_t result = vme_machine_open(boards, count, arbiter, opened, count);
    if (result != VME_OK)
        return result;
    crate *made = (crate *)block.at;
    memset(made, 0, sizeof *made);
    made->count = count;
    pthread_mutexattr_init(&kind);
    pthread_mutexattr_setpshared(&kind, PTHREAD_PROCESS_SHARED);
    pthread_mutexattr_setrobust(&kind, PTHREAD_MUTEX_ROBUST);
    for (size_t i = 0; i < count; i++) {
        made->boards[i] = boards[i];
        at->cpus[i].p = opened[i];
        pthread_mutex_init(&made->slots[i].one, &kind);
    }
    at->shared = made;
    __atomic_store_n(&at->is_open, 1, __ATOMIC_RELEASE);
    return VME_OK;
}

/* Ends the program: it cannot use the machine that it is started for. */
static void refuse(const char *why)
{
    fprintf(stderr, "libvme_user: %s\n", why);
    _exit(125);
}

static __attribute__((constructor)) void attach(void)
{
    const char *path = getenv("VME_SEGMENT"), *number = getenv("VME_SLOT");
    if (!path)
        return;
    mapped = segment_map(path);
    if (!mapped || !__atomic_load_n(&mapped->is_open, __ATOMIC_ACQUIRE))
        refuse("VME_SEGMENT names no machine");
    for (own = 0; own < shared()->count; own++)
        if (number && shared()->boards[own].slot == strtoul(number, NULL, 10))
            return;
    refuse("VME_SLOT names no slot of the machine");
}

/* ---- Transfers ---- */

/* The most bytes of a cycle at an address, of a number that is left. */
static size_t length_at(uint64_t addr, size_t left, size_t width)
{
    while (width > left || addr % width != 0)
        width /= 2;
    return width;
}

static size_t least(size_t a, size_t b)
{
    return a < b ? a : b;
}

/* Moves a block of data of n bytes at an address. Adds what it moved to done. */
static uint8_t move_block(const image *from, uint8_t am, uint32_t addr, size_t n, size_t left, uint8_t *bytes, int is_write, size_t *done)
{
    const vme_waiter waiter = { &mapped->releases, LIMIT, NULL, NULL };
    vme_processor *p = &mapped->cpus[own].p;
    const size_t unit = am == from->wide ? 2048 : 256, most = least(left, unit - addr % unit);
    const size_t count = n == length_at(0, left, n) ? most / n : 1;
    size_t moved = 0;
    const uint8_t result = is_write ? vme_block_write(p, &waiter, am, addr, (uint8_t)n, (uint16_t)count, bytes)
                                    : vme_block_read(p, &waiter, am, addr, (uint8_t)n, (uint16_t)count, bytes, &moved);
    *done += is_write ? (result == VME_OK ? count * n : 0) : moved;
    return result;
}

/* Moves what one transfer can at an address of a window. Adds what it moved to done. */
static uint8_t move_some(const image *from, uint32_t addr, size_t left, uint8_t *bytes, int is_write, size_t *done)
{
    const vme_waiter waiter = { &mapped->releases, LIMIT, NULL, NULL };
    const size_t width = from->window.dwidth == WIDTH_D8 ? 1 : from->window.dwidth == WIDTH_D16 ? 2 : 4, n = length_at(addr, left, width);
    vme_datum datum = { (uint8_t)n, { 0 } };
    if (from->wide && addr % 8 == 0 && left >= 8)
        return move_block(from, from->wide, addr, 8, left / 8 * 8, bytes, is_write, done);
    if (from->block)
        return move_block(from, from->block, addr, n, n == width ? left / n * n : n, bytes, is_write, done);
    memcpy(datum.bytes, bytes, is_write ? n : 0);
    const uint8_t result = is_write ? vme_write(&mapped->cpus[own].p, &waiter, from->single, addr, &datum)
                                    : vme_read(&mapped->cpus[own].p, &waiter, from->single, addr, (uint8_t)n, &datum);
    if (result == VME_OK && !is_write)
        memcpy(bytes, datum.bytes, n);
    *done += result == VME_OK ? n : 0;
    return result;
}

/* Moves some bytes of the own board by its local port. */
static uint8_t move_local(uint32_t at, size_t left, uint8_t *bytes, int is_write, size_t *done)
{
    const vme_waiter waiter = { &mapped->releases, LIMIT, NULL, NULL };
    const size_t n = length_at(at, left, 4);
    vme_datum datum = { (uint8_t)n, { 0 } };
    memcpy(datum.bytes, bytes, is_write ? n : 0);
    const uint8_t result = is_write ? vme_processor_local_write(&mapped->cpus[own].p, &waiter, at, &datum)
                                    : vme_processor_local_read(&mapped->cpus[own].p, &waiter, at, (uint8_t)n, &datum);
    if (result == VME_OK && !is_write)
        memcpy(bytes, datum.bytes, n);
    *done += result == VME_OK ? n : 0;
    return result;
}

/* Fails with an error number. */
static ssize_t failed(int number)
{
    errno = number;
    return -1;
}

/* Takes the slot's processor. Returns 0, or EIO if a process died while it had it. */
static int enter(void)
{
    pthread_mutex_t *one = &shared()->slots[own].one;
    const int result = pthread_mutex_lock(one);
    if (result == EOWNERDEAD)
        pthread_mutex_unlock(one); /* it is not usable any more */
    return result == 0 ? 0 : EIO;
}

static void leave(void)
{
    pthread_mutex_unlock(&shared()->slots[own].one);
}

static uint64_t size_of(const file *of)
{
    if (of->kind == 's')
        return shared()->boards[own].entry.size;
    return of->kind == 'm' ? shared()->slots[own].images[of->number].window.size : 0;
}

/* Moves bytes at an offset of a file's window, as far as the window and the bus go. */
static ssize_t move_all(const file *of, uint8_t *bytes, size_t count, off_t at, int is_write)
{
    const image *from = &shared()->slots[own].images[of->number];
    const uint64_t size = size_of(of);
    size_t done = 0;
    uint8_t result = VME_OK;
    if ((uint64_t)at >= size)
        return 0;
    if (of->kind == 'm' && !from->window.enable)
        return failed(EIO);
    count = least(count, size - (uint64_t)at);
    while (done < count && result == VME_OK) {
        const uint64_t next = (uint64_t)at + done;
        result = of->kind == 's' ? move_local((uint32_t)next, count - done, bytes + done, is_write, &done)
                                 : move_some(from, (uint32_t)(from->window.vme_addr + next), count - done, bytes + done, is_write, &done);
    }
    const int is_ended = result == VME_OK || result == VME_BERR || result == VME_NO_BOARD;
    return is_ended || done ? (ssize_t)done : failed(EIO);
}

/* The same with the checks of a system call, by the processor. */
static ssize_t move(const file *of, void *bytes, size_t count, off_t at, int is_write)
{
    if (of->access == (is_write ? O_RDONLY : O_WRONLY))
        return failed(EBADF);
    if (at < 0)
        return failed(EINVAL);
    if (enter() != 0)
        return failed(EIO);
    const ssize_t moved = move_all(of, (uint8_t *)bytes, count, at, is_write);
    leave();
    return moved;
}

/* ---- Windows ---- */

/* By space, privilege, and kind: data, program, block, eight-byte block. */
static const uint8_t codes[3][2][4] = {
    { { 0x29, 0, 0, 0 }, { 0x2d, 0, 0, 0 } },
    { { 0x39, 0x3a, 0x3b, 0x38 }, { 0x3d, 0x3e, 0x3f, 0x3c } },
    { { 0x09, 0x0a, 0x0b, 0x08 }, { 0x0d, 0x0e, 0x0f, 0x0c } },
};

/* The index of a space of the driver, or -1. */
static int space_of(uint32_t aspace)
{
    return aspace == SPACE_A16 ? 0 : aspace == SPACE_A24 ? 1 : aspace == SPACE_A32 ? 2 : -1;
}

/* The error of a window that does not lie in its space, or 0. */
static int check_window(int space, uint64_t base, uint64_t size)
{
    static const uint64_t ends[] = { 0x10000, 0x1000000, 0x100000000 };
    if (space < 0 || base + size < size)
        return EINVAL;
    return base + size > ends[space] ? EFAULT : 0;
}

static int set_master(image *to, const struct master_window *window)
{
    const uint32_t known = CYCLE_SCT | CYCLE_BLT | CYCLE_MBLT | CYCLE_SUPER | CYCLE_USER | CYCLE_PROGRAM | CYCLE_DATA;
    const int space = space_of(window->aspace), fault = check_window(space, window->vme_addr, window->size);
    const int has_block = (window->cycle & (CYCLE_BLT | CYCLE_MBLT)) != 0, is_wide = (window->cycle & CYCLE_MBLT) != 0;
    const int is_width = window->dwidth == WIDTH_D8 || window->dwidth == WIDTH_D16 || window->dwidth == WIDTH_D32
                         || (is_wide && window->dwidth == WIDTH_D64);
    if (fault)
        return fault;
    const uint8_t *row = codes[space][(window->cycle & CYCLE_SUPER) != 0];
    const uint8_t single = row[(window->cycle & CYCLE_PROGRAM) != 0];
    if ((window->cycle & ~known) || !is_width || !single || (has_block && !row[2]) || (window->enable && !window->size))
        return EINVAL;
    to->window = *window;
    to->single = single;
    to->block = has_block ? row[2] : 0;
    to->wide = is_wide ? row[3] : 0;
    return 0;
}

/* The window of the own board, which the configuration file fixes. */
static struct slave_window own_window(void)
{
    const vme_board *board = &shared()->boards[own];
    const uint32_t space = board->entry.space == 16 ? SPACE_A16 : board->entry.space == 24 ? SPACE_A24 : SPACE_A32;
    const uint32_t user = board->entry.supervisory ? 0 : CYCLE_USER, block = board->cls.blt ? CYCLE_BLT : 0;
    const struct slave_window window = { 1, board->entry.base, board->entry.size, space,
                                         CYCLE_SCT | CYCLE_SUPER | CYCLE_PROGRAM | CYCLE_DATA | user | block };
    return window;
}

static int set_slave(const struct slave_window *window)
{
    const struct slave_window fixed = own_window();
    const int is_fixed = window->enable && window->vme_addr == fixed.vme_addr && window->size == fixed.size
                         && window->aspace == fixed.aspace && !(window->cycle & ~fixed.cycle);
    return is_fixed ? 0 : EINVAL;
}

/* Returns 0 or an error number. */
static int control(const file *of, unsigned long request, void *argument)
{
    if (of->kind == 'm' && request == SET_MASTER)
        return set_master(&shared()->slots[own].images[of->number], (const struct master_window *)argument);
    if (of->kind == 's' && request == SET_SLAVE)
        return set_slave((const struct slave_window *)argument);
    if (of->kind == 'm' && request == GET_MASTER) {
        memcpy(argument, &shared()->slots[own].images[of->number].window, sizeof(struct master_window));
        return 0;
    }
    if (of->kind == 's' && request == GET_SLAVE) {
        const struct slave_window window = own_window();
        memcpy(argument, &window, sizeof window);
        return 0;
    }
    return EINVAL; /* IRQ_GEN too, as of a bridge without interrupts */
}

/* ---- The calls of the program ---- */

/* The open file of a number, or none. */
static file *of(int number)
{
    return mapped && number >= 0 && number < MOST_FILES && files[number].kind ? &files[number] : NULL;
}

/* The function that the next library has. */
#define NEXT(name) (next_##name ? next_##name : (*(void **)&next_##name = dlsym(RTLD_NEXT, #name), next_##name))
#define HAS_NEXT(name) static __typeof__(&name) next_##name

HAS_NEXT(open);
HAS_NEXT(openat);
HAS_NEXT(close);
HAS_NEXT(read);
HAS_NEXT(write);
HAS_NEXT(pread);
HAS_NEXT(pwrite);
HAS_NEXT(lseek);
HAS_NEXT(ioctl);
HAS_NEXT(mmap);
HAS_NEXT(dup);
HAS_NEXT(dup2);
HAS_NEXT(dup3);
HAS_NEXT(fcntl);

/* Opens a device file as a file in memory that cannot be written, whose position is that of the file. Returns -2 for another path. */
static int open_device(const char *path, int flags)
{
    static const char folder[] = "/dev/bus/vme/";
    const size_t length = strlen(folder);
    if (!mapped || strncmp(path, folder, length) != 0)
        return -2;
    const char *name = path + length;
    const int is_master = name[0] == 'm' && name[1] >= '0' && name[1] < '0' + MASTERS && !name[2];
    if (!is_master && strcmp(name, "s0") != 0 && strcmp(name, "ctl") != 0)
        return (int)failed(ENOENT);
    const int number = memfd_create(path, MFD_ALLOW_SEALING | (flags & O_CLOEXEC ? MFD_CLOEXEC : 0));
    if (number < 0)
        return -1;
    if (number >= MOST_FILES || NEXT(fcntl)(number, F_ADD_SEALS, F_SEAL_WRITE | F_SEAL_GROW | F_SEAL_SHRINK | F_SEAL_SEAL) != 0) {
        NEXT(close)(number);
        return (int)failed(EMFILE);
    }
    files[number].kind = name[0];
    files[number].number = (uint8_t)(is_master ? name[1] - '0' : 0);
    files[number].access = flags & O_ACCMODE;
    return number;
}

/* The mode of an open, if it has one. */
#define MODE(flags, mode) \
    do { \
        if ((flags) & (O_CREAT | O_TMPFILE)) { \
            va_list more; \
            va_start(more, flags); \
            mode = va_arg(more, mode_t); \
            va_end(more); \
        } \
    } while (0)

int open(const char *path, int flags, ...)
{
    mode_t mode = 0;
    MODE(flags, mode);
    const int number = open_device(path, flags);
    return number == -2 ? NEXT(open)(path, flags, mode) : number;
}

int openat(int folder, const char *path, int flags, ...)
{
    mode_t mode = 0;
    MODE(flags, mode);
    const int number = open_device(path, flags);
    return number == -2 ? NEXT(openat)(folder, path, flags, mode) : number;
}

int close(int number)
{
    if (of(number))
        files[number].kind = 0;
    return NEXT(close)(number);
}

ssize_t pread(int number, void *bytes, size_t count, off_t at)
{
    const file *it = of(number);
    return it ? move(it, bytes, count, at, 0) : NEXT(pread)(number, bytes, count, at);
}

ssize_t pwrite(int number, const void *bytes, size_t count, off_t at)
{
    const file *it = of(number);
    return it ? move(it, (void *)(uintptr_t)bytes, count, at, 1) : NEXT(pwrite)(number, bytes, count, at);
}

/* Moves bytes at the position of a file, and moves the position. */
static ssize_t move_on(int number, void *bytes, size_t count, int is_write)
{
    const off_t at = NEXT(lseek)(number, 0, SEEK_CUR);
    const ssize_t moved = move(of(number), bytes, count, at, is_write);
    if (moved > 0)
        NEXT(lseek)(number, at + moved, SEEK_SET);
    return moved;
}

ssize_t read(int number, void *bytes, size_t count)
{
    return of(number) ? move_on(number, bytes, count, 0) : NEXT(read)(number, bytes, count);
}

ssize_t write(int number, const void *bytes, size_t count)
{
    return of(number) ? move_on(number, (void *)(uintptr_t)bytes, count, 1) : NEXT(write)(number, bytes, count);
}

off_t lseek(int number, off_t by, int from)
{
    const file *it = of(number);
    if (!it)
        return NEXT(lseek)(number, by, from);
    const off_t size = (off_t)size_of(it), first = from == SEEK_CUR ? NEXT(lseek)(number, 0, SEEK_CUR) : from == SEEK_END ? size : 0;
    if (it->kind == 'c' || (from != SEEK_SET && from != SEEK_CUR && from != SEEK_END) || first + by < 0 || first + by > size)
        return failed(EINVAL);
    return NEXT(lseek)(number, first + by, SEEK_SET);
}

int ioctl(int number, unsigned long request, ...)
{
    va_list more;
    va_start(more, request);
    void *argument = va_arg(more, void *);
    va_end(more);
    const file *it = of(number);
    if (!it)
        return NEXT(ioctl)(number, request, argument);
    if (enter() != 0)
        return (int)failed(EIO);
    const int fault = control(it, request, argument);
    leave();
    return fault ? (int)failed(fault) : 0;
}

void *mmap(void *wanted, size_t size, int protection, int flags, int number, off_t at)
{
    if (!(flags & MAP_ANONYMOUS) && of(number)) {
        errno = ENODEV;
        return MAP_FAILED;
    }
    return NEXT(mmap)(wanted, size, protection, flags, number, at);
}

/* Notes that a number is a copy of another one. */
static int copied(int from, int to)
{
    if (to >= 0 && to < MOST_FILES && from >= 0 && from < MOST_FILES)
        files[to] = files[from];
    return to;
}

int dup(int number)
{
    return copied(number, NEXT(dup)(number));
}

int dup2(int number, int to)
{
    return copied(number, NEXT(dup2)(number, to));
}

int dup3(int number, int to, int flags)
{
    return copied(number, NEXT(dup3)(number, to, flags));
}

int fcntl(int number, int command, ...)
{
    va_list more;
    va_start(more, command);
    void *argument = va_arg(more, void *);
    va_end(more);
    const int result = NEXT(fcntl)(number, command, argument);
    return command == F_DUPFD || command == F_DUPFD_CLOEXEC ? copied(number, result) : result;
}

/* The names of the same calls for large files, which are all files here, and of those that check the length of the bytes. */
int open64(const char *path, int flags, ...) __attribute__((alias("open")));
int openat64(int folder, const char *path, int flags, ...) __attribute__((alias("openat")));
ssize_t pread64(int number, void *bytes, size_t count, off_t at) __attribute__((alias("pread")));
ssize_t pwrite64(int number, const void *bytes, size_t count, off_t at) __attribute__((alias("pwrite")));
off_t lseek64(int number, off_t by, int from) __attribute__((alias("lseek")));
void *mmap64(void *wanted, size_t size, int protection, int flags, int number, off_t at) __attribute__((alias("mmap")));
int fcntl64(int number, int command, ...) __attribute__((alias("fcntl")));

int __open_2(const char *path, int flags);
int __open64_2(const char *path, int flags);
ssize_t __read_chk(int number, void *bytes, size_t count, size_t room);
ssize_t __pread_chk(int number, void *bytes, size_t count, off_t at, size_t room);
ssize_t __pread64_chk(int number, void *bytes, size_t count, off_t at, size_t room);

int __open_2(const char *path, int flags)
{
    return open(path, flags);
}

int __open64_2(const char *path, int flags)
{
    return open(path, flags);
}

ssize_t __read_chk(int number, void *bytes, size_t count, size_t room)
{
    return count > room ? (abort(), 0) : read(number, bytes, count);
}

ssize_t __pread_chk(int number, void *bytes, size_t count, off_t at, size_t room)
{
    return count > room ? (abort(), 0) : pread(number, bytes, count, at);
}

ssize_t __pread64_chk(int number, void *bytes, size_t count, off_t at, size_t room)
{
    return count > room ? (abort(), 0) : pread(number, bytes, count, at);
}
