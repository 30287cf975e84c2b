#define _GNU_SOURCE
#include "segment.h"

#include <fcntl.h>
#include <sched.h>
#include <sys/mman.h>
#include <sys/stat.h>
#include <unistd.h>

#include "vme_alloc.h"

/* Where each process maps the segment: far from what the loader, the heap, the stacks and address sanitizer use on x86-64 Linux. */
#define SEGMENT_AT ((void *)0x500000000000)

static segment *mapped;

static segment *map(int file, size_t size, int flags)
{
    void *at = mmap(SEGMENT_AT, size, PROT_READ | PROT_WRITE, MAP_SHARED | MAP_FIXED_NOREPLACE | flags, file, 0);
    if (file >= 0)
        close(file);
    if (at == MAP_FAILED)
        return NULL;
    if (at != SEGMENT_AT) { /* a kernel that does not know the flag */
        munmap(at, size);
        return NULL;
    }
    mapped = at;
    return mapped;
}

segment *segment_make(const char *path, size_t size)
{
    int file = -1;
    if (path) {
        file = open(path, O_RDWR | O_CREAT | O_EXCL, 0600);
        if (file < 0)
            return NULL;
        if (ftruncate(file, (off_t)size) != 0) {
            close(file);
            return NULL;
        }
    }
    segment *made = map(file, size, path ? 0 : MAP_ANONYMOUS);
    if (made) {
        made->size = size;
        made->used = (sizeof *made + SEGMENT_LINE - 1) / SEGMENT_LINE * SEGMENT_LINE;
    }
    return made;
}

segment *segment_map(const char *path)
{
    struct stat found;
    const int file = open(path, O_RDWR);
    if (file < 0)
        return NULL;
    if (fstat(file, &found) != 0 || (size_t)found.st_size < sizeof(segment)) {
        close(file);
        return NULL;
    }
    return map(file, (size_t)found.st_size, 0);
}

/* ---- The allocator of libvme_machine. What is freed is used again for a block of the same size. ---- */

/* What lies before a block. */
typedef struct segment_block {
    uint64_t length; /* with this head */
    struct segment_block *next; /* of those that are free */
} segment_block;

/* Takes the list of free blocks. Returns 0 if it cannot be had, as from a process that died while it had the list. */
static int take_free(void)
{
    for (int tries = 0; tries < 10000; tries++) {
        if (!__atomic_exchange_n(&mapped->is_taken, 1, __ATOMIC_ACQUIRE))
            return 1;
        sched_yield();
    }
    return 0;
}

static void give_free(void)
{
    __atomic_store_n(&mapped->is_taken, 0, __ATOMIC_RELEASE);
}

/* A free block of a length, or NULL. */
static segment_block *reuse(uint64_t length)
{
    if (!__atomic_load_n(&mapped->free, __ATOMIC_RELAXED) || !take_free())
        return NULL;
    segment_block **at = (segment_block **)&mapped->free;
    while (*at && (*at)->length != length)
        at = &(*at)->next;
    segment_block *found = *at;
    if (found)
        *at = found->next;
    give_free();
    return found;
}

vme_block rattle_alloc(size_t size, size_t align)
{
    const uint64_t length = (size + 15) / 16 * 16 + sizeof(segment_block);
    (void)align;
    if (!mapped || size > mapped->size)
        return vme_block_at(NULL);
    segment_block *found = reuse(length);
    if (!found) {
        const uint64_t at = __atomic_fetch_add(&mapped->used, length, __ATOMIC_RELAXED);
        if (at + length > mapped->size)
            return vme_block_at(NULL);
        found = (segment_block *)((char *)mapped + at);
        found->length = length;
    }
    return vme_block_at(found + 1);
}

vme_block rattle_realloc(void *old, size_t kept, size_t size, size_t align)
{
    const vme_block block = rattle_alloc(size, align);
    if (block.ok)
        memcpy(block.at, old, kept < size ? kept : size);
    if (block.ok)
        rattle_dealloc(old);
    return block;
}

void rattle_dealloc(void *old)
{
    segment_block *given = (segment_block *)old - 1;
    if (!take_free())
        return;
    given->next = (segment_block *)mapped->free;
    mapped->free = given;
    give_free();
}
