/* A machine that processes share: all that libvme_machine allocates lies in a segment, a file that each process maps at one address.
 * Link segment.c, which has the allocator, before the library.
 *
 * Every process runs the same build of the library. Whoever can write the segment can break the machine. */
#ifndef SEGMENT_H
#define SEGMENT_H

#include "vme_wait.h"

enum { SEGMENT_PROCESSORS = 21, SEGMENT_BYTES = 1 << 20, SEGMENT_LINE = 64 };

/* A processor on a cache line of its own. A process uses the one of its slot, and no other. */
typedef struct segment_cpu {
    _Alignas(SEGMENT_LINE) vme_processor p;
} segment_cpu;

/* The head of a segment. */
typedef struct segment {
    uint32_t is_open; /* 1 once the machine is there */
    uint32_t is_taken; /* the list of free blocks */
    uint64_t size, used;
    void *free; /* the first free block */
    void *shared; /* what the processes share besides the machine, by rattle_alloc */
    vme_releases releases;
    segment_cpu cpus[SEGMENT_PROCESSORS];
} segment;

/* Makes a new segment of zeros in a file, or without a path one for this process and those that it forks. SEGMENT_BYTES are enough for
 * four boards of 4 KB. Returns NULL if the file is there, or if the address is in use. */
segment *segment_make(const char *path, size_t size);

/* Maps the segment of a file that another process has made. Returns NULL if there is none, or if the address is in use. */
segment *segment_map(const char *path);

#endif
