/* What the examples share: a machine of some boards, a host thread for each processor, and the end of a run that goes wrong. */
#ifndef CRATE_H
#define CRATE_H

#include <pthread.h>
#include <stdio.h>
#include <stdlib.h>
#include <string.h>

#include "vme_wait.h"

enum { MOST_BOARDS = 4, BOARD_SIZE = 4096, AM = 0x09, BLOCK_AM = 0x0b, STRIDE = 0x10000 };

/* A processor on a cache line of its own. */
typedef struct cpu {
    _Alignas(64) vme_processor p;
} cpu;

static cpu cpus[MOST_BOARDS];
static vme_releases releases = VME_RELEASES_INIT;
static const vme_waiter waiter = { &releases, 0, NULL, NULL };

/* The address of an offset of board i, in the extended space. */
static inline uint32_t address(uint32_t i, uint32_t at)
{
    return 0x08000000u + i * STRIDE + at;
}

/* Ends the program unless a call had this result. */
static inline void want(const char *what, uint8_t result, uint8_t wanted)
{
    if (result == wanted)
        return;
    fprintf(stderr, "%s: result %02x in place of %02x\n", what, result, wanted);
    exit(1);
}

/* Opens a machine of count boards in the slots from 1. */
static inline void open_crate(size_t count)
{
    vme_board boards[MOST_BOARDS];
    vme_processor opened[MOST_BOARDS];
    memset(boards, 0, sizeof boards);
    memset(opened, 0, sizeof opened);
    for (uint32_t i = 0; i < count; i++) {
        const vme_entry entry = { address(i, 0), BOARD_SIZE, 32, 0 };
        const vme_class all = { 32, 1, 1, 1 };
        boards[i].entry = entry;
        boards[i].cls = all;
        boards[i].slot = (uint16_t)(i + 1);
        boards[i].level = 3;
    }
    want("open", vme_machine_open(boards, count, VME_PRIORITY, opened, count), VME_OK);
    for (size_t i = 0; i < count; i++)
        cpus[i].p = opened[i];
}

/* Runs a program on the first count processors, each in a thread of its own, with its index. */
static inline void run_each(size_t count, void *(*program)(void *))
{
    static size_t index[MOST_BOARDS];
    pthread_t threads[MOST_BOARDS];
    for (size_t i = 0; i < count; i++) {
        index[i] = i;
        if (pthread_create(&threads[i], NULL, program, &index[i]) != 0)
            exit(1);
    }
    for (size_t i = 0; i < count; i++)
        pthread_join(threads[i], NULL);
}

/* What close gives: the steps of each board and of the arbiter, and the bytes of all boards. */
static uint64_t last_steps[MOST_BOARDS + 1];
static uint8_t last_bytes[MOST_BOARDS * BOARD_SIZE];

/* Closes the machine. */
static inline void close_crate(size_t count)
{
    vme_processor all[MOST_BOARDS];
    for (size_t i = 0; i < count; i++) {
        all[i] = cpus[i].p;
        memset(&cpus[i].p, 0, sizeof cpus[i].p);
    }
    want("close", vme_machine_close(all, count, last_steps, count + 1, last_bytes, count * BOARD_SIZE), VME_OK);
}

/* Reads a word, or a byte, at an address. */
static inline uint32_t get(vme_processor *p, uint32_t addr, uint8_t n)
{
    vme_datum datum;
    uint32_t word = 0;
    want("read", vme_read(p, &waiter, AM, addr, n, &datum), VME_OK);
    for (uint8_t i = 0; i < n; i++)
        word = word << 8 | datum.bytes[i];
    return word;
}

/* Writes a word, or a byte, at an address. */
static inline void set(vme_processor *p, uint32_t addr, uint8_t n, uint32_t word)
{
    vme_datum datum = { n, { 0 } };
    for (uint8_t i = 0; i < n; i++)
        datum.bytes[i] = (uint8_t)(word >> 8 * (n - 1 - i));
    want("write", vme_write(p, &waiter, AM, addr, &datum), VME_OK);
}

#endif
