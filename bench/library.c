/* Times the calls of libvme, and two functions written by hand. Each figure is the least of several runs. */
#define _POSIX_C_SOURCE 199309L
#include <stdio.h>
#include <stdlib.h>
#include <string.h>
#include <time.h>
#include "library_by_hand.h"

enum { RUNS = 9 };

static uint8_t memory[1 << 16];
static const vme_class board = { 32, 1, 1, 1 };
static unsigned long sum;
static double figure; /* the nanoseconds that the last TIME printed */

static double now(void)
{
    struct timespec t;
    clock_gettime(CLOCK_MONOTONIC, &t);
    return (double)t.tv_sec * 1e9 + (double)t.tv_nsec;
}

/* Runs some statements count times for offsets all over the memory, and prints the nanoseconds of one. */
#define TIME(name, ...)                                           \
    do {                                                          \
        double least = 1e18;                                      \
        for (int run = 0; run < RUNS; run++) {                    \
            double began = now();                                 \
            for (long i = 0; i < count; i++) {                    \
                uint32_t at = (uint32_t)(i * 68) & 0xfffc;        \
                __VA_ARGS__;                                      \
            }                                                     \
            double took = (now() - began) / (double)count;        \
            least = took < least ? took : least;                  \
        }                                                         \
        printf("%-48s %6.1f\n", name, least);                     \
        figure = least;                                           \
    } while (0)

static void time_accesses(long count)
{
    vme_datum datum = { 4, { 1, 2, 3, 4 } }, out = { 0, { 0 } };
    vme_modify add = { VME_ADD, { 4, { 0, 0, 0, 1 } }, { 0, { 0 } } };
    double hand;
    TIME("read of four bytes, by hand", sum += by_hand_read(memory, sizeof memory, &board, 0, at, 4, &out) + out.bytes[3]);
    hand = figure;
    TIME("vme_slave_read", sum += vme_slave_read(memory, sizeof memory, &board, 0, at, 4, &out) + out.bytes[3]);
    printf("%-48s %6.2f\n", "  as a multiple of the one by hand", figure / hand);
    TIME("write of four bytes, by hand", sum += by_hand_write(memory, sizeof memory, &board, 0, at, &datum));
    hand = figure;
    TIME("vme_slave_write", sum += vme_slave_write(memory, sizeof memory, &board, 0, at, &datum));
    printf("%-48s %6.2f\n", "  as a multiple of the one by hand", figure / hand);
    TIME("vme_slave_modify, an addition", sum += vme_slave_modify(memory, sizeof memory, &board, at, 4, &add, &out));
    TIME("vme_local_read", sum += vme_local_read(memory, sizeof memory, at, 4, &out) + out.bytes[3]);
}

static void time_cycles(long count)
{
    vme_request read;
    vme_datum datum = { 4, { 1, 2, 3, 4 } }, out = { 0, { 0 } };
    vme_modify none;
    vme_lines lines, write_lines;
    vme_selection found;
    vme_entry map[21];
    memset(&read, 0, sizeof read);
    memset(&none, 0, sizeof none);
    read.am = 0x0d;
    read.n = 4;
    vme_request write = read;
    write.kind = VME_WRITE;
    vme_request_lines(&read, 0, &datum, &lines);
    vme_request_lines(&write, 0, &datum, &write_lines);
    for (uint32_t i = 0; i < 21; i++)
        map[i] = (vme_entry){ i * (uint32_t)sizeof memory, sizeof memory, 32, 0 };
    TIME("vme_slave_cycle, a read", lines.addr = at;
         sum += vme_slave_cycle(memory, sizeof memory, &board, &lines, at, &none, &out) + out.bytes[3]);
    TIME("vme_slave_cycle, a write", write_lines.addr = at;
         sum += vme_slave_cycle(memory, sizeof memory, &board, &write_lines, at, &none, &out));
    TIME("vme_request_lines, a read", read.addr = at; sum += vme_request_lines(&read, 0, &datum, &lines));
    TIME("vme_map_select, of one entry", sum += vme_map_select(map, 1, 0x0d, at, &found) + found.offset);
    TIME("vme_map_select, the last of 21 entries",
         sum += vme_map_select(map, 21, 0x0d, at + 20 * (uint32_t)sizeof memory, &found) + found.offset);
    TIME("a read: lines, selection, cycle, answer", read.addr = at; vme_request_lines(&read, 0, &datum, &lines);
         vme_map_select(map, 1, read.am, read.addr, &found);
         vme_slave_cycle(memory, sizeof memory, &board, &lines, found.offset, &none, &out);
         sum += vme_lines_answer(&lines, &out) + lines.lanes[VME_D07_D00]);
}

static void time_arbiter(long count)
{
    vme_arbiter arbiter;
    vme_arbiter_open(VME_PRIORITY, &arbiter);
    TIME("vme_arbiter_ask and vme_arbiter_done", (void)at;
         sum += vme_arbiter_ask(&arbiter, 3, 2) + (unsigned long)vme_arbiter_done(&arbiter, 3));
    TIME("vme_arbiter_look", (void)at; sum += vme_arbiter_look(&arbiter, 3));
}

int main(int argc, char **argv)
{
    long count = argc > 1 ? atol(argv[1]) : 2000000;
    for (size_t i = 0; i < sizeof memory; i++)
        memory[i] = (uint8_t)(i * 7);
    printf("%-48s %6s\n", "call", "ns");
    time_accesses(count);
    time_cycles(count);
    time_arbiter(count);
    return sum == 0;
}
