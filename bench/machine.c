/* Times accesses of four bytes by the local port of a machine's board, beside a pthread_mutex_t for each board around vme_slave_read and
   vme_slave_write; then transfers of four bytes with their tenure of the bus, beside one more mutex for the bus, around vme_map_select and
   such an access. Each figure is the least of several runs, in nanoseconds of wall time for one call of one thread.

   usage: machine [COUNT]                  every row
          machine KIND COUNT               COUNT calls of a kind (machine, mutex, bus, bus_mutex) in one thread: for callgrind */
#define _POSIX_C_SOURCE 200809L
#include <pthread.h>
#include <stdio.h>
#include <stdlib.h>
#include <string.h>
#include <time.h>
#include "vme_wait.h"

enum { RUNS = 9, THREADS = 4, SIZE = 4096 };

/* What one thread has, on cache lines of its own. */
static struct lane {
    _Alignas(128) vme_processor p;
    pthread_mutex_t mutex;
    uint8_t bytes[SIZE];
    unsigned long sum;
} lanes[THREADS];

static const vme_class all = { 32, 1, 1, 1 };
static vme_releases releases = VME_RELEASES_INIT;
static const vme_waiter waiter = { &releases, 0, NULL, NULL };
static const uint8_t code = 0x09;
static vme_entry entries[THREADS];
static pthread_mutex_t bus = PTHREAD_MUTEX_INITIALIZER;
static int on_one_board;
static long count = 1000000;

static void *use_machine(void *index)
{
    struct lane *lane = &lanes[*(size_t *)index];
    vme_datum datum = { 4, { 1, 2, 3, 4 } }, out = { 0, { 0 } };
    for (long i = 0; i < count; i++) {
        const uint32_t at = (uint32_t)((i >> 1) * 68) & (SIZE - 4);
        if (i & 1)
            lane->sum += vme_processor_local_read(&lane->p, &waiter, at, 4, &out) + out.bytes[3];
        else
            lane->sum += vme_processor_local_write(&lane->p, &waiter, at, &datum);
    }
    return NULL;
}

static void *use_mutex(void *index)
{
    struct lane *lane = &lanes[*(size_t *)index];
    vme_datum datum = { 4, { 1, 2, 3, 4 } }, out = { 0, { 0 } };
    for (long i = 0; i < count; i++) {
        const uint32_t at = (uint32_t)((i >> 1) * 68) & (SIZE - 4);
        pthread_mutex_lock(&lane->mutex);
        if (i & 1)
            lane->sum += vme_slave_read(lane->bytes, SIZE, &all, 0, at, 4, &out) + out.bytes[3];
        else
            lane->sum += vme_slave_write(lane->bytes, SIZE, &all, 0, at, &datum);
        pthread_mutex_unlock(&lane->mutex);
    }
    return NULL;
}

/* The address of a transfer: on the thread's own board, or on the first one. */
static uint32_t address(size_t index, long i)
{
    return (on_one_board ? 0 : (uint32_t)index * SIZE) + ((uint32_t)((i >> 1) * 68) & (SIZE - 4));
}

static void *use_bus(void *index)
{
    struct lane *lane = &lanes[*(size_t *)index];
    vme_datum datum = { 4, { 1, 2, 3, 4 } }, out = { 0, { 0 } };
    for (long i = 0; i < count; i++) {
        const uint32_t at = address(*(size_t *)index, i);
        if (i & 1)
            lane->sum += vme_read(&lane->p, &waiter, code, at, 4, &out) + out.bytes[3];
        else
            lane->sum += vme_write(&lane->p, &waiter, code, at, &datum);
    }
    return NULL;
}

static void *use_bus_mutex(void *index)
{
    struct lane *lane = &lanes[*(size_t *)index];
    vme_datum datum = { 4, { 1, 2, 3, 4 } }, out = { 0, { 0 } };
    for (long i = 0; i < count; i++) {
        vme_selection to;
        struct lane *board;
        pthread_mutex_lock(&bus);
        if (vme_map_select(entries, THREADS, code, address(*(size_t *)index, i), &to) != VME_OK)
            exit(1);
        board = &lanes[to.place];
        pthread_mutex_lock(&board->mutex);
        if (i & 1)
            lane->sum += vme_slave_read(board->bytes, SIZE, &all, code, to.offset, 4, &out) + out.bytes[3];
        else
            lane->sum += vme_slave_write(board->bytes, SIZE, &all, code, to.offset, &datum);
        pthread_mutex_unlock(&board->mutex);
        pthread_mutex_unlock(&bus);
    }
    return NULL;
}

static double now(void)
{
    struct timespec t;
    clock_gettime(CLOCK_MONOTONIC, &t);
    return (double)t.tv_sec * 1e9 + (double)t.tv_nsec;
}

static double timed(void *(*program)(void *), size_t threads)
{
    static size_t index[THREADS];
    double least = 1e18;
    for (int run = 0; run < RUNS; run++) {
        pthread_t made[THREADS];
        const double began = now();
        for (size_t i = 0; i < threads; i++) {
            index[i] = i;
            if (pthread_create(&made[i], NULL, program, &index[i]) != 0)
                exit(1);
        }
        for (size_t i = 0; i < threads; i++)
            pthread_join(made[i], NULL);
        const double took = (now() - began) / (double)count;
        least = took < least ? took : least;
    }
    return least;
}

static void open_all(void)
{
    vme_board boards[THREADS];
    vme_processor opened[THREADS];
    memset(opened, 0, sizeof opened);
    for (uint32_t i = 0; i < THREADS; i++) {
        const vme_board board = { { i * SIZE, SIZE, 32, 0 }, all, (uint16_t)(i + 1), 3 };
        boards[i] = board;
    }
    if (vme_machine_open(boards, THREADS, VME_PRIORITY, opened, THREADS) != VME_OK)
        exit(1);
    for (size_t i = 0; i < THREADS; i++) {
        lanes[i].p = opened[i];
        entries[i] = boards[i].entry;
        pthread_mutex_init(&lanes[i].mutex, NULL);
    }
}

/* Prints what a kind of call takes beside its peer, in so many threads. */
static void print_rows(const char *kind, const char *mutexes, void *(*own)(void *), void *(*other)(void *), size_t threads)
{
    char name[80];
    const double by_mutex = timed(other, threads), by_machine = timed(own, threads);
    const char *plural = threads > 1 ? "s" : "";
    snprintf(name, sizeof name, "%s and vme_slave_*, %zu thread%s", mutexes, threads, plural);
    printf("%-48s %6.1f\n", name, by_mutex);
    snprintf(name, sizeof name, "%s, %zu thread%s", kind, threads, plural);
    printf("%-48s %6.1f\n  as a multiple of the one with %-18s %6.2f\n", name, by_machine, mutexes, by_machine / by_mutex);
}

/* The program of a kind of call. */
static void *(*program_of(const char *kind))(void *)
{
    if (strcmp(kind, "bus") == 0)
        return use_bus;
    if (strcmp(kind, "bus_mutex") == 0)
        return use_bus_mutex;
    return strcmp(kind, "machine") == 0 ? use_machine : use_mutex;
}

int main(int argc, char **argv)
{
    static size_t first;
    open_all();
    if (argc > 2) {
        count = atol(argv[2]);
        program_of(argv[1])(&first);
        return 0;
    }
    count = argc > 1 ? atol(argv[1]) : count;
    for (size_t threads = 1; threads <= THREADS; threads *= 2)
        print_rows("vme_processor_local_*", "a mutex", use_machine, use_mutex, threads);
    count /= 10;
    for (size_t threads = 1; threads <= THREADS; threads *= 2)
        print_rows("a transfer", "two mutexes", use_bus, use_bus_mutex, threads);
    on_one_board = 1;
    print_rows("a transfer to one board", "two mutexes", use_bus, use_bus_mutex, THREADS);
    return lanes[0].sum == 0;
}
