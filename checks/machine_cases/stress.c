/* Four threads make many calls: reads, writes and modifies by their local ports, and transfers to each other's boards. Each adds to a
   counter of every board, and close gives the sums and the number of each board's steps.

   usage: stress CALLS */
#include "cases.h"

enum { THREADS = 4, OVER_BUS = 16 /* one call in so many */ };

static unsigned long calls = 100000;
static uint64_t steps_of[THREADS][THREADS]; /* by thread and board */
static uint64_t added[THREADS][THREADS];

static void add(size_t i, size_t board, uint32_t what)
{
    vme_processor *p = &cpus[i].p;
    vme_datum out = { 0, { 0 } };
    vme_modify f;
    memset(&f, 0, sizeof f);
    f.function = VME_ADD;
    f.operand = vme_datum_of(what);
    want("add", i == board ? vme_processor_local_modify(p, &waiter, 0, 4, &f, &out)
                           : vme_read_modify_write(p, &waiter, AM, address((uint32_t)board, 0), 4, &f, &out), VME_OK);
    added[i][board] += what;
    steps_of[i][board]++;
}

static void *work(void *index)
{
    const size_t i = *(size_t *)index;
    vme_processor *p = &cpus[i].p;
    vme_datum out = { 0, { 0 } };
    for (unsigned long k = 0; k < calls; k++) {
        const vme_datum word = vme_datum_of((uint32_t)k);
        if (k % OVER_BUS == 0) {
            add(i, k / OVER_BUS % THREADS, (uint32_t)(k & 0xff));
        } else if (k & 1) {
            want("write", vme_processor_local_write(p, &waiter, 8, &word), VME_OK);
            steps_of[i][i]++;
        } else {
            want("read", vme_processor_local_read(p, &waiter, 8, 4, &out), VME_OK);
            steps_of[i][i]++;
            if (vme_word_of(&out) != k - 1) {
                fprintf(stderr, "thread %zu: a read of %u at call %lu\n", i, vme_word_of(&out), k);
                exit(1);
            }
        }
    }
    return NULL;
}

int main(int argc, char **argv)
{
    uint64_t made = 0, tenures = 0;
    calls = argc > 1 ? strtoul(argv[1], NULL, 10) : calls;
    open_crate(THREADS);
    run_each(THREADS, work);
    close_crate(THREADS);
    for (size_t b = 0; b < THREADS; b++) {
        uint64_t total = 0, steps = 0;
        vme_datum found = { 4, { 0 } };
        memcpy(found.bytes, last_bytes + b * BOARD_SIZE, 4);
        for (size_t i = 0; i < THREADS; i++) {
            total += added[i][b];
            steps += steps_of[i][b];
            tenures += i == b ? 0 : steps_of[i][b];
        }
        if (vme_word_of(&found) != (uint32_t)total || last_steps[b] != steps) {
            fprintf(stderr, "board %zu: %u in place of %u, after %lu steps in place of %lu\n", b, vme_word_of(&found), (uint32_t)total,
                    (unsigned long)last_steps[b], (unsigned long)steps);
            return 1;
        }
        made += steps;
    }
    if (last_steps[THREADS] < 2 * tenures) {
        fprintf(stderr, "the arbiter: %lu steps for %lu tenures\n", (unsigned long)last_steps[THREADS], (unsigned long)tenures);
        return 1;
    }
    printf("%lu calls in %d threads: each sum and each number of steps is right\n", (unsigned long)made, THREADS);
    return 0;
}
