/* A producer and a consumer pass words through a ring of eight words on a third board, without a lock: each has one index, which the
 * other one reads. The consumer then takes the same words out of a mailbox, which has a lock.
 *
 *   cc -std=c11 ring.c $(pkg-config --cflags --libs vme_machine) -pthread -o ring && ./ring
 */
#include <sched.h>
#include "crate.h"

enum { SLOTS = 8 };

static unsigned long rounds = 2000, wrong;
static const vme_mailbox box = { 0x08020100u, SLOTS, AM };

static uint32_t word(uint32_t i) { return i * 2654435761u; }
static uint32_t put_index(void) { return address(2, 0); }
static uint32_t taken_index(void) { return address(2, 4); }
static uint32_t slot(uint32_t i) { return address(2, 16 + 4 * (i % SLOTS)); }

static void produce(vme_processor *p)
{
    for (uint32_t i = 0; i < rounds; i++) {
        while (i - get(p, taken_index(), 4) >= SLOTS)
            sched_yield();
        set(p, slot(i), 4, word(i));
        set(p, put_index(), 4, i + 1);
    }
    for (uint32_t i = 0; i < rounds; i++)
        want("put", vme_put(p, &waiter, &box, word(i)), VME_OK);
}

static void consume(vme_processor *p)
{
    for (uint32_t i = 0; i < rounds; i++) {
        while (get(p, put_index(), 4) == i)
            sched_yield();
        wrong += get(p, slot(i), 4) != word(i);
        set(p, taken_index(), 4, i + 1);
    }
    for (uint32_t i = 0; i < rounds; i++) {
        uint32_t taken = 0;
        want("take", vme_take(p, &waiter, &box, &taken), VME_OK);
        wrong += taken != word(i);
    }
}

static void *work(void *index)
{
    const size_t i = *(size_t *)index;
    (i == 0 ? produce : consume)(&cpus[i].p);
    return NULL;
}

int main(int argc, char **argv)
{
    rounds = argc > 1 ? strtoul(argv[1], NULL, 10) : rounds;
    open_crate(3);
    run_each(2, work);
    close_crate(3);
    printf("ring and mailbox: %s\n", wrong ? "wrong words" : "all words, in order");
    return wrong != 0;
}
