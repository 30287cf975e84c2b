/* Two processors exclude each other by Peterson's algorithm, whose three variables are bytes of one board. What they guard is a plain
 * variable of C: a lost increment would show that the machine's reads and writes are not in one order.
 *
 *   cc -std=c11 peterson.c $(pkg-config --cflags --libs vme_machine) -pthread -o peterson && ./peterson
 */
#include <sched.h>
#include "crate.h"

static unsigned long rounds = 2000, counter;

/* Of process i: whether it wants to enter, and whose turn it is if both do. */
static uint32_t wants(uint32_t i) { return address(1, i); }
static uint32_t turn(void) { return address(1, 2); }

static void *work(void *index)
{
    const uint32_t i = (uint32_t) * (size_t *)index, other = 1 - i;
    vme_processor *p = &cpus[i].p;
    for (unsigned long round = 0; round < rounds; round++) {
        set(p, wants(i), 1, 1);
        set(p, turn(), 1, other);
        while (get(p, wants(other), 1) == 1 && get(p, turn(), 1) == other)
            sched_yield();
        counter++;
        set(p, wants(i), 1, 0);
    }
    return NULL;
}

int main(int argc, char **argv)
{
    rounds = argc > 1 ? strtoul(argv[1], NULL, 10) : rounds;
    open_crate(2);
    run_each(2, work);
    close_crate(2);
    printf("Peterson's lock: %s\n", counter == 2 * rounds ? "no increment is lost" : "increments are lost");
    return counter != 2 * rounds;
}
