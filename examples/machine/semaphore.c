/* Three processors take a semaphore by test-and-set, the read-modify-write that sets bit 7 of a byte. It guards two words of the
 * fourth board, which each holder increments by a read and a write.
 *
 *   cc -std=c11 semaphore.c $(pkg-config --cflags --libs vme_machine) -pthread -o semaphore && ./semaphore
 */
#include "crate.h"

static unsigned long rounds = 1000;

static void *work(void *index)
{
    vme_processor *p = &cpus[*(size_t *)index].p;
    const uint32_t semaphore = address(3, 0), words[2] = { address(3, 16), address(3, 20) };
    for (unsigned long round = 0; round < rounds; round++) {
        want("lock", vme_lock(p, &waiter, AM, semaphore), VME_OK);
        for (int k = 0; k < 2; k++)
            set(p, words[k], 4, get(p, words[k], 4) + 1);
        want("unlock", vme_unlock(p, &waiter, AM, semaphore), VME_OK);
    }
    return NULL;
}

int main(int argc, char **argv)
{
    rounds = argc > 1 ? strtoul(argv[1], NULL, 10) : rounds;
    open_crate(4);
    run_each(3, work);
    const uint32_t a = get(&cpus[0].p, address(3, 16), 4), b = get(&cpus[0].p, address(3, 20), 4);
    close_crate(4);
    const int is_right = a == 3 * rounds && b == a;
    printf("the semaphore: %s\n", is_right ? "no increment is lost" : "increments are lost");
    return !is_right;
}
