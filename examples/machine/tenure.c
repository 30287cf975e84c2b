/* Four processors increment a plain variable of C while they have the bus. A transfer has the bus from the first step that is granted
 * to its end, so the arbiter excludes the others in between.
 *
 *   cc -std=c11 tenure.c $(pkg-config --cflags --libs vme_machine) -pthread -o tenure && ./tenure
 */
#include "crate.h"

static unsigned long rounds = 2000, counter;

static void *work(void *index)
{
    const size_t i = *(size_t *)index;
    const vme_request read = vme_request_of(VME_READ, AM, address(0, 0), 4, 0);
    vme_processor *p = &cpus[i].p;
    for (unsigned long round = 0; round < rounds; round++) {
        want("start", vme_processor_start_read(p, &read), VME_OK);
        want("acquire", vme_acquire(p, &waiter), VME_OK);
        counter++;
        want("finish", vme_finish(p, &waiter), VME_OK);
    }
    return NULL;
}

int main(int argc, char **argv)
{
    rounds = argc > 1 ? strtoul(argv[1], NULL, 10) : rounds;
    open_crate(4);
    run_each(4, work);
    close_crate(4);
    const int is_right = counter == 4 * rounds;
    printf("the arbiter's tenure: %s\n", is_right ? "no increment is lost" : "increments are lost");
    return !is_right;
}
