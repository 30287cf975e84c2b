/* A process that is killed. Outside of a call, the others go on. Inside a call, its object stays taken, and while it has the bus, no other
   one gets it: a call then gives up with VME_BUSY or VME_NOT_GRANTED after the waiter's limit. Each round makes a machine in a shared
   mapping, kills a child, and reads the child's board over the bus. Rounds end once both kinds of death were met, which are counted.

   usage: dies ROUNDS, the most of them */
#define _GNU_SOURCE
#include <signal.h>
#include <sys/mman.h>
#include <sys/wait.h>
#include <unistd.h>
#include "cases.h"
#include "../../examples/machine/segment.h"

enum { LIMIT = 10 };

/* What the child does until it is killed: it has the bus and stops, or it writes to its own board without end. It says when it is there. */
static void child(segment *at, int has_bus)
{
    const vme_waiter own = { &at->releases, 0, NULL, NULL };
    const vme_request read = vme_request_of(VME_READ, AM, address(0, 0), 4, 0);
    vme_processor *p = &at->cpus[1].p;
    const vme_datum datum = { 4, { 1, 2, 3, 4 } };
    if (has_bus) {
        want("start", vme_processor_start_read(p, &read), VME_OK);
        want("acquire", vme_acquire(p, &own), VME_OK);
    }
    __atomic_store_n(&at->is_open, 1, __ATOMIC_RELEASE);
    for (;;) {
        if (has_bus)
            pause();
        else
            vme_processor_try_local_write(p, 0, &datum);
    }
}

/* Kills a child after some work, reads its board over the bus, and returns the result. */
static uint8_t round_of(int has_bus, unsigned wait_us)
{
    segment *at = segment_make(NULL, SEGMENT_BYTES);
    if (!at)
        exit(2);
    open_crate(2);
    for (size_t i = 0; i < 2; i++)
        at->cpus[i].p = cpus[i].p;
    const pid_t id = fork();
    if (id == 0)
        child(at, has_bus);
    while (!__atomic_load_n(&at->is_open, __ATOMIC_ACQUIRE))
        usleep(100);
    usleep(wait_us);
    kill(id, SIGKILL);
    waitpid(id, NULL, 0);
    const vme_waiter own = { &at->releases, LIMIT, NULL, NULL };
    vme_datum datum;
    const uint8_t result = vme_read(&at->cpus[0].p, &own, AM, address(1, 0), 4, &datum);
    munmap(at, SEGMENT_BYTES);
    return result;
}

int main(int argc, char **argv)
{
    const unsigned long rounds = argc > 1 ? strtoul(argv[1], NULL, 10) : 400;
    unsigned long went_on = 0, busy = 0;
    for (unsigned k = 0; k < rounds && (went_on == 0 || busy == 0); k++) {
        const uint8_t result = round_of(0, k * 37 % 200);
        went_on += result == VME_OK;
        busy += result == VME_BUSY;
        if (result != VME_OK)
            want("a read after a death", result, VME_BUSY);
    }
    want("a read while a dead process has the bus", round_of(1, 0), VME_NOT_GRANTED);
    printf("killed outside of a call, in %lu rounds: the others go on; inside of one, in %lu, or with the bus: they report it\n", went_on, busy);
    return 0;
}
