/* Two threads increment a plain variable with nothing that orders the increments: thread sanitizer must report a race, although calls of
   the machine come before and after. */
#define _POSIX_C_SOURCE 200809L
#include "cases.h"

static unsigned long counter;
static pthread_barrier_t start;

static void *work(void *index)
{
    get(&cpus[*(size_t *)index].p, address(0, 0), 4);
    pthread_barrier_wait(&start);
    counter++;
    get(&cpus[*(size_t *)index].p, address(0, 0), 4);
    return NULL;
}

int main(void)
{
    open_crate(2);
    pthread_barrier_init(&start, NULL, 2);
    run_each(2, work);
    close_crate(2);
    return counter == 0;
}
