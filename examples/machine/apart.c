/* Two programs that are started apart share a machine by a segment: `make` makes it, `send` passes words through a mailbox and a ring of
 * board 3, `receive` takes them.
 *
 *   cc -std=c11 apart.c segment.c $(pkg-config --cflags --libs vme_machine) -o apart
 *   ./apart make /dev/shm/crate && ./apart send /dev/shm/crate & ./apart receive /dev/shm/crate
 */
#include <sched.h>
#include "crate.h"
#include "segment.h"

enum { SLOTS = 8, LIMIT = 5000 /* ms in which nothing happens */ };

static unsigned long rounds = 1000;
static const vme_mailbox box = { 0x08020100u, SLOTS, AM };

static uint32_t word(uint32_t i) { return i * 2654435761u; }

static uint32_t read_word(vme_processor *p, const vme_waiter *own, uint32_t at)
{
    vme_datum datum;
    want("read", vme_read(p, own, AM, address(2, at), 4, &datum), VME_OK);
    return vme_word_of(&datum);
}

static void write_word(vme_processor *p, const vme_waiter *own, uint32_t at, uint32_t value)
{
    const vme_datum datum = vme_datum_of(value);
    want("write", vme_write(p, own, AM, address(2, at), &datum), VME_OK);
}

static void send(vme_processor *p, const vme_waiter *own)
{
    for (uint32_t i = 0; i < rounds; i++) {
        while (i - read_word(p, own, 4) >= SLOTS)
            sched_yield();
        write_word(p, own, 16 + 4 * (i % SLOTS), word(i));
        write_word(p, own, 0, i + 1);
        want("put", vme_put(p, own, &box, word(i)), VME_OK);
    }
}

static unsigned long receive(vme_processor *p, const vme_waiter *own)
{
    unsigned long wrong = 0;
    for (uint32_t i = 0; i < rounds; i++) {
        uint32_t taken = 0;
        while (read_word(p, own, 0) == i)
            sched_yield();
        wrong += read_word(p, own, 16 + 4 * (i % SLOTS)) != word(i);
        write_word(p, own, 4, i + 1);
        want("take", vme_take(p, own, &box, &taken), VME_OK);
        wrong += taken != word(i);
    }
    return wrong;
}

static int make(segment *at)
{
    open_crate(3);
    for (size_t i = 0; i < 3; i++)
        at->cpus[i].p = cpus[i].p;
    __atomic_store_n(&at->is_open, 1, __ATOMIC_RELEASE);
    return 0;
}

int main(int argc, char **argv)
{
    if (argc < 3) {
        fprintf(stderr, "usage: apart make|send|receive FILE [WORDS]\n");
        return 2;
    }
    rounds = argc > 3 ? strtoul(argv[3], NULL, 10) : rounds;
    segment *at = strcmp(argv[1], "make") == 0 ? segment_make(argv[2], SEGMENT_BYTES) : segment_map(argv[2]);
    if (!at) {
        fprintf(stderr, "apart: the segment can't be mapped\n");
        return 1;
    }
    if (strcmp(argv[1], "make") == 0)
        return make(at);
    while (!__atomic_load_n(&at->is_open, __ATOMIC_ACQUIRE))
        sched_yield();
    const vme_waiter own = { &at->releases, LIMIT, NULL, NULL };
    if (strcmp(argv[1], "send") == 0) {
        send(&at->cpus[0].p, &own);
        printf("sent\n");
        return 0;
    }
    const unsigned long wrong = receive(&at->cpus[1].p, &own);
    printf("received: %s\n", wrong ? "wrong words" : "all words, in order");
    return wrong != 0;
}
