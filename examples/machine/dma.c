/* A DMA controller in slot 2. The processor in slot 1 writes a command block to the controller's memory and rings its doorbell, a byte
 * that the controller polls by its local port. The controller moves the bytes from board 3 to board 4 in blocks, writes a status, and
 * clears the doorbell. Last, a command whose source nothing answers ends with the status of a bus error.
 *
 *   cc -std=c11 dma.c $(pkg-config --cflags --libs vme_machine) -pthread -o dma && ./dma
 */
#include <sched.h>
#include "crate.h"

/* The command block, from offset 0 of board 2. */
enum { DOORBELL = 0, STATUS = 4, SOURCE = 8, DESTINATION = 12, LENGTH = 16 };
enum { RING = 1, STOP = 2 };            /* of the doorbell */
enum { DONE = 1, FAILED = 2 };          /* of the status */
enum { UNIT = 32 /* at most VME_MOST_READ, and a divisor of 256 */, BYTES = 1024, COMMANDS = 20 };

static uint32_t own(vme_processor *p, uint32_t at, uint8_t n)
{
    vme_datum datum;
    want("local read", vme_processor_local_read(p, &waiter, at, n, &datum), VME_OK);
    return n == 1 ? datum.bytes[0] : vme_word_of(&datum);
}

static void set_own(vme_processor *p, uint32_t at, uint32_t word)
{
    const vme_datum datum = vme_datum_of(word);
    want("local write", vme_processor_local_write(p, &waiter, at, &datum), VME_OK);
}

/* Moves one command's bytes, a block after another. */
static uint32_t move_blocks(vme_processor *p, uint32_t source, uint32_t destination, uint32_t length)
{
    uint8_t bytes[UNIT];
    for (uint32_t done = 0; done < length; done += UNIT) {
        const uint16_t count = (uint16_t)((length - done < UNIT ? length - done : UNIT) / 4);
        size_t moved;
        if (vme_block_read(p, &waiter, BLOCK_AM, source + done, 4, count, bytes, &moved) != VME_OK)
            return FAILED;
        if (vme_block_write(p, &waiter, BLOCK_AM, destination + done, 4, count, bytes) != VME_OK)
            return FAILED;
    }
    return DONE;
}

static void control(vme_processor *p)
{
    for (;;) {
        const uint32_t rung = own(p, DOORBELL, 1);
        if (rung == STOP)
            return;
        if (rung == RING) {
            set_own(p, STATUS, move_blocks(p, own(p, SOURCE, 4), own(p, DESTINATION, 4), own(p, LENGTH, 4)));
            set_own(p, DOORBELL, 0);
        }
        sched_yield();
    }
}

/* Has the controller move bytes, and returns its status. */
static uint32_t command(vme_processor *p, uint32_t source, uint32_t destination, uint32_t length)
{
    set(p, address(1, SOURCE), 4, source);
    set(p, address(1, DESTINATION), 4, destination);
    set(p, address(1, LENGTH), 4, length);
    set(p, address(1, DOORBELL), 1, RING);
    while (get(p, address(1, DOORBELL), 1) == RING)
        sched_yield();
    return get(p, address(1, STATUS), 4);
}

static int is_moved(vme_processor *p, uint32_t salt)
{
    for (uint32_t at = 0; at < BYTES; at += 4)
        set(p, address(2, at), 4, at * 2654435761u + salt);
    if (command(p, address(2, 0), address(3, 0), BYTES) != DONE)
        return 0;
    for (uint32_t at = 0; at < BYTES; at += 4)
        if (get(p, address(3, at), 4) != at * 2654435761u + salt)
            return 0;
    return 1;
}

static void *work(void *index)
{
    static const char *const words[] = { "no", "yes" };
    const size_t i = *(size_t *)index;
    vme_processor *p = &cpus[i].p;
    int moved = 1;
    if (i == 1) {
        control(p);
        return NULL;
    }
    for (uint32_t k = 0; k < COMMANDS; k++)
        moved = moved && is_moved(p, k);
    printf("%d commands moved their bytes: %s\n", COMMANDS, words[moved]);
    printf("a source without a board fails: %s\n", words[command(p, 0x0f000000u, address(3, 0), UNIT) == FAILED]);
    set(p, address(1, DOORBELL), 1, STOP);
    return NULL;
}

int main(void)
{
    open_crate(4);
    run_each(2, work);
    close_crate(4);
    return 0;
}
