/* A program for the Linux driver vme_user: `send` and `receive` words through a ring of eight on a board, in two processes.

   usage: user_ring send|receive WORDS */
#include "driver.h"

#include <sched.h>

enum { SLOTS = 8, PUT = 0, TAKEN = 4, RING = 16 };

static int device;

static uint32_t get(off_t at)
{
    uint32_t word;
    WANT(pread(device, &word, sizeof word, at) == sizeof word);
    return word;
}

static void set(off_t at, uint32_t word)
{
    WANT(lseek(device, at, SEEK_SET) == at);
    WANT(write(device, &word, sizeof word) == sizeof word);
}

int main(int argc, char **argv)
{
    const uint32_t words = argc > 2 ? (uint32_t)strtoul(argv[2], NULL, 10) : 100;
    const int is_sender = argc > 1 && strcmp(argv[1], "send") == 0;
    device = open_device("m2");
    WANT(device >= 0);
    WANT(set_master(device, 0x08002000, 4096, VME_A32, VME_SCT | VME_USER | VME_DATA, VME_D32) == 0);
    for (uint32_t i = 0; i < words; i++) {
        const off_t at = RING + 4 * (off_t)(i % SLOTS);
        while (is_sender ? i - get(TAKEN) >= SLOTS : get(PUT) == i)
            sched_yield();
        if (is_sender)
            set(at, i * 2654435761u);
        else
            WANT(get(at) == i * 2654435761u);
        set(is_sender ? PUT : TAKEN, i + 1);
    }
    return close(device);
}
