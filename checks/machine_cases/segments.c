/* A segment of 1 MB is enough for any number of long blocks, of two processes at once: what a transfer has allocated is freed by the next
   one, and used again. */
#include <sys/wait.h>
#include <unistd.h>

#include "../../examples/machine/segment.h"
#include "cases.h"

static segment *at;

/* Writes and reads blocks of 64 to 256 bytes of the own board by the bus. Returns whether all were right. */
static int use(uint32_t own, uint32_t rounds)
{
    const vme_waiter patient = { &at->releases, 10000, NULL, NULL };
    uint8_t block[256], back[256];
    size_t moved = 0;
    for (uint32_t k = 0; k < rounds; k++) {
        const uint16_t count = (uint16_t)(16 + k % 49);
        memset(block, (int)(k + own), sizeof block);
        if (vme_block_write(&at->cpus[own].p, &patient, BLOCK_AM, address(own, 0), 4, count, block) != VME_OK
            || vme_block_read(&at->cpus[own].p, &patient, BLOCK_AM, address(own, 0), 4, count, back, &moved) != VME_OK
            || moved != (size_t)count * 4 || memcmp(block, back, moved) != 0)
            return 0;
    }
    return 1;
}

int main(int argc, char **argv)
{
    const uint32_t rounds = argc > 1 ? (uint32_t)atoi(argv[1]) : 4000;
    int status = 1;
    at = segment_make(NULL, SEGMENT_BYTES);
    if (!at)
        return 1;
    open_crate(2);
    for (size_t i = 0; i < 2; i++)
        at->cpus[i].p = cpus[i].p;
    const pid_t child = fork();
    if (child == 0)
        _exit(use(1, rounds) ? 0 : 1);
    want("own blocks", (uint8_t)use(0, rounds), 1);
    if (child < 0 || waitpid(child, &status, 0) != child || status != 0) {
        fprintf(stderr, "the blocks of the other process are wrong\n");
        return 1;
    }
    printf("%u blocks of two processes in a segment\n", 4 * rounds);
    return 0;
}
