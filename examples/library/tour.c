/* What the software of a VMEbus master does first: it probes for boards, takes a semaphore by test-and-set, and moves a
 * block. Then two masters share the bus, and a processor uses the local port of its own board. The file is C99 and C++17.
 *
 *   cc tour.c $(pkg-config --cflags --libs vme) -o tour && ./tour
 */
#include <stdio.h>
#include <string.h>
#include "vme.h"

enum { BOARDS = 2, MEMORY = 0, IO = 1 };

/* A D32 memory board in the standard space, and a D16 board in the short space without blocks. */
static const vme_entry map[BOARDS] = { { 0x200000, 4096, 24, 0 }, { 0xe000, 256, 16, 1 } };
static const vme_class classes[BOARDS] = { { 32, 1, 1, 1 }, { 16, 0, 0, 1 } };
static uint8_t memory[4096], io[256];
static uint8_t *const bytes[BOARDS] = { memory, io };

/* Makes the cycle of datum i of a request. datum has the bytes of a write, and then those that were read. */
static uint8_t cycle(const vme_request *request, uint16_t i, vme_datum *datum)
{
    vme_lines lines;
    vme_selection board;
    uint8_t result = vme_request_lines(request, i, datum, &lines);
    if (result != VME_OK)
        return result;
    result = vme_map_select(map, BOARDS, request->am, request->addr, &board);
    if (result != VME_OK)
        return result;
    return vme_slave_cycle(bytes[board.place], map[board.place].size, &classes[board.place], &lines,
                           board.offset + (uint32_t)i * request->n, &request->f, datum);
}

/* A request without data, count or function. */
static vme_request request_of(uint8_t kind, uint8_t am, uint32_t addr, uint8_t n)
{
    vme_request request;
    memset(&request, 0, sizeof request);
    request.kind = kind;
    request.am = am;
    request.addr = addr;
    request.n = n;
    return request;
}

static const char *name_of(uint8_t result)
{
    switch (result) {
    case VME_OK: return "dtack";
    case VME_BERR: return "berr";
    case VME_NO_BOARD: return "no board";
    case VME_K3: return "K3: no such cycle";
    case VME_K6: return "K6: over a boundary";
    default: return "other";
    }
}

/* Reads n bytes at an address, and prints how the bus answers. */
static void probe(uint8_t am, uint32_t addr, uint8_t n)
{
    vme_request request = request_of(VME_READ, am, addr, n);
    vme_datum datum;
    memset(&datum, 0, sizeof datum);
    printf("probe am %02x, address %08x, %d bytes: %s\n", am, (unsigned)addr, n, name_of(cycle(&request, 0, &datum)));
}

/* Whether this call takes the semaphore at an address: bit 7 of its byte was clear, and is set now. */
static int take(uint32_t addr)
{
    vme_request request = request_of(VME_MODIFY, 0x3d, addr, 1);
    vme_datum old;
    memset(&old, 0, sizeof old);
    request.f.function = VME_SET;
    return cycle(&request, 0, &old) == VME_OK && (old.bytes[0] & 0x80) == 0;
}

/* Releases the semaphore at an address: clears its byte. */
static uint8_t give(uint32_t addr)
{
    vme_request request = request_of(VME_WRITE, 0x3d, addr, 1);
    vme_datum zero;
    memset(&zero, 0, sizeof zero);
    zero.n = 1;
    return cycle(&request, 0, &zero);
}

/* Writes count words of four bytes as one block, and reads them again as another. Returns the first failure. */
static uint8_t move(uint32_t addr, uint16_t count)
{
    vme_request block = request_of(VME_BLOCK_WRITE, 0x3f, addr, 4);
    vme_datum datum;
    memset(&datum, 0, sizeof datum);
    block.count = count;
    for (uint16_t i = 0; i < count; i++) {
        datum.n = 4;
        datum.bytes[3] = (uint8_t)(i + 1);
        uint8_t result = cycle(&block, i, &datum);
        if (result != VME_OK)
            return result;
    }
    block.kind = VME_BLOCK_READ;
    for (uint16_t i = 0; i < count; i++) {
        uint8_t result = cycle(&block, i, &datum);
        if (result != VME_OK)
            return result;
        if (datum.n != 4 || datum.bytes[3] != (uint8_t)(i + 1))
            return VME_BAD_CALL;
    }
    return VME_OK;
}

/* Two slots on one level request the bus: the second one waits until the first one releases it. */
static void share(void)
{
    static const char *const replies[] = { "ok", "granted", "waiting", "freed", "denied" };
    vme_arbiter arbiter;
    vme_arbiter_open(VME_PRIORITY, &arbiter);
    printf("arbiter: %s", replies[vme_arbiter_ask(&arbiter, 2, 3)]);
    printf(" %s", replies[vme_arbiter_ask(&arbiter, 5, 3)]);
    printf(" %s", replies[vme_arbiter_look(&arbiter, 5)]);
    printf(" %s", replies[vme_arbiter_done(&arbiter, 2)]);
    printf(" %s", replies[vme_arbiter_look(&arbiter, 5)]);
    printf(" %s\n", replies[vme_arbiter_done(&arbiter, 2)]);
}

/* Adds to a word by the local port, writes two bytes of it, and reads it. */
static void use_local_port(uint32_t at)
{
    vme_modify add;
    vme_datum datum;
    memset(&add, 0, sizeof add);
    add.function = VME_ADD;
    add.operand.n = 4;
    add.operand.bytes[3] = 0xc1;
    vme_local_modify(memory, sizeof memory, at, 4, &add, &datum);
    datum.n = 2;
    vme_local_write(memory, sizeof memory, at + 1, &datum);
    vme_local_read(memory, sizeof memory, at, 4, &datum);
    printf("local port: %02x%02x%02x%02x\n", datum.bytes[0], datum.bytes[1], datum.bytes[2], datum.bytes[3]);
}

/* Prints the strobes of n bytes at an address, and the bytes that a slave senses from them. */
static void print_strobes(uint32_t addr, uint8_t n)
{
    vme_strobes s;
    vme_place place;
    if (vme_strobes_drive(addr, n, &s) == VME_OK && vme_strobes_sense(&s, &place) == VME_OK)
        printf("strobes: ds1=%d ds0=%d a01=%d lword=%d, %d bytes from %d\n", s.ds1, s.ds0, s.a01, s.lword, place.n, place.first);
}

int main(void)
{
    if (vme_version() != VME_VERSION || vme_map_check(map, BOARDS) != VME_OK)
        return 1;

    probe(0x39, 0x200000, 4);
    probe(0x39, 0x200ffd, 3);
    probe(0x39, 0x200003, 2);
    probe(0x39, 0x300000, 1);
    probe(0x2d, 0xe000, 2);
    probe(0x2d, 0xe000, 4);
    probe(0x29, 0xe000, 2); /* a code without the supervisory bit: the board does not respond */

    printf("semaphore: %d", take(0x200800));
    printf(" %d", take(0x200800));
    give(0x200800);
    printf(" %d\n", take(0x200800));

    printf("block of 64 words: %s\n", name_of(move(0x200100, 64)));
    printf("block of 65 words: %s\n", name_of(move(0x200100, 65)));
    share();
    use_local_port(0x1fc);
    print_strobes(0x200001, 2);
    return 0;
}
