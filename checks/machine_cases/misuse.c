/* Each misuse of a machine that a call can see has its named result, and leaves the machine as it was. */
#include "cases.h"

static vme_board board_of(uint32_t i)
{
    const vme_board board = { { address(i, 0), BOARD_SIZE, 32, 0 }, { 32, 1, 1, 1 }, (uint16_t)(i + 1), 3 };
    return board;
}

/* Closes with too few places, which get what fits, and writes nothing if it fails. */
static uint8_t close_all(vme_processor *all, size_t count)
{
    uint64_t steps[2] = { 77, 77 };
    uint8_t bytes[2] = { 7, 7 };
    const uint8_t result = vme_machine_close(all, count, steps, 1, bytes, 1);
    want("a place that close does not have", (uint8_t)(steps[1] == 77 && bytes[1] == 7), 1);
    want("a place that close has", (uint8_t)((steps[0] == 77 && bytes[0] == 7) == (result != VME_OK)), 1);
    return result;
}

static void open_two(vme_processor *out)
{
    const vme_board boards[2] = { board_of(0), board_of(1) };
    want("open", vme_machine_open(boards, 2, VME_ROTATING, out, 2), VME_OK);
}

static void check_open(void)
{
    vme_processor out[2] = { { 0, NULL }, { 0, NULL } };
    vme_board boards[2] = { board_of(0), board_of(1) };
    want("no board", vme_machine_open(boards, 0, VME_PRIORITY, out, 2), VME_BAD_CALL);
    want("one struct for two", vme_machine_open(boards, 2, VME_PRIORITY, out, 1), VME_BAD_CALL);
    boards[1].slot = 1;
    want("a slot twice", vme_machine_open(boards, 2, VME_PRIORITY, out, 2), VME_BAD_CALL);
    boards[1].slot = 22;
    want("slot 22", vme_machine_open(boards, 2, VME_PRIORITY, out, 2), VME_BAD_CALL);
    boards[1].slot = 2;
    boards[0].slot = 0;
    want("slot 0", vme_machine_open(boards, 2, VME_PRIORITY, out, 2), VME_BAD_CALL);
    boards[0] = board_of(0);
    boards[1].level = 4;
    want("level 4", vme_machine_open(boards, 2, VME_PRIORITY, out, 2), VME_BAD_CALL);
    boards[1] = board_of(1);
    boards[1].entry.base = boards[0].entry.base + 16;
    want("shared addresses", vme_machine_open(boards, 2, VME_PRIORITY, out, 2), VME_C1);
    boards[1].entry.base = 0xfffffffc;
    boards[1].entry.size = 8;
    want("past the space", vme_machine_open(boards, 2, VME_PRIORITY, out, 2), VME_C2);
    boards[1].entry.base = 2;
    want("base 2", vme_machine_open(boards, 2, VME_PRIORITY, out, 2), VME_C3);
    boards[1] = board_of(1);
    boards[1].entry.size = 0;
    want("no byte", vme_machine_open(boards, 2, VME_PRIORITY, out, 2), VME_BAD_CALL);
    boards[1].entry.size = 6;
    want("six bytes", vme_machine_open(boards, 2, VME_PRIORITY, out, 2), VME_BAD_CALL);
    boards[1].entry.size = (1 << 20) + 4;
    want("more than a MiB", vme_machine_open(boards, 2, VME_PRIORITY, out, 2), VME_BAD_CALL);
    want("structs of failed calls", (uint8_t)(out[0].full | out[1].full), 0);
}

static void check_many(void)
{
    vme_processor out[22];
    vme_board boards[22];
    memset(out, 0, sizeof out);
    for (uint32_t i = 0; i < 22; i++) {
        boards[i] = board_of(i);
        boards[i].entry.size = 64;
    }
    const uint8_t result = vme_machine_open(boards, 22, VME_PRIORITY, out, 22);
    want("22 boards", result == VME_BAD_CALL ? VME_C4 : result, VME_C4);
    want("21 boards", vme_machine_open(boards, 21, VME_PRIORITY, out, 21), VME_OK);
    for (size_t i = 0; i < 21; i++)
        want("drop", vme_processor_drop(&out[i]), VME_OK);
}

static void check_closed(void)
{
    vme_processor empty = { 0, NULL };
    vme_datum datum = { 4, { 1, 2, 3, 4 } };
    const vme_modify set = { VME_SET, { 0, { 0 } }, { 0, { 0 } } };
    want("local read", vme_processor_try_local_read(&empty, 0, 4, &datum), VME_CLOSED);
    want("local write", vme_processor_try_local_write(&empty, 0, &datum), VME_CLOSED);
    want("local modify", vme_processor_try_local_modify(&empty, 0, 1, &set, &datum), VME_CLOSED);
    want("drop", vme_processor_drop(&empty), VME_CLOSED);
    want("close", close_all(&empty, 1), VME_CLOSED);
    want("what a closed read wrote", datum.bytes[3], 4);
}

static void check_local(vme_processor *p)
{
    vme_datum datum = { 4, { 1, 2, 3, 4 } }, out = { 7, { 9 } };
    const vme_modify add = { VME_ADD, { 2, { 0, 1 } }, { 0, { 0 } } };
    want("read past the end", vme_processor_try_local_read(p, BOARD_SIZE - 2, 4, &out), VME_BERR);
    want("read at the last offset", vme_processor_try_local_read(p, 0xffffffff, 4, &out), VME_BERR);
    want("read of three bytes", vme_processor_try_local_read(p, 0, 3, &out), VME_BERR);
    want("what failed reads wrote", out.n, 7);
    want("write past the end", vme_processor_try_local_write(p, BOARD_SIZE, &datum), VME_BERR);
    want("modify with an operand of two bytes", vme_processor_try_local_modify(p, 0, 4, &add, &out), VME_BERR);
    want("write", vme_processor_try_local_write(p, 5, &datum), VME_OK);
    want("modify", vme_processor_try_local_modify(p, 7, 2, &add, &out), VME_OK);
    want("its old bytes", (uint8_t)(out.n == 2 && out.bytes[0] == 3 && out.bytes[1] == 4), 1);
    want("read", vme_processor_try_local_read(p, 5, 4, &out), VME_OK);
    want("its bytes", (uint8_t)(out.n == 4 && out.bytes[0] == 1 && out.bytes[3] == 5), 1);
}

/* Closing with a processor that is missing, of another machine, twice, and in another order. */
static void check_close(void)
{
    vme_processor p[2], other[2], mixed[3], none = { 0, NULL };
    memset(p, 0, sizeof p);
    memset(other, 0, sizeof other);
    open_two(p);
    open_two(other);
    want("no processor", close_all(p, 0), VME_BAD_CALL);
    want("one is missing", close_all(p, 1), VME_BAD_CALL);
    mixed[0] = p[0];
    mixed[1] = other[1];
    want("two machines", close_all(mixed, 2), VME_BAD_CALL);
    mixed[1] = none;
    want("an empty one", close_all(mixed, 2), VME_CLOSED);
    mixed[0] = p[0];
    mixed[1] = p[1];
    mixed[2] = other[0];
    want("one too many", close_all(mixed, 3), VME_BAD_CALL);
    check_local(&p[0]);
    check_local(&other[1]);
    /* Moved, in another order. */
    mixed[0] = p[1];
    mixed[1] = p[0];
    p[0] = p[1] = none;
    want("moved structs", close_all(mixed, 2), VME_OK);
    want("the structs are empty", (uint8_t)(mixed[0].full | mixed[1].full), 0);
    want("closed twice", close_all(mixed, 2), VME_CLOSED);
    want("dropped", vme_processor_drop(&other[0]), VME_OK);
    want("dropped twice", vme_processor_drop(&other[0]), VME_CLOSED);
    want("closed with a dropped one", close_all(other, 2), VME_CLOSED);
    want("closed without a dropped one", close_all(&other[1], 1), VME_BAD_CALL);
    want("the other one is usable", vme_processor_try_local_read(&other[1], 0, 4, &(vme_datum){ 0, { 0 } }), VME_OK);
    want("the last one", vme_processor_drop(&other[1]), VME_OK);
}

static void check_transfers(void)
{
    vme_processor p[2] = { { 0, NULL }, { 0, NULL } }, empty = { 0, NULL };
    const vme_modify set = { VME_SET, { 0, { 0 } }, { 0, { 0 } } };
    vme_request read = vme_request_of(VME_READ, AM, address(1, 0), 4, 0), write = vme_request_of(VME_WRITE, AM, address(1, 0), 4, 0);
    vme_request modify = vme_request_of(VME_MODIFY, AM, address(1, 0), 1, 0);
    vme_datum datum = { 4, { 1, 2, 3, 4 } };
    size_t count = 9;
    want("start of a closed one", vme_processor_start_read(&empty, &read), VME_CLOSED);
    want("write of a closed one", vme_processor_start_write(&empty, &write, datum.bytes, 4), VME_CLOSED);
    want("modify of a closed one", vme_processor_start_modify(&empty, &modify, &set), VME_CLOSED);
    want("step of a closed one", vme_processor_step(&empty), VME_CLOSED);
    want("bytes of a closed one", vme_processor_bytes(&empty, datum.bytes, 4, &count), VME_CLOSED);
    open_two(p);
    want("step of nothing", vme_processor_step(&p[0]), VME_BAD_CALL);
    want("bytes of nothing", vme_processor_bytes(&p[0], datum.bytes, 8, &count), VME_OK);
    want("their number", (uint8_t)count, 0);
    want("a write of nine bytes", vme_processor_start_write(&p[0], &write, (const uint8_t *)"123456789", 9), VME_K8);
    want("a write of no byte", vme_processor_start_write(&p[0], &write, datum.bytes, 0), VME_K8);
    want("K3", vme_read(&p[0], &waiter, AM, address(1, 3), 2, &datum), VME_K3);
    want("K1", vme_read(&p[0], &waiter, 0x2f, address(1, 0), 4, &datum), VME_K1);
    want("K9", vme_read(&p[0], &waiter, 0x40, address(1, 0), 4, &datum), VME_K9);
    want("no board", vme_read(&p[0], &waiter, AM, 0x0f000000, 4, &datum), VME_NO_BOARD);
    want("start", vme_processor_start_write(&p[0], &write, datum.bytes, 4), VME_OK);
    want("start of a second one", vme_processor_start_read(&p[0], &read), VME_BAD_CALL);
    want("acquire", vme_acquire(&p[0], &waiter), VME_OK);
    want("start of the other", vme_processor_start_read(&p[1], &read), VME_OK);
    want("its step", vme_processor_step(&p[1]), VME_NOT_GRANTED);
    want("its second step", vme_processor_step(&p[1]), VME_NOT_GRANTED);
    want("finish", vme_finish(&p[0], &waiter), VME_OK);
    want("step after the end", vme_processor_step(&p[0]), VME_OK);
    want("the other", vme_finish(&p[1], &waiter), VME_OK);
    want("its bytes", vme_processor_bytes(&p[1], datum.bytes, 8, &count), VME_OK);
    want("their number", (uint8_t)count, 4);
    want("their last one", datum.bytes[3], 4);
    want("with too few places", vme_processor_bytes(&p[1], datum.bytes, 3, &count), VME_BAD_CALL);
    want("their number", (uint8_t)count, 4);
    want("close", close_all(p, 2), VME_OK);
}

/* Transfers of one datum in one call: alone, and while another processor has the bus. */
static void check_single(void)
{
    vme_processor p[2] = { { 0, NULL }, { 0, NULL } }, empty = { 0, NULL };
    const vme_modify add = { VME_ADD, { 2, { 0, 1 } }, { 0, { 0 } } };
    const vme_request read = vme_request_of(VME_READ, AM, address(0, 0), 4, 0);
    const vme_datum datum = { 4, { 1, 2, 3, 4 } }, too_long = { 9, { 0 } }, none = { 0, { 0 } };
    vme_datum out = { 7, { 9 } };
    size_t count = 9;
    want("read of a closed one", vme_processor_read(&empty, AM, address(1, 4), 4, &out), VME_CLOSED);
    want("write of a closed one", vme_processor_write(&empty, AM, address(1, 4), &datum), VME_CLOSED);
    want("modify of a closed one", vme_processor_modify(&empty, AM, address(1, 4), 2, &add, &out), VME_CLOSED);
    open_two(p);
    want("a read of no byte", vme_processor_read(&p[0], AM, address(1, 4), 0, &out), VME_K8);
    want("a write of no byte", vme_processor_write(&p[0], AM, address(1, 4), &none), VME_K8);
    want("a write of nine bytes", vme_processor_write(&p[0], AM, address(1, 4), &too_long), VME_K8);
    want("an operand of two bytes for four", vme_processor_modify(&p[0], AM, address(1, 4), 4, &add, &out), VME_K8);
    want("K3", vme_processor_read(&p[0], AM, address(1, 3), 2, &out), VME_K3);
    want("K5", vme_processor_read(&p[0], BLOCK_AM, address(1, 4), 4, &out), VME_K5);
    want("no board", vme_processor_read(&p[0], AM, 0x0f000000, 4, &out), VME_NO_BOARD);
    want("what failed reads wrote", out.n, 7);
    want("write", vme_processor_write(&p[0], AM, address(1, 4), &datum), VME_OK);
    want("modify", vme_processor_modify(&p[1], AM, address(1, 6), 2, &add, &out), VME_OK);
    want("its old bytes", (uint8_t)(out.n == 2 && out.bytes[0] == 3 && out.bytes[1] == 4), 1);
    want("read", vme_processor_read(&p[0], AM, address(1, 4), 4, &out), VME_OK);
    want("its bytes", (uint8_t)(out.n == 4 && out.bytes[0] == 1 && out.bytes[3] == 5), 1);
    want("a step after its end", vme_processor_step(&p[0]), VME_BAD_CALL);
    want("bytes after its end", vme_processor_bytes(&p[0], out.bytes, 8, &count), VME_OK);
    want("their number", (uint8_t)count, 0);
    want("start", vme_processor_start_read(&p[0], &read), VME_OK);
    want("a read before its end", vme_processor_read(&p[0], AM, address(1, 4), 4, &out), VME_BAD_CALL);
    want("acquire", vme_acquire(&p[0], &waiter), VME_OK);
    want("a read while the bus is taken", vme_processor_read(&p[1], AM, address(1, 4), 4, &out), VME_NOT_GRANTED);
    want("it goes on", vme_processor_run(&p[1]), VME_NOT_GRANTED);
    want("a write before its end", vme_processor_write(&p[1], AM, address(1, 4), &datum), VME_BAD_CALL);
    want("finish", vme_finish(&p[0], &waiter), VME_OK);
    want("the other", vme_processor_run(&p[1]), VME_OK);
    want("its end again", vme_processor_step(&p[1]), VME_OK);
    want("its bytes", vme_processor_bytes(&p[1], out.bytes, 8, &count), VME_OK);
    want("their number and the last one", (uint8_t)(count == 4 && out.bytes[3] == 5), 1);
    want("a write after it", vme_processor_write(&p[1], AM, address(1, 4), &datum), VME_OK);
    want("close", close_all(p, 2), VME_OK);
}

/* A block past the end of a board moves the data before the end. */
static void check_blocks(void)
{
    uint8_t block[64];
    static uint8_t whole[256], back[256];
    size_t moved = 9;
    vme_processor p[2] = { { 0, NULL }, { 0, NULL } };
    vme_board boards[2] = { board_of(0), board_of(1) };
    boards[1].entry.size = 24;
    want("open", vme_machine_open(boards, 2, VME_PRIORITY, p, 2), VME_OK);
    for (uint8_t k = 0; k < sizeof block; k++)
        block[k] = (uint8_t)(k + 1);
    want("write", vme_block_write(&p[0], &waiter, BLOCK_AM, address(1, 0), 4, 16, block), VME_BERR);
    memset(block, 0, sizeof block);
    want("read", vme_block_read(&p[0], &waiter, BLOCK_AM, address(1, 0), 4, 16, block, &moved), VME_BERR);
    want("bytes that were read", (uint8_t)moved, 24);
    want("the last one", block[23], 24);
    for (size_t k = 0; k < sizeof whole; k++)
        whole[k] = (uint8_t)(k * 7 + 1);
    want("write of 256 bytes", vme_block_write(&p[1], &waiter, BLOCK_AM, address(0, 0), 4, 64, whole), VME_OK);
    want("read of 256 bytes", vme_block_read(&p[1], &waiter, BLOCK_AM, address(0, 0), 4, 64, back, &moved), VME_OK);
    want("the same bytes", (uint8_t)(moved == sizeof back && memcmp(whole, back, sizeof back) == 0), 1);
    want("a short read after a long one", vme_block_read(&p[1], &waiter, BLOCK_AM, address(0, 4), 2, 3, back, &moved), VME_OK);
    want("its bytes", (uint8_t)(moved == 6 && memcmp(whole + 4, back, 6) == 0), 1);
    want("K6", vme_block_read(&p[0], &waiter, BLOCK_AM, address(0, 252), 4, 2, block, &moved), VME_K6);
    want("close", close_all(p, 2), VME_OK);
}

int main(void)
{
    check_open();
    check_many();
    check_closed();
    check_close();
    check_transfers();
    check_single();
    check_blocks();
    puts("each misuse has its result");
    return 0;
}
