/* Locks and mailboxes, event by event: each end, each refusal, the replies and the transfers of a put, and two threads that pass words
   through a mailbox while a third one uses its board. The replies that the threads got are the steps that close counts. A step at a busy
   object changes nothing.

   usage: mailboxes WORDS */
#define _POSIX_C_SOURCE 200809L
#include "cases.h"

enum { SLOTS = 2, AT = 0x40 };
static const uint32_t LAST = 0xffffffffu;

/* On board 1. */
static const vme_mailbox box = { 0x08010000u + AT, SLOTS, AM }, large = { 0x08010000u + AT, 64, AM };
static vme_processor p[2];

static void open_two(void)
{
    open_crate(2);
    p[0] = cpus[0].p;
    p[1] = cpus[1].p;
}

static void close_two(void)
{
    uint64_t steps;
    uint8_t bytes;
    want("close", vme_machine_close(p, 2, &steps, 0, &bytes, 0), VME_OK);
}

static uint8_t put(vme_processor *own, const vme_mailbox *to, uint32_t word)
{
    const uint8_t result = vme_processor_start_put(own, to, word);
    return result == VME_OK ? vme_finish(own, &waiter) : result;
}

static uint8_t take(vme_processor *own, const vme_mailbox *from)
{
    const uint8_t result = vme_processor_start_take(own, from);
    return result == VME_OK ? vme_finish(own, &waiter) : result;
}

/* The byte or word at an offset of board 1. */
static uint32_t at(uint32_t offset, uint8_t n)
{
    vme_datum datum = { 0, { 0 } };
    want("local read", vme_processor_local_read(&p[1], &waiter, offset, n, &datum), VME_OK);
    return n == 1 ? datum.bytes[0] : vme_word_of(&datum);
}

static void store(uint32_t offset, uint32_t word)
{
    const vme_datum datum = vme_datum_of(word);
    want("local write", vme_processor_local_write(&p[1], &waiter, offset, &datum), VME_OK);
}

static void check_word(vme_processor *own, uint32_t wanted)
{
    uint32_t word = ~wanted;
    want("word", vme_processor_word(own, &word), VME_OK);
    want("the word", word == wanted, 1);
}

static void check_no_word(vme_processor *own)
{
    uint32_t word = 77;
    want("no word", vme_processor_word(own, &word), VME_BAD_CALL);
    want("what it wrote", word == 77, 1);
}

static void check_closed(void)
{
    vme_processor empty = { 0, NULL };
    vme_request request = { 7, 7, 7, 7, 7, { 7, { 7, { 7 } }, { 7, { 7 } } } };
    vme_datum bytes = { 7, { 7 } };
    uint32_t word = 7;
    uint8_t reply = 7;
    want("lock of a closed one", vme_processor_start_lock(&empty, AM, box.addr), VME_CLOSED);
    want("unlock of a closed one", vme_processor_start_unlock(&empty, AM, box.addr), VME_CLOSED);
    want("put of a closed one", vme_processor_start_put(&empty, &box, 1), VME_CLOSED);
    want("take of a closed one", vme_processor_start_take(&empty, &box), VME_CLOSED);
    want("step of a closed one", vme_processor_step_reply(&empty, &reply, &bytes), VME_CLOSED);
    want("run of a closed one", vme_processor_run(&empty), VME_CLOSED);
    want("word of a closed one", vme_processor_word(&empty, &word), VME_CLOSED);
    want("transfer of a closed one", vme_processor_transfer(&empty, &request, &bytes), VME_CLOSED);
    want("what they wrote", word == 7 && reply == 7 && bytes.n == 7 && request.addr == 7 && request.n == 7, 1);
}

/* Mailboxes that are not lawful, codes that no lock has, and a processor that does something else. */
static void check_refusals(void)
{
    const vme_mailbox odd = { box.addr + 2, 1, AM }, none = { box.addr, 0, AM }, many = { box.addr, 65, AM };
    const vme_mailbox wraps = { box.addr, 257, AM }, past = { 0xfffffff0u, 1, AM }, last = { 0xffffffecu, 1, AM };
    const vme_mailbox block = { box.addr, 1, BLOCK_AM }, narrow = { 0x00ffffecu, 2, 0x39 };
    const vme_mailbox *const unlawful[] = { &odd, &none, &many, &wraps, &past };
    const vme_request read = vme_request_of(VME_READ, AM, box.addr, 4, 0);
    vme_request request;
    vme_datum bytes;
    open_two();
    for (size_t i = 0; i < sizeof unlawful / sizeof *unlawful; i++) {
        want("put into no mailbox", vme_processor_start_put(&p[0], unlawful[i], 1), VME_C13);
        want("take from no mailbox", vme_processor_start_take(&p[0], unlawful[i]), VME_C13);
    }
    want("step of nothing", vme_processor_step(&p[0]), VME_BAD_CALL);
    want("run of nothing", vme_processor_run(&p[0]), VME_BAD_CALL);
    want("transfer of nothing", vme_processor_transfer(&p[0], &request, &bytes), VME_BAD_CALL);
    check_no_word(&p[0]);
    want("a reserved code", vme_processor_start_lock(&p[0], 0x2f, box.addr), VME_K1);
    want("a program's code", vme_processor_start_lock(&p[0], 0x0a, box.addr), VME_K7);
    want("a block's code", vme_processor_start_put(&p[0], &block, 1), VME_K5);
    want("words past the space", vme_processor_start_take(&p[0], &narrow), VME_K4);
    want("a mailbox at the last addresses", take(&p[0], &last), VME_NO_BOARD);
    want("start", vme_processor_start_take(&p[0], &box), VME_OK);
    want("a read meanwhile", vme_processor_start_read(&p[0], &read), VME_BAD_CALL);
    want("a lock meanwhile", vme_processor_start_lock(&p[0], AM, box.addr), VME_BAD_CALL);
    want("no mailbox meanwhile", vme_processor_start_put(&p[0], &odd, 1), VME_C13);
    want("the end", vme_finish(&p[0], &waiter), VME_EMPTY);
    want("start", vme_processor_start_read(&p[0], &read), VME_OK);
    want("a put meanwhile", vme_processor_start_put(&p[0], &box, 1), VME_BAD_CALL);
    want("the end", vme_finish(&p[0], &waiter), VME_OK);
    close_two();
}

static void check_locks(void)
{
    size_t count = 9;
    uint8_t bytes[8];
    open_two();
    want("lock", vme_try_lock(&p[0], &waiter, AM, box.addr), VME_OK);
    want("bytes of a lock", vme_processor_bytes(&p[0], bytes, 8, &count), VME_OK);
    want("their number", (uint8_t)count, 0);
    want("its byte", at(AT, 1) == 0x80, 1);
    want("lock by the other", vme_try_lock(&p[1], &waiter, AM, box.addr), VME_HELD);
    want("step after the end", vme_processor_step(&p[1]), VME_HELD);
    want("put behind the lock", put(&p[1], &box, 5), VME_HELD);
    want("take behind the lock", take(&p[1], &box), VME_HELD);
    check_no_word(&p[1]);
    want("the byte and the counts", at(AT, 1) == 0x80 && at(AT + 4, 4) == 0 && at(AT + 8, 4) == 0, 1);
    store(AT, 0xff000000u);
    want("lock of a byte of ones", vme_try_lock(&p[1], &waiter, AM, box.addr), VME_HELD);
    want("unlock", vme_unlock(&p[1], &waiter, AM, box.addr), VME_OK);
    want("its byte", at(AT, 1) == 0, 1);
    store(AT, 0x7f000000u);
    want("lock of a byte without bit 7", vme_try_lock(&p[1], &waiter, AM, box.addr), VME_OK);
    want("its byte", at(AT, 1) == 0xff, 1);
    want("no board", vme_try_lock(&p[0], &waiter, AM, 0x0f000000u), VME_NO_BOARD);
    want("no board", vme_unlock(&p[0], &waiter, AM, 0x0f000000u), VME_NO_BOARD);
    close_two();
}

static void check_mailbox(void)
{
    size_t count = 9;
    uint8_t bytes[8];
    const vme_mailbox over = { 0x08010000u + BOARD_SIZE - 16, SLOTS, AM }, nowhere = { 0x0f000000u, SLOTS, AM };
    open_two();
    want("take from an empty one", take(&p[0], &box), VME_EMPTY);
    check_no_word(&p[0]);
    want("put", put(&p[0], &box, 0x01020304), VME_OK);
    check_no_word(&p[0]);
    want("put", put(&p[1], &box, 0xa1b2c3d4), VME_OK);
    want("put into a full one", put(&p[0], &box, 7), VME_FULL);
    want("step after the end", vme_processor_step(&p[0]), VME_FULL);
    want("the lock and the counts", at(AT, 1) == 0 && at(AT + 4, 4) == 2 && at(AT + 8, 4) == 0, 1);
    want("the words", at(AT + 16, 4) == 0x01020304 && at(AT + 20, 4) == 0xa1b2c3d4, 1);
    want("take", take(&p[1], &box), VME_OK);
    check_word(&p[1], 0x01020304);
    want("bytes of a take", vme_processor_bytes(&p[1], bytes, 8, &count), VME_OK);
    want("their number", (uint8_t)count, 0);
    want("put", put(&p[0], &box, 0x11223344), VME_OK);
    want("the first slot", at(AT + 16, 4) == 0x11223344, 1);
    want("take", take(&p[1], &box), VME_OK);
    check_word(&p[1], 0xa1b2c3d4);
    want("take", take(&p[0], &box), VME_OK);
    check_word(&p[0], 0x11223344);
    want("take from an empty one", take(&p[0], &box), VME_EMPTY);
    store(AT + 4, 0xffffffffu);
    store(AT + 8, 0xfffffffeu);
    want("put after 2^32 - 1 words", put(&p[0], &box, 1), VME_SPENT);
    want("take of the last word", take(&p[0], &box), VME_OK);
    check_word(&p[0], 0x11223344);
    want("the lock and the counts", at(AT, 1) == 0 && at(AT + 4, 4) == 0xffffffffu && at(AT + 8, 4) == 0xffffffffu, 1);
    want("words past the board", put(&p[0], &over, 1), VME_BERR);
    want("its lock and count", at(BOARD_SIZE - 16, 1) == 0 && at(BOARD_SIZE - 12, 4) == 0, 1);
    want("no board", put(&p[0], &nowhere, 1), VME_NO_BOARD);
    close_two();
}

/* ---- The events of a put ---- */

static void check_step(uint8_t result, uint8_t wanted_reply, uint8_t wanted_n)
{
    uint8_t reply = 0xee;
    vme_datum bytes = { 0, { 0 } };
    want("a step of a put", vme_processor_step_reply(&p[0], &reply, &bytes), result);
    want("its reply", reply, wanted_reply);
    want("the bytes of its reply", bytes.n, wanted_n);
}

/* One transfer of a put: its request, the bytes that it writes, and its three events, of which the last has this result. */
static void check_tenure(uint8_t kind, uint32_t offset, uint8_t n, uint32_t written, uint8_t result)
{
    vme_request request;
    vme_datum bytes = { 0, { 0 } };
    memset(&request, 0xee, sizeof request);
    for (int i = 0; i < 3; i++) {
        want("transfer", vme_processor_transfer(&p[0], &request, &bytes), VME_OK);
        want("its kind", request.kind, kind);
        want("its request", request.am == AM && request.addr == box.addr + offset && request.n == n, 1);
        want("its function", request.f.function, kind == VME_MODIFY ? VME_SET : 0);
        want("its bytes", kind != VME_WRITE || (bytes.n == n && (n == 1 ? bytes.bytes[0] : vme_word_of(&bytes)) == written), 1);
        if (i == 0)
            check_step(VME_MORE, VME_BUS_GRANTED, 0);
        else if (i == 1)
            check_step(VME_MORE, VME_OK, kind == VME_WRITE ? 0 : n);
        else
            check_step(result, VME_BUS_FREED, 0);
    }
}

static void check_events(void)
{
    vme_request request;
    vme_datum bytes;
    open_two();
    store(AT + 4, 1);
    store(AT + 8, 1);
    want("start", vme_processor_start_put(&p[0], &box, 0xcafe0001u), VME_OK);
    check_tenure(VME_MODIFY, 0, 1, 0, VME_MORE);
    check_tenure(VME_READ, 4, 4, 0, VME_MORE);
    check_tenure(VME_READ, 8, 4, 0, VME_MORE);
    check_tenure(VME_WRITE, 20, 4, 0xcafe0001u, VME_MORE);
    check_tenure(VME_WRITE, 4, 4, 2, VME_MORE);
    check_tenure(VME_WRITE, 0, 1, 0, VME_OK);
    check_step(VME_OK, VME_BAD_CALL, 0);
    want("transfer after the end", vme_processor_transfer(&p[0], &request, &bytes), VME_BAD_CALL);
    want("a read", vme_processor_start_read(&p[1], &(vme_request){ box.addr, 0, AM, VME_READ, 4, { 0, { 0, { 0 } }, { 0, { 0 } } } }), VME_OK);
    want("it has the bus", vme_acquire(&p[1], &waiter), VME_OK);
    want("start", vme_processor_start_take(&p[0], &box), VME_OK);
    check_step(VME_NOT_GRANTED, VME_NOT_GRANTED, 0);
    check_step(VME_NOT_GRANTED, VME_NOT_GRANTED, 0);
    want("its end", vme_finish(&p[1], &waiter), VME_OK);
    want("take", vme_finish(&p[0], &waiter), VME_OK);
    check_word(&p[0], 0xcafe0001u);
    close_two();
}

/* ---- Several events in a call ---- */

enum { ARBITER = 2, TENURES = 6 /* of a put */ };

static void close_with(uint64_t own, uint64_t board, uint64_t arbiter)
{
    uint64_t steps[3];
    uint8_t bytes;
    want("close", vme_machine_close(p, 2, steps, 3, &bytes, 0), VME_OK);
    want("the steps", steps[0] == own && steps[1] == board && steps[ARBITER] == arbiter, 1);
}

/* A put makes a tenure in each call, and a transfer all of its events. The last result is returned again. */
static void check_runs(void)
{
    const vme_request read = vme_request_of(VME_READ, AM, box.addr, 4, 0), nowhere = vme_request_of(VME_READ, AM, 0x0f000000u, 4, 0);
    const vme_request block = vme_request_of(VME_BLOCK_READ, BLOCK_AM, box.addr, 4, 16);
    uint8_t bytes[64];
    size_t count = 0;
    open_two();
    want("start", vme_processor_start_put(&p[0], &box, 0xcafe0001u), VME_OK);
    for (int i = 1; i < TENURES; i++)
        want("a tenure of a put", vme_processor_run(&p[0]), VME_MORE);
    want("the last one", vme_processor_run(&p[0]), VME_OK);
    want("after the end", vme_processor_run(&p[0]), VME_OK);
    want("start", vme_processor_start_read(&p[1], &read), VME_OK);
    want("it has the bus", vme_processor_step(&p[1]), VME_MORE);
    want("start", vme_processor_start_take(&p[0], &box), VME_OK);
    for (int i = 0; i < 3; i++)
        want("a run without the bus", vme_processor_run(&p[0]), VME_NOT_GRANTED);
    want("the rest of the read", vme_processor_run(&p[1]), VME_OK);
    for (int i = 1; i < TENURES; i++)
        want("a tenure of a take", vme_processor_run(&p[0]), VME_MORE);
    want("the last one", vme_processor_run(&p[0]), VME_OK);
    check_word(&p[0], 0xcafe0001u);
    want("start", vme_processor_start_read(&p[0], &nowhere), VME_OK);
    want("no board", vme_processor_run(&p[0]), VME_NO_BOARD);
    want("start", vme_processor_start_read(&p[0], &block), VME_OK);
    want("a block", vme_processor_run(&p[0]), VME_OK);
    want("its bytes", vme_processor_bytes(&p[0], bytes, sizeof bytes, &count) == VME_OK && count == sizeof bytes && bytes[19] == 1, 1);
    close_with(0, 2 * TENURES + 1 + 16, 2 * (2 * TENURES + 3) + 3);
}

/* ---- Busy objects ---- */

/* Of checks/machine_double.c alone: takes an object as a call of another processor does, or frees it. */
__attribute__((weak)) void machine_double_hold(vme_processor *p, size_t i, int is_held);

/* A step while an object is held has made no event: the transfer is the same, and neither reply nor steps say otherwise. */
static void check_held(size_t object)
{
    vme_request before, after;
    vme_datum bytes, written = { 7, { 7 } };
    machine_double_hold(&p[0], object, 1);
    memset(&before, 0, sizeof before);
    memset(&after, 0, sizeof after);
    want("transfer", vme_processor_transfer(&p[0], &before, &bytes), VME_OK);
    for (int i = 0; i < 3; i++) {
        uint8_t reply = 0xee;
        want("a step at a busy object", vme_processor_step_reply(&p[0], &reply, &written), VME_BUSY);
        want("its reply", reply, VME_BUSY);
        want("what it wrote", written.n, 7);
        want("the same step", vme_processor_step(&p[0]), VME_BUSY);
        want("the same run", vme_processor_run(&p[0]), VME_BUSY);
    }
    want("transfer", vme_processor_transfer(&p[0], &after, &bytes), VME_OK);
    want("the same transfer", memcmp(&before, &after, sizeof before) == 0, 1);
    machine_double_hold(&p[0], object, 0);
}

/* A put whose arbiter or board is busy before each event: it has the events, the steps and the words of a put that meets nobody. */
static void check_busy(void)
{
    vme_datum out = { 7, { 7 } };
    if (!machine_double_hold || getenv("VME_TRACE")) /* a machine with a log has another struct */
        return;
    open_two();
    want("start", vme_processor_start_put(&p[0], &box, 0xcafe0001u), VME_OK);
    for (int i = 0; i < TENURES; i++) {
        check_held(ARBITER);
        check_step(VME_MORE, VME_BUS_GRANTED, 0);
        check_held(1);
        check_step(VME_MORE, VME_OK, i < 3 ? (i == 0 ? 1 : 4) : 0);
        check_held(ARBITER);
        check_step(i < TENURES - 1 ? VME_MORE : VME_OK, VME_BUS_FREED, 0);
    }
    machine_double_hold(&p[0], 1, 1);
    want("a local read of a busy board", vme_processor_try_local_read(&p[1], AT, 4, &out), VME_BUSY);
    want("what it wrote", out.n, 7);
    want("start", vme_processor_start_take(&p[0], &box), VME_OK);
    want("a run up to a busy board", vme_processor_run(&p[0]), VME_BUSY);
    machine_double_hold(&p[0], 1, 0);
    check_step(VME_MORE, VME_OK, 1);
    machine_double_hold(&p[0], ARBITER, 1);
    want("a run at a busy arbiter", vme_processor_run(&p[0]), VME_BUSY);
    machine_double_hold(&p[0], ARBITER, 0);
    want("the rest of the tenure", vme_processor_run(&p[0]), VME_MORE);
    close_with(0, TENURES + 1, 2 * TENURES + 2);
}

/* ---- Threads ---- */

static uint32_t words;
static uint64_t board_events[3], bus_events[3], busy[3], local_steps;
static int is_done;

/* Steps a put or a take until it ends, and counts what its replies say. */
static uint8_t count_steps(size_t i)
{
    for (;;) {
        uint8_t reply = VME_BUSY;
        vme_datum bytes;
        vme_before_event(&waiter);
        const uint8_t result = vme_processor_step_reply(&cpus[i].p, &reply, &bytes);
        vme_after_event(&waiter);
        board_events[i] += reply == VME_OK || reply == VME_BERR;
        bus_events[i] += reply == VME_BUS_GRANTED || reply == VME_NOT_GRANTED || reply == VME_BUS_FREED;
        busy[i] += reply == VME_BUSY;
        if (result == VME_BUSY || result == VME_NOT_GRANTED)
            sched_yield();
        else if (result != VME_MORE)
            return result;
    }
}

static void *send(void)
{
    for (uint32_t i = 0;;) {
        const int is_last = i == words;
        want("start", vme_processor_start_put(&cpus[0].p, &large, is_last ? LAST : i * 3 + 1), VME_OK);
        const uint8_t result = count_steps(0);
        if (result != VME_HELD && result != VME_FULL)
            want("put", result, VME_OK);
        i += result == VME_OK;
        if (is_last && result == VME_OK)
            return NULL;
    }
}

static void *receive(void)
{
    for (uint32_t i = 0, word = 0; word != LAST;) {
        want("start", vme_processor_start_take(&cpus[2].p, &large), VME_OK);
        const uint8_t result = count_steps(2);
        if (result == VME_HELD || result == VME_EMPTY)
            continue;
        want("take", result, VME_OK);
        want("word", vme_processor_word(&cpus[2].p, &word), VME_OK);
        want("the word", word == (i == words ? LAST : i * 3 + 1), 1);
        i++;
    }
    __atomic_store_n(&is_done, 1, __ATOMIC_SEQ_CST);
    return NULL;
}

static void *use_board(void)
{
    vme_datum datum;
    while (!__atomic_load_n(&is_done, __ATOMIC_SEQ_CST)) {
        vme_before_event(&waiter);
        local_steps += vme_processor_try_local_read(&cpus[1].p, AT + 4, 4, &datum) == VME_OK;
        vme_after_event(&waiter);
        sched_yield();
    }
    return NULL;
}

static void *work(void *index)
{
    const size_t i = *(size_t *)index;
    return i == 0 ? send() : i == 2 ? receive() : use_board();
}

static void check_threads(void)
{
    open_crate(3);
    run_each(3, work);
    close_crate(3);
    want("the board's steps", last_steps[1] == board_events[0] + board_events[2] + local_steps, 1);
    want("the arbiter's steps", last_steps[3] == bus_events[0] + bus_events[2], 1);
    want("steps of the other boards", last_steps[0] == 0 && last_steps[2] == 0, 1);
}

int main(int argc, char **argv)
{
    words = argc > 1 ? (uint32_t)strtoul(argv[1], NULL, 10) : 100;
    check_closed();
    check_refusals();
    check_locks();
    check_mailbox();
    check_events();
    check_runs();
    check_busy();
    check_threads();
    printf("%u words through a mailbox, %llu of their steps at a busy object; each end of a lock, a put and a take\n", words,
           (unsigned long long)(busy[0] + busy[2]));
    return 0;
}
