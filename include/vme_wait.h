/* vme_wait.h: calls of vme_machine.h that wait. C11 and C++11, for gcc, clang and compilers with their atomics.
 *
 * A call of the machine only tries. A call of this file tries again until it has ended:
 *
 * - while another thread is inside the same object (VME_BUSY), it spins, yields, and then sleeps;
 * - while another slot has the bus (VME_NOT_GRANTED), it looks at a count of releases, which each release of
 *   the bus by this file increments, yields, and in the end sleeps on it until a release wakes it;
 * - a lock that another processor has is tried again after a write, a put or a take of this file that ended;
 * - a put or a take is tried again after one of this file that moved a word, while the mailbox is full or empty.
 *
 * Each sleep takes 1 ms at most, so no lost wake-up blocks for ever, even if other code calls the machine
 * without this file. Fairness is not promised. On Linux a sleep is a futex, which needs no setup and works
 * between processes; elsewhere it is a mutex with a condition variable.
 *
 * Nothing of this file is proved, and no proof depends on it: it decides when to call the machine, and the
 * machine's replies are what it returns. What a lock, a put or a take does on the bus is the machine's.
 *
 * vme_waiter.h says how a waiter is made.
 */
#ifndef VME_WAIT_H
#define VME_WAIT_H

#include "vme_waiter.h"

#ifdef __cplusplus
extern "C" {
#endif

/* ---- The local port of the processor's own board ---- */

/* Makes a call of one event again while its object is busy. */
#define VME_UNTIL_FREE(result, waiter, call) \
    do { \
        vme_tries tries_ = { 0, 0 }; \
        do { \
            vme_before_event(waiter); \
            (result) = (call); \
            vme_after_event(waiter); \
        } while ((result) == VME_BUSY && vme_wait((waiter), NULL, 0, &tries_)); \
    } while (0)

/* As vme_processor_try_local_read, but it waits while the board is busy. */
static inline uint8_t vme_processor_local_read(vme_processor *p, const vme_waiter *waiter, uint32_t at, uint8_t n, vme_datum *out)
{
    uint8_t result;
    VME_UNTIL_FREE(result, waiter, vme_processor_try_local_read(p, at, n, out));
    return result;
}

/* As vme_processor_try_local_write, but it waits while the board is busy. */
static inline uint8_t vme_processor_local_write(vme_processor *p, const vme_waiter *waiter, uint32_t at, const vme_datum *datum)
{
    uint8_t result;
    VME_UNTIL_FREE(result, waiter, vme_processor_try_local_write(p, at, datum));
    return result;
}

/* As vme_processor_try_local_modify, but it waits while the board is busy. */
static inline uint8_t vme_processor_local_modify(vme_processor *p, const vme_waiter *waiter, uint32_t at, uint8_t n,
                                                 const vme_modify *f, vme_datum *out)
{
    uint8_t result;
    VME_UNTIL_FREE(result, waiter, vme_processor_try_local_modify(p, at, n, f, out));
    return result;
}

#undef VME_UNTIL_FREE

/* ---- Transfers over the bus ---- */

/* Makes the next event of what was started if `once` is not 0, and otherwise events as vme_processor_run does. Returns the result of the last
 * step, and writes whether the bus may have been released. */
static inline uint8_t vme_make_events(vme_processor *p, const vme_waiter *waiter, int once, int *released)
{
    uint8_t result, reply = VME_BAD_CALL;
    vme_datum bytes;
#ifndef VME_HAS_TSAN /* it sees each event */
    if (!once) {
        result = vme_processor_run(p);
        *released = result != VME_BUSY && result != VME_NOT_GRANTED;
        return result;
    }
#endif
    do {
        vme_before_event(waiter);
        result = vme_processor_step_reply(p, &reply, &bytes);
        vme_after_event(waiter);
    } while (!once && result == VME_MORE && reply != VME_BUS_FREED);
    *released = reply == VME_BUS_FREED;
    return result;
}

/* Whether what was started goes on after a call that returned this: another thread is inside the object, or another slot has the bus. */
static inline int vme_goes_on(uint8_t result)
{
    return result == VME_BUSY || result == VME_NOT_GRANTED;
}

/* Waits once after a call that returned one of these. The count of releases had this value before it. Returns 0 if the waiter's limit is
 * reached. */
static inline int vme_wait_for_bus(const vme_waiter *waiter, uint8_t result, uint32_t value, vme_tries *tries)
{
    return vme_wait(waiter, result == VME_BUSY ? NULL : vme_bus_of(waiter), value, tries);
}

/* Steps what was started until it ends, or until its next event if `once` is not 0, after these tries. Returns the result of the last step.
 * Each release of the bus wakes those that wait for it. */
static inline uint8_t vme_go_on_after(vme_processor *p, const vme_waiter *waiter, int once, vme_tries *tries)
{
    for (;;) {
        const uint32_t value = vme_count_value(vme_bus_of(waiter));
        int released;
        const uint8_t result = vme_make_events(p, waiter, once, &released);
        if (released)
            vme_count_increment(vme_bus_of(waiter));
        if (result == VME_MORE && !once)
            memset(tries, 0, sizeof *tries);
        else if (!vme_goes_on(result) || !vme_wait_for_bus(waiter, result, value, tries))
            return result;
    }
}

/* The same without tries before. */
static inline uint8_t vme_go_on(vme_processor *p, const vme_waiter *waiter, int once)
{
    vme_tries tries = { 0, 0 };
    return vme_go_on_after(p, waiter, once, &tries);
}

/* Steps a transfer that was started until the processor has the bus, which it keeps until the transfer ends: what other processors do
 * between their own VME_OK and their end, they do before or after. Returns VME_OK, what the waiter's limit gives, VME_BAD_CALL or
 * VME_CLOSED. */
static inline uint8_t vme_acquire(vme_processor *p, const vme_waiter *waiter)
{
    const uint8_t result = vme_go_on(p, waiter, 1);
    return result == VME_MORE ? (uint8_t)VME_OK : result;
}

/* Steps a transfer, a lock, an unlock, a put or a take that was started until it ends, and returns the result of the last step. */
static inline uint8_t vme_finish(vme_processor *p, const vme_waiter *waiter)
{
    return vme_go_on(p, waiter, 0);
}

/* Wakes those that wait for a write, after a transfer that wrote and ended with this result, which it returns. */
static inline uint8_t vme_note_write(const vme_waiter *waiter, uint8_t result)
{
    if (result == VME_OK || result == VME_BERR)
        vme_count_increment(vme_data_of(waiter));
    return result;
}

/* The same as vme_finish for a transfer that writes. */
static inline uint8_t vme_finish_write(vme_processor *p, const vme_waiter *waiter)
{
    return vme_note_write(waiter, vme_finish(p, waiter));
}

static inline vme_request vme_request_of(uint8_t kind, uint8_t am, uint32_t addr, uint8_t n, uint16_t count)
{
    vme_request request;
    memset(&request, 0, sizeof request);
    request.kind = kind;
    request.am = am;
    request.addr = addr;
    request.n = n;
    request.count = count;
    return request;
}

/* The bytes of the last transfer as a datum. */
static inline uint8_t vme_read_bytes(vme_processor *p, vme_datum *out)
{
    size_t count = 0;
    vme_datum datum = { 0, { 0 } };
    const uint8_t result = vme_processor_bytes(p, datum.bytes, sizeof datum.bytes, &count);
    datum.n = (uint8_t)count;
    if (result == VME_OK)
        *out = datum;
    return result;
}

/* A word of 32 bits as a datum, the most significant byte first, and the word of a datum of four bytes. */
static inline vme_datum vme_datum_of(uint32_t word)
{
    const vme_datum datum = { 4, { (uint8_t)(word >> 24), (uint8_t)(word >> 16), (uint8_t)(word >> 8), (uint8_t)word } };
    return datum;
}

static inline uint32_t vme_word_of(const vme_datum *datum)
{
    return (uint32_t)datum->bytes[0] << 24 | (uint32_t)datum->bytes[1] << 16 | (uint32_t)datum->bytes[2] << 8 | datum->bytes[3];
}

/* What follows a call that made a transfer of one datum and returned this: waits until the transfer ends, if it goes on, and else wakes those
 * that wait for the bus. The count of releases had this value before the call. Returns the result of the end. */
static inline uint8_t vme_follow(vme_processor *p, const vme_waiter *waiter, uint32_t value, uint8_t result)
{
    vme_tries tries = { 0, 0 };
    if (vme_goes_on(result))
        return vme_wait_for_bus(waiter, result, value, &tries) ? vme_go_on_after(p, waiter, 0, &tries) : result;
    if (result == VME_OK || result == VME_BERR || result == VME_NO_BOARD)
        vme_count_increment(vme_bus_of(waiter));
    return result;
}

/* Reads n bytes at an address by one cycle. Returns VME_OK, VME_BERR, VME_NO_BOARD, a refusal, or what the waiter's limit
 * gives. */
static inline uint8_t vme_read(vme_processor *p, const vme_waiter *waiter, uint8_t am, uint32_t addr, uint8_t n, vme_datum *out)
{
    const uint32_t value = vme_count_value(vme_bus_of(waiter));
    uint8_t first, result;
    vme_before_event(waiter);
    first = vme_processor_read(p, am, addr, n, out);
    vme_after_event(waiter);
    result = vme_follow(p, waiter, value, first);
    return result == VME_OK && first != VME_OK ? vme_read_bytes(p, out) : result;
}

/* Writes a datum at an address by one cycle. Returns what a read does. */
static inline uint8_t vme_write(vme_processor *p, const vme_waiter *waiter, uint8_t am, uint32_t addr, const vme_datum *datum)
{
    const uint32_t value = vme_count_value(vme_bus_of(waiter));
    uint8_t result;
    vme_before_event(waiter);
    result = vme_processor_write(p, am, addr, datum);
    vme_after_event(waiter);
    return vme_note_write(waiter, vme_follow(p, waiter, value, result));
}

/* Modifies n bytes at an address in one step, and writes the old ones to out. Returns what a read does. */
static inline uint8_t vme_read_modify_write(vme_processor *p, const vme_waiter *waiter, uint8_t am, uint32_t addr, uint8_t n,
                                            const vme_modify *f, vme_datum *out)
{
    const uint32_t value = vme_count_value(vme_bus_of(waiter));
    uint8_t first, result;
    vme_before_event(waiter);
    first = vme_processor_modify(p, am, addr, n, f, out);
    vme_after_event(waiter);
    result = vme_note_write(waiter, vme_follow(p, waiter, value, first));
    return result == VME_OK && first != VME_OK ? vme_read_bytes(p, out) : result;
}

/* Reads a block of count data of n bytes each to out, which has count * n bytes. Writes to moved how many bytes were read: all with
 * VME_OK, and with VME_BERR those before the error. Returns what a read does, and VME_NO_MEMORY. */
static inline uint8_t vme_block_read(vme_processor *p, const vme_waiter *waiter, uint8_t am, uint32_t addr, uint8_t n, uint16_t count,
                                     uint8_t *out, size_t *moved)
{
    const vme_request request = vme_request_of(VME_BLOCK_READ, am, addr, n, count);
    uint8_t result = vme_processor_start_read(p, &request);
    *moved = 0;
    if (result != VME_OK)
        return result;
    result = vme_finish(p, waiter);
    if (result == VME_OK || result == VME_BERR)
        vme_processor_bytes(p, out, (size_t)n * count, moved);
    return result;
}

/* Writes a block of count data of n bytes each. With VME_BERR the data before the error were written. Returns what vme_block_read does. */
static inline uint8_t vme_block_write(vme_processor *p, const vme_waiter *waiter, uint8_t am, uint32_t addr, uint8_t n, uint16_t count,
                                      const uint8_t *bytes)
{
    const vme_request request = vme_request_of(VME_BLOCK_WRITE, am, addr, n, count);
    const uint8_t result = vme_processor_start_write(p, &request, bytes, (size_t)n * count);
    return result == VME_OK ? vme_finish_write(p, waiter) : result;
}

/* ---- Locks and mailboxes ---- */

/* Tries once to take the lock at an address. Returns VME_OK if the processor has the lock now, VME_HELD if the bit was set before, and
 * else what a read does. */
static inline uint8_t vme_try_lock(vme_processor *p, const vme_waiter *waiter, uint8_t am, uint32_t addr)
{
    const uint8_t result = vme_processor_start_lock(p, am, addr);
    return result == VME_OK ? vme_finish(p, waiter) : result;
}

/* Takes the lock at an address, and waits until it is free. Returns VME_HELD if the waiter's limit is reached, and else what a
 * read does. */
static inline uint8_t vme_lock(vme_processor *p, const vme_waiter *waiter, uint8_t am, uint32_t addr)
{
    vme_tries tries = { 0, 0 };
    for (;;) {
        const uint32_t value = vme_count_value(vme_data_of(waiter));
        const uint8_t result = vme_try_lock(p, waiter, am, addr);
        if (result != VME_HELD || !vme_wait(waiter, vme_data_of(waiter), value, &tries))
            return result;
    }
}

/* Gives the lock at an address back: clears its byte. Returns what a read does. */
static inline uint8_t vme_unlock(vme_processor *p, const vme_waiter *waiter, uint8_t am, uint32_t addr)
{
    const uint8_t result = vme_processor_start_unlock(p, am, addr);
    return result == VME_OK ? vme_finish_write(p, waiter) : result;
}

/* Puts a word into a mailbox, or takes one if word is null, until one has been moved. */
static inline uint8_t vme_use_mailbox(vme_processor *p, const vme_waiter *waiter, const vme_mailbox *box, const uint32_t *word)
{
    vme_tries locked = { 0, 0 }, moved = { 0, 0 };
    for (;;) {
        const uint32_t data = vme_count_value(vme_data_of(waiter)), words = vme_count_value(vme_words_of(waiter));
        uint8_t result = word ? vme_processor_start_put(p, box, *word) : vme_processor_start_take(p, box);
        if (result != VME_OK)
            return result;
        result = vme_finish(p, waiter);
        if (result == VME_HELD) {
            if (!vme_wait(waiter, vme_data_of(waiter), data, &locked))
                return result;
            continue;
        }
        memset(&locked, 0, sizeof locked);
        vme_count_increment(vme_data_of(waiter)); /* its lock is free again */
        if (result == VME_OK)
            vme_count_increment(vme_words_of(waiter));
        if ((result != VME_FULL && result != VME_EMPTY) || !vme_wait(waiter, vme_words_of(waiter), words, &moved))
            return result;
    }
}

/* Puts a word into a mailbox, and waits until there is a slot. Returns VME_FULL if the waiter's limit is reached, VME_SPENT after
 * 2^32 - 1 words, VME_C13 if the mailbox is not lawful, and else what vme_lock does. After VME_BUSY or VME_NOT_GRANTED the put goes on:
 * vme_finish continues it. */
static inline uint8_t vme_put(vme_processor *p, const vme_waiter *waiter, const vme_mailbox *box, uint32_t word)
{
    return vme_use_mailbox(p, waiter, box, &word);
}

/* Takes the oldest word of a mailbox, and waits until there is one. Returns VME_EMPTY if the waiter's limit is reached, and else what
 * vme_put does. */
static inline uint8_t vme_take(vme_processor *p, const vme_waiter *waiter, const vme_mailbox *box, uint32_t *word)
{
    const uint8_t result = vme_use_mailbox(p, waiter, box, NULL);
    return result == VME_OK ? vme_processor_word(p, word) : result;
}

#ifdef __cplusplus
}
#endif

#endif
