/* vme_machine.h: one backplane of the VMEbus as a shared object, for programs with threads.
 *
 * A machine is the boards and the arbiter of one backplane. A processor is the right of one board's
 * program to use them: a program opens a machine, gets a processor for each slot, and gives each to one
 * host thread. It is proved that the events of all processors have one order in which each reply is that
 * of a sequential byte memory or of the arbiter, and in which the events of one processor keep theirs.
 *
 * Waiting.   No call waits. A call that meets another thread inside the same object returns VME_BUSY and
 *            has changed nothing. vme_wait.h has calls that wait.
 * Memory.    A machine lies in memory that rattle_alloc gives: libvme_machine has one over malloc. A program
 *            that defines rattle_alloc, rattle_realloc and rattle_dealloc of vme_alloc.h itself chooses the memory. Opening,
 *            loading, closing and dropping allocate and free. A start allocates only for a block that reads or writes more
 *            than 40 bytes, and frees that of the transfer before. No call that makes an event allocates or frees.
 * Results.   VME_OK or the reason of a failure. A call that fails has written nothing but what its
 *            comment says.
 *
 * What the caller owes. Nothing can test it, unless the text of a call says so:
 *
 * 1. A vme_processor starts as zeros, and the library alone changes it. It may be moved: copied, and the
 *    old one set to zeros. It is never used as two. vme_machine_open and vme_machine_load get empty ones; what a
 *    full one has is lost.
 * 2. At most one call at a time uses a processor. Another thread may use it later, if a lock, the start or
 *    the join of a thread, or a sequentially consistent atomic orders the two calls.
 * 3. vme_machine_close gets all processors of one machine, each once, while no call runs.
 * 4. Pointers are not null, not even with length 0, and aligned. They point to objects of their types, which
 *    are initialized unless the call only writes them. What a call writes overlaps no other argument.
 * 5. The three functions rattle_alloc, rattle_realloc and rattle_dealloc are one allocator, which aligns to
 *    16 bytes.
 * 6. No signal handler calls with a processor that an interrupted call uses, and no fork while a call runs.
 */
#ifndef VME_MACHINE_H
#define VME_MACHINE_H

#include "vme.h"

#ifdef __cplusplus
extern "C" {
#endif

/* ---- Results, besides those of vme.h ---- */

enum {
    VME_C5 = 0x15,          /* Of a configuration file: a size that no board has. */
    VME_C6 = 0x16,          /* The file is not TOML. */
    VME_C7 = 0x17,          /* A key is unknown or absent, or its value has another kind. */
    VME_C8 = 0x18,          /* A slot is not from 1 to 21, or not above the one before. */
    VME_C9 = 0x19,          /* A level is above 3. */
    VME_C10 = 0x1a,         /* A word or a width does not exist. */
    VME_C11 = 0x1b,         /* There is no board. */
    VME_C12 = 0x1c,         /* Tries, rounds or the schedule are out of range. */
    VME_C13 = 0x1d,         /* A mailbox is not lawful. */
    VME_C14 = 0x1e,         /* A line of a script is refused. */
    VME_NO_MEMORY = 0x25,   /* An allocation failed. */
    VME_BUS_GRANTED = 0x30, /* Of a reply: the arbiter granted the bus. */
    VME_NOT_GRANTED = 0x31, /* Another slot has the bus: the transfer has not begun. */
    VME_BUS_DENIED = 0x32,  /* The arbiter denied a command of the transfer. For no processor of a machine it does. */
    VME_BUS_FREED = 0x33,   /* Of a reply: the bus was released. */
    VME_MORE = 0x34,        /* One event has happened, and the transfer goes on. */
    VME_BUSY = 0x50,        /* Another call is inside the object. Nothing has happened: try again. */
    VME_CLOSED = 0x51,      /* The processor is empty: not opened, closed or dropped. */
    VME_SPENT = 0x52,       /* The object has made 2^64 - 1 steps, or the mailbox has had 2^32 - 1 words. It makes no more. */
    VME_HELD = 0x53,        /* Another processor has the lock. */
    VME_FULL = 0x54,        /* The mailbox has as many words as slots. */
    VME_EMPTY = 0x55        /* The mailbox has no word. */
};

/* ---- Machines ---- */

/* A processor of a machine, or nothing. {0} is an empty one. Keep those of two threads on two cache
 * lines: side by side they cost each other a part of their speed. */
typedef struct vme_processor {
    size_t full; /* 1 if it is open, 0 if it is empty */
    void *hidden;
} vme_processor;

/* A board: where it responds, to which cycles, and the slot and the request level of its processor. */
typedef struct vme_board {
    vme_entry entry; /* base, size, space and privilege */
    vme_class cls;   /* the cycles to which its slave replies */
    uint16_t slot;   /* 1 to 21, ascending */
    uint8_t level;   /* 0 to 3, the level on which its requester asks for the bus */
} vme_board;

/* Opens a machine of count boards of zeros, with an arbiter of a kind of vme.h, and writes the processor
 * of board i to out[i]. Fails with VME_C1 to VME_C4 if the entries are no lawful map; with VME_BAD_CALL if
 * there is no board, if out_count is less than count, if the slots do not ascend from 1 to 21, if a level is
 * above 3, or if a size is not a multiple of 4 from 4 to 1,048,576; and with VME_NO_MEMORY. */
uint8_t vme_machine_open(const vme_board *boards, size_t count, uint8_t arbiter, vme_processor *out,
                         size_t out_count);

/* What a configuration file says of its machine, or where it is refused. */
typedef struct vme_loaded {
    size_t count;    /* of its boards */
    uint16_t slot;   /* of the board whose script is refused, with VME_C14 */
    uint16_t line;   /* of that script, from 1 */
    uint8_t arbiter; /* VME_PRIORITY or VME_ROTATING */
    uint8_t script;  /* why the line is refused: 1 to 9 for S1 to S9 */
} vme_loaded;

/* Opens a machine with the boards and the arbiter of a configuration file for vme, given as its size bytes. The
 * whole file is checked, but no script runs, and mailboxes are zeros as all bytes are. Writes the processors to
 * out, in order of slots; their boards to boards, as many as there are places, boards_count, which may be 0;
 * and count and arbiter to found, whose other fields are 0. Fails with VME_C1 to VME_C14, the first refusal of
 * the file, and with VME_C14 writes slot, line and script to found, whose other fields are 0; with VME_BAD_CALL
 * if out_count is less than the number of boards; and with VME_NO_MEMORY. */
uint8_t vme_machine_load(const uint8_t *file, size_t size, vme_board *boards, size_t boards_count, vme_processor *out,
                         size_t out_count, vme_loaded *found);

/* Closes a machine with all its count processors, in any order, and leaves the structs empty. Writes how
 * many steps each board has made, in order of slots, and after them the arbiter, to steps: as many numbers
 * as there are places, steps_count. Writes the last bytes of all boards, one after the other in order of
 * slots, to bytes: as many as there are places, bytes_count. Fails with VME_CLOSED if a struct is empty;
 * with VME_BAD_CALL if count is 0, or if these are not all processors of one machine, each once; and with
 * VME_NO_MEMORY. After a failure the machine is as it was. */
uint8_t vme_machine_close(vme_processor *all, size_t count, uint64_t *steps, size_t steps_count, uint8_t *bytes,
                          size_t bytes_count);

/* Gives up one processor and leaves its struct empty. Its machine can then not be closed; its memory is
 * freed with the last processor. Fails with VME_CLOSED. */
uint8_t vme_processor_drop(vme_processor *p);

/* ---- One event by the local port of the processor's own board ---- */

/* Reads 1, 2 or 4 bytes at an offset. Fails with VME_BERR if there are no such bytes, and with VME_BUSY,
 * VME_CLOSED and VME_SPENT. */
uint8_t vme_processor_try_local_read(vme_processor *p, uint32_t at, uint8_t n, vme_datum *out);

/* Writes 1, 2 or 4 bytes at an offset. Fails as the read does. */
uint8_t vme_processor_try_local_write(vme_processor *p, uint32_t at, const vme_datum *datum);

/* Modifies 1, 2 or 4 bytes at an offset in one step, and writes the old ones to out. Fails as the read
 * does, and with VME_BERR if the operands of f do not have n bytes. */
uint8_t vme_processor_try_local_modify(vme_processor *p, uint32_t at, uint8_t n, const vme_modify *f,
                                       vme_datum *out);

/* The most bytes that one transfer reads: 256 data of 8. A block of data of up to 4 bytes reads 256 at most. */
enum { VME_MOST_READ = 2048 };

/* ---- A transfer over the bus: start it, then step it until it ends ----
 *
 * A transfer is a tenure of the bus: the processor's requester asks the arbiter for it, then each datum
 * is one event of the board that responds, then the bus is released. Any processor may reach any board
 * of the machine, its own one too. A processor does one thing at a time over the bus: a transfer, or a
 * lock, an unlock, a put or a take. */

/* Starts a read: of a block if the kind is VME_BLOCK_READ, and otherwise of one datum. Fails with the
 * request's first refusal; with VME_BAD_CALL if what this processor does over the bus has not ended; with
 * VME_NO_MEMORY if a block of more than 40 bytes gets no memory; and with VME_CLOSED. */
uint8_t vme_processor_start_read(vme_processor *p, const vme_request *request);

/* Starts a write of size bytes, which are copied: as a block of data of request->n bytes if the kind is
 * VME_BLOCK_WRITE, and otherwise as one datum. Ignores request->count. Fails as a read does. */
uint8_t vme_processor_start_write(vme_processor *p, const vme_request *request, const uint8_t *bytes,
                                  size_t size);

/* Starts a read-modify-write by f. Ignores the kind, count and f of the request. Fails as a read does. */
uint8_t vme_processor_start_modify(vme_processor *p, const vme_request *request, const vme_modify *f);

/* Makes at most one event of what was started last. Returns VME_MORE, VME_NOT_GRANTED, VME_BUSY or VME_SPENT
 * while it goes on; with its first VME_MORE the processor has the bus. A transfer has ended, and the bus is
 * released, with VME_OK; with VME_BERR if the board drove BERR*, after which the data before it have been
 * moved; and with VME_NO_BOARD if no board responds. How a lock, an unlock, a put or a take ends is said below.
 * A step after the end returns the end again. Fails with VME_BAD_CALL if nothing was started, and with
 * VME_CLOSED. */
uint8_t vme_processor_step(vme_processor *p);

/* The same step. Writes the reply to its event to reply: VME_OK or VME_BERR of a board; VME_BUS_GRANTED,
 * VME_NOT_GRANTED, VME_BUS_DENIED or VME_BUS_FREED of the arbiter; and if there was no event VME_BUSY,
 * VME_SPENT, or VME_BAD_CALL, as after the end. Writes the bytes of a board's reply, if it has any, to
 * bytes. */
uint8_t vme_processor_step_reply(vme_processor *p, uint8_t *reply, vme_datum *bytes);

/* Makes steps as vme_processor_step does, one after another, without a call for each. Stops after a step whose
 * result is the end, VME_NOT_GRANTED, VME_BUSY or VME_SPENT, and after one that has released the bus: a put or
 * a take may return VME_MORE then. Returns the result of the last step, and fails as a step does. */
uint8_t vme_processor_run(vme_processor *p);

/* Starts a read of n bytes of one datum and makes its steps, as vme_processor_start_read and vme_processor_run
 * do, and faster. With VME_OK it writes the bytes to out. With VME_OK, VME_BERR and VME_NO_BOARD the transfer
 * has ended, and the processor keeps nothing of it: as if nothing was started, a step then fails with
 * VME_BAD_CALL. With VME_NOT_GRANTED, VME_BUSY and VME_SPENT it was started and goes on: vme_processor_run
 * continues it, and vme_processor_bytes gives what it reads. The processor keeps it too with VME_BUS_DENIED,
 * which no processor of a machine gets. Else fails as vme_processor_start_read does. */
uint8_t vme_processor_read(vme_processor *p, uint8_t am, uint32_t addr, uint8_t n, vme_datum *out);

/* The same for a write of a datum, which is copied. */
uint8_t vme_processor_write(vme_processor *p, uint8_t am, uint32_t addr, const vme_datum *datum);

/* The same for a read-modify-write of n bytes by f, which writes the old ones to out. */
uint8_t vme_processor_modify(vme_processor *p, uint8_t am, uint32_t addr, uint8_t n, const vme_modify *f, vme_datum *out);

/* Writes the bytes that the last transfer read, once it has ended, and their number to count: after a
 * read-modify-write the old ones, after a bus error those before it, and otherwise none. Fails with
 * VME_BAD_CALL if they are more than size, and then writes only their number; and with VME_CLOSED. */
uint8_t vme_processor_bytes(vme_processor *p, uint8_t *out, size_t size, size_t *count);

/* ---- Locks and mailboxes over the bus: start one, then step it until it ends ----
 *
 * A lock is bit 7 of a byte, which a read-modify-write sets. A put locks the mailbox, reads both counts, writes
 * the word, writes its count plus one, and unlocks; a take reads the word in place of writing it. Each of
 * these is a transfer with a tenure of its own, and a step whose tenure ends returns VME_MORE unless it is
 * the last one. No start allocates.
 *
 * A step ends these as a transfer, and with VME_HELD if the lock was taken before; a put also with VME_FULL,
 * and with VME_SPENT if 2^32 - 1 words were put, and a take with VME_EMPTY. Then no word was moved. The lock
 * of the mailbox is free after each end but VME_HELD, a bus error at the lock, and one that the unlock had.
 * VME_NO_BOARD is a bus error where no board responds to the lock. */

/* A mailbox: a lock byte at addr, the number of words put at 4 and taken at 8, and its words from 16. Each has
 * four bytes, the most significant first. At first its 16 + 4 * slots bytes are zeros. The board has width 32 and
 * read-modify-writes. */
typedef struct vme_mailbox {
    uint32_t addr;  /* a multiple of 4 */
    uint16_t slots; /* 1 to 64 */
    uint8_t am;     /* a data code */
} vme_mailbox;

/* Starts a lock, and an unlock, which clears the byte. Fails with the first refusal of its cycle; with
 * VME_BAD_CALL if what this processor does over the bus has not ended; and with VME_CLOSED. */
uint8_t vme_processor_start_lock(vme_processor *p, uint8_t am, uint32_t addr);
uint8_t vme_processor_start_unlock(vme_processor *p, uint8_t am, uint32_t addr);

/* Starts a put of a word, and a take of the oldest word. Fails with VME_C13 if addr is no multiple of 4, if
 * slots is not 1 to 64, or if the mailbox ends after the 32-bit addresses; with the refusal of the lock's cycle,
 * or else that of a read of the last word; with VME_BAD_CALL as a lock does; and with VME_CLOSED. */
uint8_t vme_processor_start_put(vme_processor *p, const vme_mailbox *box, uint32_t word);
uint8_t vme_processor_start_take(vme_processor *p, const vme_mailbox *box);

/* Writes the word that a take has taken. Fails with VME_BAD_CALL if what was started last is no take that has
 * ended with VME_OK; and with VME_CLOSED. */
uint8_t vme_processor_word(vme_processor *p, uint32_t *word);

/* Writes the request of the transfer at which a lock, an unlock, a put or a take is to request, with its kind
 * and the function of a read-modify-write, and the bytes of a write to bytes. Fails with VME_BAD_CALL if what
 * was started last is none of these, or has ended; and with VME_CLOSED. */
uint8_t vme_processor_transfer(vme_processor *p, vme_request *request, vme_datum *bytes);

#ifdef __cplusplus
}
#endif

/* The layouts that the library was built with. */
#if defined(__cplusplus) && __cplusplus >= 201103L
#define VME_LAYOUT(type, size) static_assert(sizeof(type) == (size), "layout of " #type)
#elif defined(__STDC_VERSION__) && __STDC_VERSION__ >= 201112L
#define VME_LAYOUT(type, size) _Static_assert(sizeof(type) == (size), "layout of " #type)
#else
#define VME_LAYOUT(type, size) typedef char type##_layout[sizeof(type) == (size) ? 1 : -1]
#endif
VME_LAYOUT(vme_processor, 2 * sizeof(void *));
VME_LAYOUT(vme_board, 20);
VME_LAYOUT(vme_loaded, sizeof(size_t) + 8);
VME_LAYOUT(vme_mailbox, 8);
#undef VME_LAYOUT

#endif
