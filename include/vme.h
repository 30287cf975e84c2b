/* vme.h: the data transfer bus of the VMEbus (ANSI/IEEE Std 1014-1987), for simulators.
 *
 * Each function is proved to return what the definitions of the bus give, for all values of its
 * arguments that meet the rules below. The library has no state: it allocates nothing, starts no
 * thread, never waits, uses no global variable, and keeps no pointer after a call.
 *
 * Memory.   The caller owns all objects. A pointer is not null, not even with length 0, and points
 *           to an object of its type, which is initialized unless the call only writes it (out). An
 *           object that a call writes overlaps no other argument of the call.
 * Threads.  Calls on different objects may run at the same time. While a call writes an object, no
 *           other call may read or write it: the caller locks where necessary. Signal handlers may
 *           call every function.
 * Levels.   0 is low; every other number is high. DS1*, DS0*, LWORD* and WRITE* are active low, so 0
 *           is asserted. A switch is off at 0 and on at every other number. The library writes 0 or 1.
 * Numbers.  A kind, a function or another number that its enum does not list counts as the last of
 *           the list. A width or a space that is not listed counts as the next one below, or as the
 *           first. Sizes, lengths and offsets are in bytes.
 * Bytes.    The byte at the lowest address is the most significant one of a datum.
 * Results.  A result is VME_OK or the reason of a failure, except for the replies of the arbiter. A
 *           call that fails, or that the arbiter denies, has written nothing.
 * Sections. The numbers in the titles below are the sections of the standard.
 */
#ifndef VME_H
#define VME_H

#include <stddef.h>
#include <stdint.h>

#define VME_VERSION_MAJOR 1
#define VME_VERSION_MINOR 0
#define VME_VERSION_PATCH 0
#define VME_VERSION_STRING "1.0.0"
#define VME_VERSION (65536 * VME_VERSION_MAJOR + 256 * VME_VERSION_MINOR + VME_VERSION_PATCH)

#ifdef __cplusplus
extern "C" {
#endif

/* Returns VME_VERSION of the library that is linked. */
uint32_t vme_version(void);

/* ---- Results ---- */

enum {
    VME_OK = 0x00, /* The call succeeded. For a slave: DTACK*. */
    /* Refusals of a request, with the numbers that `vme cycles` prints. */
    VME_K1 = 0x01, /* No row of the table of address modifiers has the code. */
    VME_K2 = 0x02, /* The code is user-defined: 10 to 1f. */
    VME_K3 = 0x03, /* No single cycle has these bytes, or a block or read-modify-write is not aligned. */
    VME_K4 = 0x04, /* The first or the last byte is outside the code's space. */
    VME_K5 = 0x05, /* A block without a block code, or a block code without a block. */
    VME_K6 = 0x06, /* A block crosses a boundary of 256 bytes, or of 2,048 with eight-byte data. */
    VME_K7 = 0x07, /* A read-modify-write with a program code. */
    VME_K8 = 0x08, /* A length or a number of data that does not exist, or bytes that do not match it. */
    VME_K9 = 0x09, /* The code is above 3f. */
    /* Refusals of an address map. */
    VME_C1 = 0x11, /* Two entries share an address. */
    VME_C2 = 0x12, /* An entry ends outside its space. */
    VME_C3 = 0x13, /* A base is not a multiple of four. */
    VME_C4 = 0x14, /* There are more than 21 entries. */
    /* Other failures. */
    VME_BERR = 0x20,      /* A bus error. */
    VME_NO_BOARD = 0x21,  /* No entry responds, so the bus timer drives BERR*. */
    VME_BAD_LINES = 0x22, /* The lines show no cycle. */
    VME_BAD_CALL = 0x23,  /* An index or a length does not match the request or the lines. */
    VME_BAD_STATE = 0x24  /* A level in the state of an arbiter is above 3. */
};

/* ---- Data ---- */

/* The bytes of one datum in order of address: the first n of bytes. n above 8 counts as 8; the library
 * writes the number of bytes, and zeros after them. */
typedef struct vme_datum {
    uint8_t n;
    uint8_t bytes[8];
} vme_datum;

/* ---- Tables of address modifiers (2.2.2) and byte locations (2.2.1) ---- */

enum { VME_DATA = 1, VME_PROGRAM = 2, VME_BLOCK = 3, VME_SHORT = 4 }; /* vme_am.kind */

/* The row of an address modifier code. */
typedef struct vme_am {
    uint8_t space;       /* the number of address lines that count: 16, 24 or 32 */
    uint8_t kind;        /* VME_DATA to VME_SHORT */
    uint8_t supervisory; /* whether the code is supervisory */
    uint8_t wide;        /* whether a datum has eight bytes */
} vme_am;

/* The levels of the lines that select byte locations. */
typedef struct vme_strobes {
    uint8_t ds1;   /* DS1* */
    uint8_t ds0;   /* DS0* */
    uint8_t a01;   /* A01 */
    uint8_t lword; /* LWORD* */
} vme_strobes;

/* The bytes of a group of four that a cycle reaches. */
typedef struct vme_place {
    uint8_t first; /* the place of the first byte in the group, 0 to 3 */
    uint8_t n;     /* the number of bytes */
} vme_place;

/* Writes the row of an address modifier code. Fails with VME_K1, VME_K2 or VME_K9 if it has none. */
uint8_t vme_am_read(uint8_t code, vme_am *out);

/* Writes the strobes of n bytes that begin at an address. Fails with VME_K3 if no single cycle
 * reaches these bytes. */
uint8_t vme_strobes_drive(uint32_t addr, uint8_t n, vme_strobes *out);

/* Writes the bytes that a slave senses from strobes. Fails with VME_BAD_LINES if they select none. */
uint8_t vme_strobes_sense(const vme_strobes *strobes, vme_place *out);

/* ---- Lines of a cycle (2.2) ---- */

/* Indices of vme_lines.lanes. The first four are the address lines, which carry data only in blocks
 * of eight-byte data. */
enum {
    VME_D63_D56 = 0,
    VME_D55_D48 = 1,
    VME_D47_D40 = 2,
    VME_D39_D32 = 3,
    VME_D31_D24 = 4,
    VME_D23_D16 = 5,
    VME_D15_D08 = 6,
    VME_D07_D00 = 7
};

/* A lane that nothing drives, or a slot without a pending request. Every number above 0xff means the
 * same; the library writes this one. */
#define VME_IDLE 0xffffu

/* The lines of one cycle. They show a cycle if am has a row, addr is a multiple of four in its space,
 * and the strobes select bytes. */
typedef struct vme_lines {
    uint32_t addr;       /* A31 to A02, as the address of a group of four */
    uint8_t am;          /* AM5 to AM0 */
    uint8_t write;       /* WRITE*, low for a write */
    vme_strobes strobes;
    uint16_t lanes[8];   /* a byte each, or VME_IDLE */
} vme_lines;

/* Puts the bytes that a slave replied to a read on the lanes that code and strobes select. Fails
 * with VME_BAD_LINES if the lines show no cycle, and with VME_BAD_CALL if they select another number
 * of bytes. */
uint8_t vme_lines_answer(vme_lines *lines, const vme_datum *datum);

/* ---- Requests of a master (2.3.6 to 2.3.9) ---- */

/* vme_modify.function */
enum { VME_NO_FUNCTION = 0, VME_SET = 1, VME_EXCHANGE = 2, VME_ADD = 3, VME_COMPARE = 4 };

/* What a read-modify-write puts in place of the old bytes. VME_SET sets bit 7 of the first byte,
 * VME_EXCHANGE puts operand, VME_ADD the sum with operand without its carry, and VME_COMPARE puts put
 * if the old bytes equal operand, and otherwise the old bytes. The operands that a function uses have
 * as many bytes as the old ones. VME_NO_FUNCTION is for cycles that are not a read-modify-write; where
 * a function is required, it counts as VME_COMPARE. */
typedef struct vme_modify {
    uint8_t function;
    vme_datum operand;
    vme_datum put;
} vme_modify;

/* vme_request.kind */
enum { VME_READ = 0, VME_WRITE = 1, VME_BLOCK_READ = 2, VME_BLOCK_WRITE = 3, VME_MODIFY = 4 };

/* A request of a master. A block write is given datum by datum: the struct has their number, and
 * each call takes one of them. For a block whose length is not a multiple of n, set count to 0: the
 * request then has the refusals of this block, among them VME_K8. */
typedef struct vme_request {
    uint32_t addr;  /* the address of the first byte */
    uint16_t count; /* the number of data of a block, 1 to 256; ignored otherwise */
    uint8_t am;     /* the address modifier code */
    uint8_t kind;   /* VME_READ to VME_MODIFY */
    uint8_t n;      /* the number of bytes of each datum; VME_WRITE uses the datum's length instead */
    vme_modify f;   /* the function of VME_MODIFY; ignored, but initialized, otherwise */
} vme_request;

/* Returns VME_OK if a request is lawful, and otherwise its first refusal: VME_K9, K2 or K1; then K5,
 * K7, K8, K4, K3 and K6 in this order. datum is one that a write drives; other requests ignore it. */
uint8_t vme_request_check(const vme_request *request, const vme_datum *datum);

/* Writes the lines of datum i before a slave replies. datum is datum i of a write; other requests
 * ignore it. Fails with the request's first refusal, or with VME_BAD_CALL if it has no datum i. */
uint8_t vme_request_lines(const vme_request *request, uint16_t i, const vme_datum *datum, vme_lines *out);

/* Writes the lines of the write half of a read-modify-write that drives datum. Fails with the
 * request's first refusal, or with VME_BAD_CALL if it is not a read-modify-write of as many bytes. */
uint8_t vme_request_write_half(const vme_request *request, const vme_datum *datum, vme_lines *out);

/* Writes the bytes that a function puts in place of the old ones. Fails with VME_K8 if its operands
 * have another length. */
uint8_t vme_modify_value(const vme_modify *f, const vme_datum *old, vme_datum *out);

/* ---- Slave of a board whose bytes the caller holds (2.3.6 to 2.3.9) ---- */

/* The cycles to which the slave of a board replies. */
typedef struct vme_class {
    uint8_t width; /* 8, 16 or 32: D08(EO), D16 or D32 */
    uint8_t uat;   /* unaligned cycles, which also require width 32 */
    uint8_t blt;   /* block transfers */
    uint8_t rmw;   /* read-modify-write cycles */
} vme_class;

/* Replies to the cycle that the lines show, with its first byte at offset at of the board. In a
 * block this is one datum: the slave increments the offset, and takes A01 from it. A
 * read-modify-write shows its read half and has its function in f; f->function is VME_NO_FUNCTION in
 * every other cycle. Returns VME_OK for DTACK* and writes the bytes that were read, none after a
 * write, and the old ones in a read-modify-write. Fails with VME_BAD_LINES if the lines show no cycle,
 * and with VME_BERR if the class does not have it, if its bytes are outside of the board, if the
 * operands of f have another length, if a lane of a write is idle, or if at modulo 4 is not the place
 * of the first byte that the lines select. */
uint8_t vme_slave_cycle(uint8_t *bytes, size_t size, const vme_class *board, const vme_lines *lines,
                        uint32_t at, const vme_modify *f, vme_datum *out);

/* Replies to a read of n bytes at offset at, without lines: single, or one datum of a block if block
 * is on. Returns VME_OK for DTACK* and writes the bytes. Fails with VME_BERR. */
uint8_t vme_slave_read(const uint8_t *bytes, size_t size, const vme_class *board, uint8_t block,
                       uint32_t at, uint8_t n, vme_datum *out);

/* Replies to a write of datum at offset at, without lines: single, or one datum of a block if block
 * is on. Returns VME_OK for DTACK*. Fails with VME_BERR. */
uint8_t vme_slave_write(uint8_t *bytes, size_t size, const vme_class *board, uint8_t block, uint32_t at,
                        const vme_datum *datum);

/* Replies to a read-modify-write of n bytes at offset at, without lines. Returns VME_OK for DTACK*
 * and writes the old bytes to out. Fails with VME_BERR, also if the operands of f do not have n bytes. */
uint8_t vme_slave_modify(uint8_t *bytes, size_t size, const vme_class *board, uint32_t at, uint8_t n,
                         const vme_modify *f, vme_datum *out);

/* Reads 1, 2 or 4 bytes by the local port, at any offset and for every class. Fails with VME_BERR. */
uint8_t vme_local_read(const uint8_t *bytes, size_t size, uint32_t at, uint8_t n, vme_datum *out);

/* Writes 1, 2 or 4 bytes by the local port, at any offset and for every class. Fails with VME_BERR. */
uint8_t vme_local_write(uint8_t *bytes, size_t size, uint32_t at, const vme_datum *datum);

/* Modifies 1, 2 or 4 bytes by the local port in one step, at any offset and for every class, and
 * writes the old ones to out. Fails with VME_BERR, also if the operands of f do not have n bytes. */
uint8_t vme_local_modify(uint8_t *bytes, size_t size, uint32_t at, uint8_t n, const vme_modify *f,
                         vme_datum *out);

/* ---- Address decoder (2.3.5) ---- */

/* The addresses at which one board responds. */
typedef struct vme_entry {
    uint32_t base;       /* the first address */
    uint32_t size;       /* the number of bytes; an entry of size 0 covers no address */
    uint8_t space;       /* 16, 24 or 32 */
    uint8_t supervisory; /* whether only supervisory codes are admitted */
} vme_entry;

/* The selected entry, and the offset in it. */
typedef struct vme_selection {
    size_t place;    /* the index of the entry */
    uint32_t offset; /* the offset of the address from its base */
} vme_selection;

/* Returns VME_OK if the entries are a lawful map, and otherwise their first refusal: VME_C4; entry by
 * entry VME_C3 and VME_C2; then VME_C1. In a lawful map at most one entry responds to an address. */
uint8_t vme_map_check(const vme_entry *entries, size_t count);

/* Writes the entry that responds to a code and to the address of a first byte; in a map that is not
 * lawful, the first one. Fails with VME_NO_BOARD if none responds, and with VME_K1, VME_K2 or VME_K9
 * if the code has no row. */
uint8_t vme_map_select(const vme_entry *entries, size_t count, uint8_t am, uint32_t addr,
                       vme_selection *out);

/* ---- Arbiter (3.3) ---- */

/* vme_arbiter.kind. By priority (PRI), each grant goes to the greatest level that has a pending
 * request. Rotating (RRS), a grant begins at the level below that of the grant before it, and at 3
 * after 0. On one level the lowest slot is granted first. */
enum { VME_PRIORITY = 0, VME_ROTATING = 1 };

/* Replies of an arbiter. */
enum { VME_GRANTED = 1, VME_WAITING = 2, VME_FREED = 3, VME_DENIED = 4 };

/* The state of an arbiter. vme_arbiter_open writes the first one, and the three calls after it change
 * it. A copy is a state of its own. The calls check the levels alone, so write no field yourself. */
typedef struct vme_arbiter {
    uint8_t kind;        /* VME_PRIORITY or VME_ROTATING */
    uint8_t first;       /* the level at which the next grant begins, 0 to 3 */
    uint8_t held;        /* whether a slot holds the bus */
    uint16_t holder;     /* the slot that holds the bus; 0 if none does */
    uint16_t levels[22]; /* by slot, 1 to 21: the level of its pending request, 0 to 3, or VME_IDLE */
} vme_arbiter;

/* Writes the state of a free bus without pending requests. */
void vme_arbiter_open(uint8_t kind, vme_arbiter *out);

/* Requests the bus for a slot, 1 to 21, on a level, 0 to 3. Returns VME_GRANTED if the bus was free;
 * VME_WAITING if another slot holds it; VME_DENIED if the slot holds it or has a pending request, or
 * if a number is out of range; or VME_BAD_STATE. */
uint8_t vme_arbiter_ask(vme_arbiter *arbiter, uint16_t slot, uint8_t level);

/* Asks whether a slot holds the bus. Returns VME_GRANTED if it does; VME_WAITING if its request is
 * pending; VME_DENIED otherwise; or VME_BAD_STATE. It changes nothing that another call can see. */
uint8_t vme_arbiter_look(vme_arbiter *arbiter, uint16_t slot);

/* Releases the bus, which is granted to the next pending request. Returns VME_FREED; VME_DENIED if the
 * slot does not hold the bus; or VME_BAD_STATE. */
uint8_t vme_arbiter_done(vme_arbiter *arbiter, uint16_t slot);

#ifdef __cplusplus
}
#endif

/* The layouts that the library was built with. */
#if defined(__cplusplus) && __cplusplus >= 201103L
#define VME_LAYOUT(type, size) static_assert(sizeof(type) == (size), "layout of " #type)
#elif defined(__STDC_VERSION__) && __STDC_VERSION__ >= 201112L
#define VME_LAYOUT(type, size) _Static_assert(sizeof(type) == (size), "layout of " #type)
#else
#define VME_LAYOUT(type, size) typedef char type##_layout[sizeof(type) == (size) ? 1 : -1]
#endif
VME_LAYOUT(vme_datum, 9);
VME_LAYOUT(vme_am, 4);
VME_LAYOUT(vme_strobes, 4);
VME_LAYOUT(vme_place, 2);
VME_LAYOUT(vme_lines, 28);
VME_LAYOUT(vme_modify, 19);
VME_LAYOUT(vme_request, 28);
VME_LAYOUT(vme_class, 4);
VME_LAYOUT(vme_entry, 12);
VME_LAYOUT(vme_selection, 2 * sizeof(size_t));
VME_LAYOUT(vme_arbiter, 50);
#undef VME_LAYOUT

#endif
