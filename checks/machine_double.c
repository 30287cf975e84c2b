/* The functions of vme_machine.h over libvme, each object behind a flag: what the layer above them is tested with where the archive is
   absent, and what the archive is compared with. Nothing is proved of it. */
#include <stdbool.h>
#include <string.h>
#include "vme_alloc.h"
#include "vme_machine.h"

enum { MOST_BOARDS = 21, MOST_BYTES = 2048, MOST_SIZE = 1 << 20 };

struct object {
    uint32_t taken;
    uint32_t size;
    uint8_t *bytes;
    uint64_t steps;
};

struct machine {
    uint32_t alive; /* how many processors are not dropped */
    size_t count;
    vme_entry map[MOST_BOARDS];
    vme_class classes[MOST_BOARDS];
    struct object boards[MOST_BOARDS];
    struct object bus;
    vme_arbiter arbiter;
};

enum phase { IDLE, ASK, LOOK, MOVE, DONE, ENDED };

/* What a processor does over the bus, and the stages of a put or a take. */
enum kind { TRANSFER, LOCK, UNLOCK, PUT, TAKE };
enum stage { LOCKS, READS_PUT, READS_TAKEN, MOVES_WORD, COUNTS, UNLOCKS };

struct processor {
    struct machine *machine;
    size_t index;
    uint16_t slot;
    uint8_t level;
    enum phase phase;
    uint8_t result; /* from DONE on, what the transfer ends with */
    uint16_t datum;
    size_t have;
    vme_request request;
    uint8_t bytes[MOST_BYTES];
    enum kind kind;
    enum stage stage;
    vme_mailbox box;
    uint32_t word, put, taken;
    uint8_t end; /* what a put or a take ends with, once its lock is released */
};

static void *allocated(size_t size)
{
    const vme_block block = rattle_alloc(size, 16);
    return block.ok ? memset(block.at, 0, size) : NULL;
}

/* Whether this call has taken the object. */
static bool take(struct object *object)
{
    return !__atomic_exchange_n(&object->taken, 1, __ATOMIC_ACQUIRE);
}

/* Gives it back after a step. */
static void give(struct object *object)
{
    object->steps++;
    __atomic_store_n(&object->taken, 0, __ATOMIC_RELEASE);
}

/* Takes an object as a call of another processor does, or frees it again: board i, or the arbiter if i is the number of boards. */
void machine_double_hold(vme_processor *p, size_t i, int is_held);

static void free_machine(struct machine *machine)
{
    for (size_t i = 0; i < machine->count; i++)
        if (machine->boards[i].bytes)
            rattle_dealloc(machine->boards[i].bytes);
    rattle_dealloc(machine);
}

static struct processor *of(vme_processor *p)
{
    return p->full ? (struct processor *)p->hidden : NULL;
}

void machine_double_hold(vme_processor *p, size_t i, int is_held)
{
    struct machine *machine = of(p)->machine;
    __atomic_store_n(i < machine->count ? &machine->boards[i].taken : &machine->bus.taken, (uint32_t)is_held, __ATOMIC_SEQ_CST);
}

/* ---- Machines ---- */

static uint8_t refusal(const vme_board *boards, size_t count, size_t out_count)
{
    vme_entry map[MOST_BOARDS];
    if (count == 0 || out_count < count)
        return VME_BAD_CALL;
    if (count > MOST_BOARDS)
        return VME_C4;
    for (size_t i = 0; i < count; i++) {
        map[i] = boards[i].entry;
        if (boards[i].slot < 1 || boards[i].slot > 21 || (i && boards[i].slot <= boards[i - 1].slot) || boards[i].level > 3)
            return VME_BAD_CALL;
        if (map[i].size < 4 || map[i].size > MOST_SIZE || map[i].size % 4)
            return VME_BAD_CALL;
    }
    return vme_map_check(map, count);
}

static struct machine *machine_of(const vme_board *boards, size_t count, uint8_t arbiter)
{
    struct machine *machine = allocated(sizeof *machine);
    if (!machine)
        return NULL;
    for (; machine->count < count; machine->count++) {
        size_t i = machine->count;
        machine->map[i] = boards[i].entry;
        machine->classes[i] = boards[i].cls;
        machine->boards[i].size = boards[i].entry.size;
        machine->boards[i].bytes = allocated(boards[i].entry.size);
        if (!machine->boards[i].bytes) {
            free_machine(machine);
            return NULL;
        }
    }
    vme_arbiter_open(arbiter, &machine->arbiter);
    machine->alive = (uint32_t)count;
    return machine;
}

uint8_t vme_machine_open(const vme_board *boards, size_t count, uint8_t arbiter, vme_processor *out, size_t out_count)
{
    struct processor *made[MOST_BOARDS];
    uint8_t result = refusal(boards, count, out_count);
    if (result != VME_OK)
        return result;
    struct machine *machine = machine_of(boards, count, arbiter);
    if (!machine)
        return VME_NO_MEMORY;
    for (size_t i = 0; i < count; i++) {
        made[i] = allocated(sizeof *made[i]);
        if (!made[i]) {
            while (i--)
                rattle_dealloc(made[i]);
            free_machine(machine);
            return VME_NO_MEMORY;
        }
        made[i]->machine = machine;
        made[i]->index = i;
        made[i]->slot = boards[i].slot;
        made[i]->level = boards[i].level;
    }
    for (size_t i = 0; i < count; i++) {
        out[i].full = 1;
        out[i].hidden = made[i];
    }
    return VME_OK;
}

/* It reads no file. */
uint8_t vme_machine_load(const uint8_t *file, size_t size, vme_board *boards, size_t boards_count, vme_processor *out, size_t out_count,
                         vme_loaded *found)
{
    (void)file, (void)size, (void)boards, (void)boards_count, (void)out, (void)out_count, (void)found;
    return VME_BAD_STATE;
}

/* Whether these are all processors of one machine, each once. */
static uint8_t are_all(vme_processor *all, size_t count)
{
    uint32_t seen = 0;
    for (size_t i = 0; i < count; i++)
        if (!of(&all[i]))
            return VME_CLOSED;
    if (count == 0 || of(&all[0])->machine->count != count || of(&all[0])->machine->alive != count)
        return VME_BAD_CALL;
    for (size_t i = 0; i < count; i++) {
        uint32_t bit = (uint32_t)1 << of(&all[i])->index;
        if (of(&all[i])->machine != of(&all[0])->machine || seen & bit)
            return VME_BAD_CALL;
        seen |= bit;
    }
    return VME_OK;
}

/* Writes the steps and the last bytes, as many as there are places for. */
static void write_end(const struct machine *machine, uint64_t *steps, size_t steps_count, uint8_t *bytes, size_t bytes_count)
{
    for (size_t i = 0; i <= machine->count && i < steps_count; i++)
        steps[i] = (i < machine->count ? &machine->boards[i] : &machine->bus)->steps;
    for (size_t i = 0, at = 0; i < machine->count && at < bytes_count; at += machine->boards[i++].size) {
        const size_t left = bytes_count - at, size = machine->boards[i].size;
        memcpy(bytes + at, machine->boards[i].bytes, size < left ? size : left);
    }
}

uint8_t vme_machine_close(vme_processor *all, size_t count, uint64_t *steps, size_t steps_count, uint8_t *bytes, size_t bytes_count)
{
    uint8_t result = are_all(all, count);
    if (result != VME_OK)
        return result;
    struct machine *machine = of(&all[0])->machine;
    write_end(machine, steps, steps_count, bytes, bytes_count);
    for (size_t i = 0; i < count; i++) {
        rattle_dealloc(of(&all[i]));
        all[i].full = 0;
        all[i].hidden = NULL;
    }
    free_machine(machine);
    return VME_OK;
}

uint8_t vme_processor_drop(vme_processor *p)
{
    struct processor *own = of(p);
    if (!own)
        return VME_CLOSED;
    if (__atomic_sub_fetch(&own->machine->alive, 1, __ATOMIC_ACQ_REL) == 0)
        free_machine(own->machine);
    rattle_dealloc(own);
    p->full = 0;
    p->hidden = NULL;
    return VME_OK;
}

/* ---- Events ---- */

uint8_t vme_processor_try_local_read(vme_processor *p, uint32_t at, uint8_t n, vme_datum *out)
{
    struct processor *own = of(p);
    if (!own)
        return VME_CLOSED;
    struct object *board = &own->machine->boards[own->index];
    if (!take(board))
        return VME_BUSY;
    uint8_t result = vme_local_read(board->bytes, board->size, at, n, out);
    give(board);
    return result;
}

uint8_t vme_processor_try_local_write(vme_processor *p, uint32_t at, const vme_datum *datum)
{
    struct processor *own = of(p);
    if (!own)
        return VME_CLOSED;
    struct object *board = &own->machine->boards[own->index];
    if (!take(board))
        return VME_BUSY;
    uint8_t result = vme_local_write(board->bytes, board->size, at, datum);
    give(board);
    return result;
}

uint8_t vme_processor_try_local_modify(vme_processor *p, uint32_t at, uint8_t n, const vme_modify *f, vme_datum *out)
{
    struct processor *own = of(p);
    if (!own)
        return VME_CLOSED;
    struct object *board = &own->machine->boards[own->index];
    if (!take(board))
        return VME_BUSY;
    uint8_t result = vme_local_modify(board->bytes, board->size, at, n, f, out);
    give(board);
    return result;
}

/* ---- Transfers ---- */

/* Whether the last transfer goes on. */
static bool is_running(const struct processor *own)
{
    return own->phase != IDLE && own->phase != ENDED;
}

static uint8_t start(vme_processor *p, const vme_request *wanted, const uint8_t *bytes, size_t size)
{
    struct processor *own = of(p);
    const vme_datum first = { wanted->n, { 0 } };
    if (!own)
        return VME_CLOSED;
    if (is_running(own))
        return VME_BAD_CALL;
    const uint8_t result = vme_request_check(wanted, &first);
    if (result != VME_OK)
        return result;
    own->kind = TRANSFER;
    own->request = *wanted;
    own->datum = 0;
    own->have = 0;
    if (size)
        memcpy(own->bytes, bytes, size);
    own->phase = ASK;
    return VME_OK;
}

uint8_t vme_processor_start_read(vme_processor *p, const vme_request *request)
{
    vme_request wanted = *request;
    wanted.kind = request->kind == VME_BLOCK_READ ? VME_BLOCK_READ : VME_READ;
    return start(p, &wanted, NULL, 0);
}

uint8_t vme_processor_start_write(vme_processor *p, const vme_request *request, const uint8_t *bytes, size_t size)
{
    vme_request wanted = *request;
    const bool is_block = request->kind == VME_BLOCK_WRITE;
    if (!of(p))
        return VME_CLOSED;
    if (size > (is_block ? (size_t)MOST_BYTES : 8))
        return VME_K8;
    wanted.kind = is_block ? VME_BLOCK_WRITE : VME_WRITE;
    wanted.n = is_block ? request->n : (uint8_t)size;
    wanted.count = (uint16_t)(is_block && wanted.n && size % wanted.n == 0 ? size / wanted.n : 0);
    return start(p, &wanted, bytes, size);
}

uint8_t vme_processor_start_modify(vme_processor *p, const vme_request *request, const vme_modify *f)
{
    vme_request wanted = *request;
    wanted.kind = VME_MODIFY;
    wanted.f = *f;
    return start(p, &wanted, NULL, 0);
}

static bool is_block(const vme_request *request)
{
    return request->kind == VME_BLOCK_READ || request->kind == VME_BLOCK_WRITE;
}

/* The reply of a board to the next datum. */
static uint8_t reply(struct processor *own, const vme_selection *found)
{
    struct object *board = &own->machine->boards[found->place];
    const vme_request *request = &own->request;
    const vme_class *cls = &own->machine->classes[found->place];
    uint32_t moved = (uint32_t)own->datum * request->n;
    vme_datum datum = { request->n, { 0 } };
    uint8_t result;
    if (request->kind == VME_WRITE || request->kind == VME_BLOCK_WRITE) {
        memcpy(datum.bytes, own->bytes + moved, request->n);
        result = vme_slave_write(board->bytes, board->size, cls, is_block(request), found->offset + moved, &datum);
    } else {
        result = request->kind >= VME_MODIFY
                     ? vme_slave_modify(board->bytes, board->size, cls, found->offset, request->n, &request->f, &datum)
                     : vme_slave_read(board->bytes, board->size, cls, is_block(request), found->offset + moved, request->n, &datum);
        if (result == VME_OK) {
            memcpy(own->bytes + own->have, datum.bytes, datum.n);
            own->have += datum.n;
        }
    }
    return result;
}

static uint8_t move(struct processor *own, uint8_t *said)
{
    vme_selection found;
    uint8_t result = vme_map_select(own->machine->map, own->machine->count, own->request.am, own->request.addr, &found);
    if (result == VME_OK) {
        struct object *board = &own->machine->boards[found.place];
        if (!take(board))
            return VME_BUSY;
        *said = result = reply(own, &found);
        give(board);
    }
    own->datum++;
    if (result != VME_OK || own->datum >= (is_block(&own->request) ? own->request.count : 1)) {
        own->result = result;
        own->phase = DONE;
    }
    return VME_MORE;
}

/* Asks the arbiter for the bus, looks whether it is granted, or releases it. */
static uint8_t use_bus(struct processor *own, uint8_t *said)
{
    struct machine *machine = own->machine;
    if (!take(&machine->bus))
        return VME_BUSY;
    uint8_t told = own->phase == ASK    ? vme_arbiter_ask(&machine->arbiter, own->slot, own->level)
                   : own->phase == LOOK ? vme_arbiter_look(&machine->arbiter, own->slot)
                                        : vme_arbiter_done(&machine->arbiter, own->slot);
    give(&machine->bus);
    if (own->phase == DONE) {
        own->phase = ENDED;
        *said = VME_BUS_FREED;
        return own->result;
    }
    own->phase = told == VME_GRANTED ? MOVE : LOOK;
    *said = told == VME_GRANTED ? VME_BUS_GRANTED : VME_NOT_GRANTED;
    return told == VME_GRANTED ? VME_MORE : VME_NOT_GRANTED;
}

#include "machine_double_steps.h"

uint8_t vme_processor_bytes(vme_processor *p, uint8_t *out, size_t size, size_t *count)
{
    struct processor *own = of(p);
    if (!own)
        return VME_CLOSED;
    *count = own->phase == ENDED ? own->have : 0;
    if (*count > size)
        return VME_BAD_CALL;
    memcpy(out, own->bytes, *count);
    return VME_OK;
}
