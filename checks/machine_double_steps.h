/* The locks and mailboxes of machine_double.c, which includes this file: the transfers of a put and a take, one after another; and the
   steps of all that a processor does over the bus. */
#ifndef MACHINE_DOUBLE_STEPS_H
#define MACHINE_DOUBLE_STEPS_H

/* ---- Locks and mailboxes ---- */

static vme_request cycle(uint8_t kind, uint8_t am, uint32_t addr, uint8_t n)
{
    return (vme_request){ .kind = kind, .am = am, .addr = addr, .n = n, .f.function = kind == VME_MODIFY ? VME_SET : 0 };
}

static void big_endian(uint8_t *bytes, uint32_t word)
{
    for (int i = 0; i < 4; i++)
        bytes[i] = (uint8_t)(word >> (24 - 8 * i));
}

static uint32_t number(const uint8_t *bytes)
{
    return (uint32_t)bytes[0] << 24 | (uint32_t)bytes[1] << 16 | (uint32_t)bytes[2] << 8 | bytes[3];
}

/* Begins the transfer of a stage. */
static void begin(struct processor *own, enum stage stage)
{
    const vme_mailbox *box = &own->box;
    const uint32_t count = own->kind == PUT ? own->put : own->taken, counter = own->kind == PUT ? 4 : 8;
    const uint32_t place = box->slots ? 16 + 4 * (count % box->slots) : 0;
    const uint32_t at[] = { 0, 4, 8, place, counter, 0 };
    const bool writes = stage >= COUNTS || (stage == MOVES_WORD && own->kind == PUT);
    const uint8_t kind = stage == LOCKS ? VME_MODIFY : writes ? VME_WRITE : VME_READ;
    own->stage = stage;
    own->request = cycle(kind, box->am, box->addr + at[stage], stage == LOCKS || stage == UNLOCKS ? 1 : 4);
    big_endian(own->bytes, stage == MOVES_WORD ? own->word : stage == COUNTS ? count + 1 : 0);
    own->datum = 0;
    own->have = 0;
    own->phase = ASK;
}

/* Begins the unlock, after which a put or a take ends. */
static void unlock(struct processor *own, uint8_t end)
{
    own->end = end;
    begin(own, UNLOCKS);
}

/* Begins what follows the counts. */
static void decide(struct processor *own)
{
    if (own->kind == PUT && own->put == 0xffffffffu)
        unlock(own, VME_SPENT);
    else if (own->kind == PUT && own->put - own->taken >= own->box.slots)
        unlock(own, VME_FULL);
    else if (own->kind == TAKE && own->put == own->taken)
        unlock(own, VME_EMPTY);
    else
        begin(own, MOVES_WORD);
}

/* Begins what follows the transfer of a stage of a put or a take that ended with this result, or ends. */
static void follow(struct processor *own, uint8_t result)
{
    if (own->stage == UNLOCKS) {
        own->result = result == VME_OK ? own->end : result;
    } else if (result != VME_OK) {
        unlock(own, VME_BERR);
    } else if (own->stage == READS_PUT) {
        own->put = number(own->bytes);
        begin(own, READS_TAKEN);
    } else if (own->stage == READS_TAKEN) {
        own->taken = number(own->bytes);
        decide(own);
    } else if (own->stage == MOVES_WORD) {
        own->word = own->kind == TAKE ? number(own->bytes) : own->word;
        begin(own, COUNTS);
    } else {
        unlock(own, VME_OK);
    }
}

/* The result of a step that ended a transfer of a lock, an unlock, a put or a take. */
static uint8_t go_on(struct processor *own, uint8_t result)
{
    if (own->stage == LOCKS) {
        own->result = result == VME_OK && own->bytes[0] & 0x80 ? VME_HELD : result;
        if (own->result == VME_OK && own->kind != LOCK)
            begin(own, READS_PUT);
    } else {
        follow(own, result);
    }
    if (own->phase != ENDED)
        return VME_MORE;
    own->have = 0;
    return own->result;
}

static uint8_t start_shared(vme_processor *p, enum kind kind, const vme_mailbox *box, uint32_t word)
{
    struct processor *own = of(p);
    const vme_datum zero = { 1, { 0 } };
    const vme_request locks = cycle(kind == UNLOCK ? VME_WRITE : VME_MODIFY, box->am, box->addr, 1);
    const vme_request last = cycle(VME_READ, box->am, box->addr + 12 + 4 * (uint32_t)box->slots, 4);
    const bool is_mailbox = kind >= PUT;
    if (!own)
        return VME_CLOSED;
    if (is_mailbox && (box->addr % 4 || box->slots < 1 || box->slots > 64 || (uint64_t)box->addr + 16 + 4 * box->slots > 1ull << 32))
        return VME_C13;
    if (is_running(own))
        return VME_BAD_CALL;
    uint8_t result = vme_request_check(&locks, &zero);
    if (result == VME_OK && is_mailbox)
        result = vme_request_check(&last, &zero);
    if (result != VME_OK)
        return result;
    own->kind = kind;
    own->box = *box;
    own->word = word;
    own->end = VME_OK;
    begin(own, kind == UNLOCK ? UNLOCKS : LOCKS);
    return VME_OK;
}

uint8_t vme_processor_start_lock(vme_processor *p, uint8_t am, uint32_t addr)
{
    const vme_mailbox box = { addr, 0, am };
    return start_shared(p, LOCK, &box, 0);
}

uint8_t vme_processor_start_unlock(vme_processor *p, uint8_t am, uint32_t addr)
{
    const vme_mailbox box = { addr, 0, am };
    return start_shared(p, UNLOCK, &box, 0);
}

uint8_t vme_processor_start_put(vme_processor *p, const vme_mailbox *box, uint32_t word)
{
    return start_shared(p, PUT, box, word);
}

uint8_t vme_processor_start_take(vme_processor *p, const vme_mailbox *box)
{
    return start_shared(p, TAKE, box, 0);
}

uint8_t vme_processor_word(vme_processor *p, uint32_t *word)
{
    struct processor *own = of(p);
    if (!own)
        return VME_CLOSED;
    if (own->kind != TAKE || own->phase != ENDED || own->result != VME_OK)
        return VME_BAD_CALL;
    *word = own->word;
    return VME_OK;
}

uint8_t vme_processor_transfer(vme_processor *p, vme_request *request, vme_datum *bytes)
{
    struct processor *own = of(p);
    if (!own)
        return VME_CLOSED;
    if (own->kind == TRANSFER || !is_running(own))
        return VME_BAD_CALL;
    *request = own->request;
    if (own->request.kind == VME_WRITE) {
        memset(bytes, 0, sizeof *bytes);
        bytes->n = own->request.n;
        memcpy(bytes->bytes, own->bytes, own->request.n);
    }
    return VME_OK;
}

/* ---- Steps ---- */

uint8_t vme_processor_step_reply(vme_processor *p, uint8_t *said, vme_datum *bytes)
{
    struct processor *own = of(p);
    if (!own)
        return VME_CLOSED;
    *said = VME_BAD_CALL;
    if (own->phase == IDLE)
        return VME_BAD_CALL;
    if (own->phase == ENDED)
        return own->result;
    const size_t had = own->have;
    const bool moves = own->phase == MOVE;
    uint8_t result = moves ? move(own, said) : use_bus(own, said);
    if (result == VME_BUSY)
        *said = VME_BUSY;
    if (moves && own->have > had) {
        memset(bytes, 0, sizeof *bytes);
        bytes->n = (uint8_t)(own->have - had);
        memcpy(bytes->bytes, own->bytes + had, bytes->n);
    }
    return own->kind != TRANSFER && own->phase == ENDED ? go_on(own, result) : result;
}

uint8_t vme_processor_step(vme_processor *p)
{
    uint8_t reply;
    vme_datum bytes;
    return vme_processor_step_reply(p, &reply, &bytes);
}

uint8_t vme_processor_run(vme_processor *p)
{
    uint8_t result, reply = VME_BAD_CALL;
    vme_datum bytes;
    do {
        result = vme_processor_step_reply(p, &reply, &bytes);
    } while (result == VME_MORE && reply != VME_BUS_FREED);
    return result;
}

/* ---- Transfers of one datum in one call ---- */

/* Makes the steps of a transfer whose start returned this, and forgets it if it ends. Writes the bytes that it has read to out, if out is not
   null. */
static uint8_t run_single(vme_processor *p, uint8_t result, vme_datum *out)
{
    struct processor *own = of(p);
    if (result != VME_OK)
        return result;
    result = vme_processor_run(p);
    if (own->phase != ENDED)
        return result;
    own->phase = IDLE;
    if (out && result == VME_OK) {
        memset(out, 0, sizeof *out);
        out->n = (uint8_t)own->have;
        memcpy(out->bytes, own->bytes, own->have);
    }
    return result;
}

uint8_t vme_processor_read(vme_processor *p, uint8_t am, uint32_t addr, uint8_t n, vme_datum *out)
{
    const vme_request request = { .am = am, .addr = addr, .n = n };
    return run_single(p, vme_processor_start_read(p, &request), out);
}

uint8_t vme_processor_write(vme_processor *p, uint8_t am, uint32_t addr, const vme_datum *datum)
{
    const vme_request request = { .kind = VME_WRITE, .am = am, .addr = addr };
    return run_single(p, vme_processor_start_write(p, &request, datum->bytes, datum->n > 8 ? 8 : datum->n), NULL);
}

uint8_t vme_processor_modify(vme_processor *p, uint8_t am, uint32_t addr, uint8_t n, const vme_modify *f, vme_datum *out)
{
    const vme_request request = { .am = am, .addr = addr, .n = n };
    return run_single(p, vme_processor_start_modify(p, &request, f), out);
}

#endif
