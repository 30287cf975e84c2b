/* libvme_trace: the functions of vme_machine.h with a bus log; vme_trace.h is the manual. lib/Makefile links it with the archive of the
 * machine, whose functions have the prefix untraced_ there.
 *
 * A processor of C points to a struct of this file, which has the processor of the library in it. It lies in the memory of the machine,
 * so processes that share a machine share its log. */
#define _POSIX_C_SOURCE 200809L
#include <fcntl.h>
#include <inttypes.h>
#include <stdio.h>
#include <stdlib.h>
#include <unistd.h>

#include "vme_alloc.h"
#include "vme_trace.h"
#include "vme_waiter.h"

enum { MOST_BOARDS = 21, MOST_DATA = 256, MOST_BYTES = 2048, MOST_PATH = 256, MOST_LOCKED = 10000 /* ms */ };
enum { LINE = 144 /* of a datum, with its end */ };

#define UNTRACED(name) __typeof__(vme_##name) untraced_vme_##name
UNTRACED(machine_open);
UNTRACED(machine_load);
UNTRACED(machine_close);
UNTRACED(processor_drop);
UNTRACED(processor_try_local_read);
UNTRACED(processor_try_local_write);
UNTRACED(processor_try_local_modify);
UNTRACED(processor_start_read);
UNTRACED(processor_start_write);
UNTRACED(processor_start_modify);
UNTRACED(processor_step_reply);
UNTRACED(processor_read);
UNTRACED(processor_write);
UNTRACED(processor_modify);
UNTRACED(processor_bytes);
UNTRACED(processor_start_lock);
UNTRACED(processor_start_unlock);
UNTRACED(processor_start_put);
UNTRACED(processor_start_take);
UNTRACED(processor_word);
UNTRACED(processor_transfer);

/* The log of a machine. */
typedef struct log {
    uint32_t taken;   /* by a call */
    uint32_t alive;   /* how many processors are not closed or dropped */
    uint32_t is_off;  /* no log, or none any more */
    uint64_t end;     /* how many bytes of the file are given to lines */
    uint64_t opened;  /* ns */
    char path[MOST_PATH];
} log;

/* The place of a datum's line, and its time. */
typedef struct place {
    uint64_t at, time;
} place;

/* A processor with its last transfer. */
typedef struct traced {
    vme_processor own;
    log *to;
    uint16_t slot;
    uint16_t data; /* how many events of the transfer's board there were */
    uint8_t is_running, has_bus;
    uint8_t has_moved; /* a datum of a lock or a mailbox, since the bus was granted */
    vme_request request;
    uint8_t bytes[MOST_BYTES]; /* of a write */
    place places[MOST_DATA];
} traced;

static traced *of(const vme_processor *p)
{
    return p->full ? (traced *)p->hidden : NULL;
}

/* ---- The file ---- */

static const char *log_name;
static int is_named;
static uint32_t machines;

void vme_trace_to(const char *path)
{
    log_name = path;
    is_named = 1;
    __atomic_store_n(&machines, 0, __ATOMIC_SEQ_CST);
}

static uint64_t now(void)
{
    struct timespec t;
    clock_gettime(CLOCK_MONOTONIC, &t);
    return (uint64_t)t.tv_sec * 1000000000u + (uint64_t)t.tv_nsec;
}

/* Goes on without the log, and says so. */
static void give_up(log *to, const char *why)
{
    if (!__atomic_exchange_n(&to->is_off, 1, __ATOMIC_SEQ_CST))
        fprintf(stderr, "vme_trace: %s: %s\n", to->path, why);
}

/* Writes a text at an offset of the log. */
static void put(log *to, uint64_t at, const char *text, size_t size)
{
    const int file = open(to->path, O_WRONLY | O_CLOEXEC);
    if (file < 0 || pwrite(file, text, size, (off_t)at) != (ssize_t)size)
        give_up(to, "the log cannot be written");
    if (file >= 0)
        close(file);
}

/* Appends a text, and returns where it is. */
static uint64_t append(log *to, const char *text, size_t size)
{
    const uint64_t at = to->end;
    put(to, at, text, size);
    to->end += size;
    return at;
}

/* Waits until no other call of the machine is made. Returns 0 if there is no log. */
static int enter(log *to)
{
    const vme_waiter patient = { NULL, MOST_LOCKED, NULL, NULL };
    vme_tries tries = { 0, 0 };
    while (!__atomic_load_n(&to->is_off, __ATOMIC_SEQ_CST)) {
        if (!__atomic_exchange_n(&to->taken, 1, __ATOMIC_SEQ_CST))
            return 1;
        if (!vme_wait(&patient, NULL, 0, &tries))
            give_up(to, "a call does not end, so the order of calls is not known any more");
    }
    return 0;
}

static void leave(log *to)
{
    __atomic_store_n(&to->taken, 0, __ATOMIC_SEQ_CST);
}

/* ---- Lines ---- */

/* Prints bytes as hexadecimal digits. */
static int print_bytes(char *text, const uint8_t *bytes, size_t count)
{
    for (size_t i = 0; i < count; i++)
        sprintf(text + 2 * i, "%02x", bytes[i]);
    return (int)(2 * count);
}

/* Appends the line of an access by the local port, which moved these bytes. */
static void log_local(traced *own, char direction, uint32_t at, const vme_datum *datum)
{
    char text[LINE];
    int n = sprintf(text, "%" PRIu64 " lp slot=%u %c %08" PRIx32 " ", now() - own->to->opened, own->slot, direction, at);
    n += print_bytes(text + n, datum->bytes, datum->n);
    text[n++] = '\n';
    append(own->to, text, (size_t)n);
}

/* Fills a line: a text, blanks, and its end. */
static void fill(char *line, int used)
{
    memset(line + used, ' ', (size_t)(LINE - 1 - used));
    line[LINE - 1] = '\n';
}

/* Whether a request is of a code with data of eight bytes. */
static int is_wide(const vme_request *request)
{
    vme_am row;
    return vme_am_read(request->am, &row) == VME_OK && row.wide;
}

/* Prints the line of a datum, with the address of its transfer's first one. */
static void print_datum(char *line, const traced *own, uint64_t time, unsigned n, const vme_lines *lines, int is_berr)
{
    int used = sprintf(line, "%" PRIu64 " n=%u am=%02x a=%08" PRIx32 " ds1=%u ds0=%u a01=%u lword=%u write=%u data=", time, n, lines->am,
                       lines->addr, lines->strobes.ds1, lines->strobes.ds0, lines->strobes.a01, lines->strobes.lword, lines->write);
    for (int lane = is_wide(&own->request) ? 0 : 4; lane < 8; lane++)
        used += lines->lanes[lane] > 0xff ? sprintf(line + used, "--") : sprintf(line + used, "%02x", lines->lanes[lane]);
    used += sprintf(line + used, " %s slot=%u", is_berr ? "berr" : "dtack", own->slot);
    fill(line, used);
}

static int is_write(const vme_request *request)
{
    return request->kind == VME_WRITE || request->kind == VME_BLOCK_WRITE;
}

/* Whether each event of a transfer has two lines, of a read half and of a write half. */
static int has_halves(const traced *own)
{
    return own->request.kind == VME_MODIFY;
}

/* Takes the place of the next datum, whose events have so many lines. */
static void reserve(traced *own, int count)
{
    char lines[2 * LINE];
    place *next = &own->places[own->data];
    if (own->data == MOST_DATA)
        return;
    fill(lines, sprintf(lines, "# a datum of slot %u, whose transfer has not ended", own->slot));
    fill(lines + LINE, sprintf(lines + LINE, "#"));
    next->time = now() - own->to->opened;
    next->at = append(own->to, lines, (size_t)count * LINE);
    own->data++;
}

/* Writes the line of datum i, whose bytes were moved unless it had a bus error. */
static void write_datum(traced *own, unsigned i, const uint8_t *moved, int is_berr)
{
    const vme_request *request = &own->request;
    const size_t size = request->n > 8 ? 8 : request->n;
    char line[2 * LINE];
    vme_datum datum = { request->n, { 0 } }, new_bytes;
    vme_lines lines, half;
    memcpy(datum.bytes, (is_write(request) ? own->bytes : moved) + i * size, size);
    if (vme_request_lines(request, (uint16_t)i, &datum, &lines) != VME_OK) {
        give_up(own->to, "a request has no lines");
        return;
    }
    if (!is_write(request) && !is_berr)
        vme_lines_answer(&lines, &datum);
    print_datum(line, own, own->places[i].time, i, &lines, is_berr);
    put(own->to, own->places[i].at, line, LINE);
    if (!has_halves(own) || is_berr || vme_modify_value(&request->f, &datum, &new_bytes) != VME_OK
        || vme_request_write_half(request, &new_bytes, &half) != VME_OK)
        return;
    print_datum(line, own, own->places[i].time, i + 1, &half, 0);
    put(own->to, own->places[i].at + LINE, line, LINE);
}

/* Writes the lines of a transfer that ended with this result. */
static void write_transfer(traced *own, uint8_t result)
{
    uint8_t moved[MOST_BYTES];
    size_t count = 0;
    const int is_berr = result != VME_OK;
    if (result == VME_NO_BOARD && own->data == 0)
        reserve(own, 1);
    if (own->data && untraced_vme_processor_bytes(&own->own, moved, sizeof moved, &count) != VME_OK)
        give_up(own->to, "the bytes of a transfer cannot be read");
    for (unsigned i = 0; i < own->data; i++)
        write_datum(own, i, moved, is_berr && i + 1u == own->data);
}

/* ---- Machines ---- */

/* What a machine is opened by: boards and an arbiter, or the bytes of a configuration file. */
typedef struct source {
    const vme_board *boards;
    size_t count;
    uint8_t arbiter;
    const uint8_t *bytes; /* or NULL */
    size_t size;
} source;

/* Writes the keys of boards and of their arbiter. */
static void print_boards(FILE *file, const vme_board *boards, size_t count, uint8_t arbiter)
{
    static const char *const truth[] = { "false", "true" };
    if (arbiter != VME_PRIORITY)
        fprintf(file, "arbiter = \"rotating\"\n");
    for (size_t i = 0; i < count; i++) {
        const vme_board *it = &boards[i];
        const int space = it->entry.space < 24 ? 16 : it->entry.space < 32 ? 24 : 32, width = it->cls.width < 16 ? 8 : it->cls.width < 32 ? 16 : 32;
        fprintf(file, "[[board]]\nslot = %u\nbase = 0x%08" PRIx32 "\nsize = %" PRIu32 "\nspace = \"a%d\"\nlevel = %u\nwidth = %d\n", it->slot,
                it->entry.base, it->entry.size, space, it->level, width);
        fprintf(file, "uat = %s\nblt = %s\nrmw = %s\nsupervisory = %s\n", truth[width == 32 && it->cls.uat], truth[it->cls.blt != 0],
                truth[it->cls.rmw != 0], truth[it->entry.supervisory != 0]);
    }
}

/* Writes the configuration file with the boards, beside the log. */
static void write_boards(log *to, const source *of)
{
    char path[MOST_PATH + 8];
    snprintf(path, sizeof path, "%s.toml", to->path);
    FILE *file = fopen(path, "w");
    int is_written = file != NULL;
    if (file && of->bytes)
        is_written = fwrite(of->bytes, 1, of->size, file) == of->size;
    else if (file)
        print_boards(file, of->boards, of->count, of->arbiter);
    if ((file && fclose(file) != 0) || !is_written)
        give_up(to, "the file of its boards cannot be written");
}

/* Names the log of the next machine by its whole path. Returns whether there is one. */
static int name_log(log *to)
{
    char folder[MOST_PATH] = "", number[16] = "";
    const char *name = is_named ? log_name : getenv("VME_TRACE");
    if (!name || !*name)
        return 0;
    const uint32_t place = __atomic_add_fetch(&machines, 1, __ATOMIC_SEQ_CST);
    if (place > 1)
        snprintf(number, sizeof number, ".%" PRIu32, place);
    if (*name != '/' && !getcwd(folder, sizeof folder))
        folder[0] = '\0';
    const int used = snprintf(to->path, sizeof to->path, "%s%s%s%s", folder, *name == '/' ? "" : "/", name, number);
    if (used < 0 || (size_t)used >= sizeof to->path) {
        give_up(to, "the path is too long");
        return 0;
    }
    return 1;
}

static void begin(log *to, const source *of)
{
    memset(to, 0, sizeof *to);
    to->alive = (uint32_t)of->count;
    to->opened = now();
    if (!name_log(to)) {
        to->is_off = 1;
        return;
    }
    const int file = open(to->path, O_WRONLY | O_CREAT | O_TRUNC | O_CLOEXEC, 0666);
    if (file < 0) {
        give_up(to, "the log cannot be made");
        return;
    }
    close(file);
    write_boards(to, of);
}

/* The structs of a machine: that of its log is allocated after those of its processors. Returns whether there is memory. */
static int allocate(traced **structs, size_t count, log **to)
{
    size_t i = 0;
    for (vme_block block; i <= count; i++) {
        block = rattle_alloc(i < count ? sizeof(traced) : sizeof(log), 16);
        if (!block.ok)
            break;
        if (i == count)
            *to = (log *)block.at;
        else
            structs[i] = (traced *)block.at;
    }
    if (i > count)
        return 1;
    while (i--)
        rattle_dealloc(structs[i]);
    return 0;
}

/* Gives the processors of a machine structs and a log, or drops them. */
static uint8_t wrap(vme_processor *opened, const source *of, vme_processor *out)
{
    traced *structs[MOST_BOARDS];
    log *to = NULL;
    if (!allocate(structs, of->count, &to)) {
        for (size_t i = 0; i < of->count; i++)
            untraced_vme_processor_drop(&opened[i]);
        return VME_NO_MEMORY;
    }
    begin(to, of);
    for (size_t i = 0; i < of->count; i++) {
        memset(structs[i], 0, sizeof *structs[i]);
        structs[i]->own = opened[i];
        structs[i]->to = to;
        structs[i]->slot = of->boards[i].slot;
        out[i].full = 1;
        out[i].hidden = structs[i];
    }
    return VME_OK;
}

uint8_t vme_machine_open(const vme_board *boards, size_t count, uint8_t arbiter, vme_processor *out, size_t out_count)
{
    vme_processor opened[MOST_BOARDS];
    const source of = { boards, count, arbiter, NULL, 0 };
    if (count > MOST_BOARDS || out_count < count) /* a call that fails */
        return untraced_vme_machine_open(boards, count, arbiter, out, out_count);
    memset(opened, 0, sizeof opened);
    const uint8_t result = untraced_vme_machine_open(boards, count, arbiter, opened, count);
    return result == VME_OK ? wrap(opened, &of, out) : result;
}

uint8_t vme_machine_load(const uint8_t *file, size_t size, vme_board *boards, size_t boards_count, vme_processor *out, size_t out_count,
                         vme_loaded *found)
{
    vme_processor opened[MOST_BOARDS];
    vme_board all[MOST_BOARDS];
    vme_loaded own = *found;
    memset(opened, 0, sizeof opened);
    uint8_t result = untraced_vme_machine_load(file, size, all, MOST_BOARDS, opened, out_count < MOST_BOARDS ? out_count : MOST_BOARDS, &own);
    if (result == VME_OK) {
        const source of = { all, own.count, own.arbiter, file, size };
        result = wrap(opened, &of, out);
    }
    if (result == VME_OK)
        memcpy(boards, all, (own.count < boards_count ? own.count : boards_count) * sizeof *all);
    if (result == VME_OK || result == VME_C14)
        *found = own;
    return result;
}

/* Frees what a processor of C points to, and leaves it empty. */
static void discard(vme_processor *p)
{
    traced *own = of(p);
    log *to = own->to;
    memset(p, 0, sizeof *p);
    rattle_dealloc(own);
    if (__atomic_sub_fetch(&to->alive, 1, __ATOMIC_SEQ_CST) == 0)
        rattle_dealloc(to);
}

uint8_t vme_machine_close(vme_processor *all, size_t count, uint64_t *steps, size_t steps_count, uint8_t *bytes, size_t bytes_count)
{
    vme_processor opened[MOST_BOARDS];
    for (size_t i = 0; i < count; i++)
        if (!all[i].full)
            return VME_CLOSED;
    if (count > MOST_BOARDS)
        return VME_BAD_CALL;
    memset(opened, 0, sizeof opened);
    for (size_t i = 0; i < count; i++)
        opened[i] = of(&all[i])->own;
    const uint8_t result = untraced_vme_machine_close(opened, count, steps, steps_count, bytes, bytes_count);
    for (size_t i = 0; i < count; i++) {
        if (result == VME_OK)
            discard(&all[i]);
        else
            of(&all[i])->own = opened[i];
    }
    return result;
}

uint8_t vme_processor_drop(vme_processor *p)
{
    if (!p->full)
        return VME_CLOSED;
    untraced_vme_processor_drop(&of(p)->own);
    discard(p);
    return VME_OK;
}

/* ---- The local port ---- */

uint8_t vme_processor_try_local_read(vme_processor *p, uint32_t at, uint8_t n, vme_datum *out)
{
    traced *own = of(p);
    if (!own)
        return VME_CLOSED;
    const int is_logged = enter(own->to);
    const uint8_t result = untraced_vme_processor_try_local_read(&own->own, at, n, out);
    if (is_logged && result == VME_OK)
        log_local(own, 'r', at, out);
    if (is_logged)
        leave(own->to);
    return result;
}

uint8_t vme_processor_try_local_write(vme_processor *p, uint32_t at, const vme_datum *datum)
{
    traced *own = of(p);
    if (!own)
        return VME_CLOSED;
    const int is_logged = enter(own->to);
    const uint8_t result = untraced_vme_processor_try_local_write(&own->own, at, datum);
    if (is_logged && result == VME_OK)
        log_local(own, 'w', at, datum);
    if (is_logged)
        leave(own->to);
    return result;
}

uint8_t vme_processor_try_local_modify(vme_processor *p, uint32_t at, uint8_t n, const vme_modify *f, vme_datum *out)
{
    traced *own = of(p);
    vme_datum new_bytes;
    if (!own)
        return VME_CLOSED;
    const int is_logged = enter(own->to);
    const uint8_t result = untraced_vme_processor_try_local_modify(&own->own, at, n, f, out);
    if (is_logged && result == VME_OK) {
        log_local(own, 'r', at, out);
        if (vme_modify_value(f, out, &new_bytes) == VME_OK)
            log_local(own, 'w', at, &new_bytes);
    }
    if (is_logged)
        leave(own->to);
    return result;
}

/* ---- Transfers ---- */

/* Notes a transfer that was started. */
static uint8_t started(traced *own, uint8_t result, const vme_request *request, uint8_t kind)
{
    if (result != VME_OK)
        return result;
    own->request = *request;
    own->request.kind = kind;
    own->data = 0;
    own->is_running = 1;
    own->has_bus = 0;
    return VME_OK;
}

uint8_t vme_processor_start_read(vme_processor *p, const vme_request *request)
{
    traced *own = of(p);
    if (!own)
        return VME_CLOSED;
    return started(own, untraced_vme_processor_start_read(&own->own, request), request,
                   request->kind == VME_BLOCK_READ ? VME_BLOCK_READ : VME_READ);
}

uint8_t vme_processor_start_write(vme_processor *p, const vme_request *request, const uint8_t *bytes, size_t size)
{
    traced *own = of(p);
    if (!own)
        return VME_CLOSED;
    const int is_block = request->kind == VME_BLOCK_WRITE;
    const uint8_t result =
        started(own, untraced_vme_processor_start_write(&own->own, request, bytes, size), request, is_block ? VME_BLOCK_WRITE : VME_WRITE);
    if (result == VME_OK) {
        memcpy(own->bytes, bytes, size);
        if (is_block)
            own->request.count = (uint16_t)(size / request->n);
        else
            own->request.n = (uint8_t)size;
    }
    return result;
}

uint8_t vme_processor_start_modify(vme_processor *p, const vme_request *request, const vme_modify *f)
{
    traced *own = of(p);
    if (!own)
        return VME_CLOSED;
    const uint8_t result = started(own, untraced_vme_processor_start_modify(&own->own, request, f), request, VME_MODIFY);
    if (result == VME_OK)
        own->request.f = *f;
    return result;
}

/* Logs what a step of a transfer did. */
static void log_step(traced *own, uint8_t result)
{
    if (result == VME_MORE && own->has_bus)
        reserve(own, has_halves(own) ? 2 : 1);
    else if (result == VME_MORE)
        own->has_bus = 1;
    else if (result == VME_OK || result == VME_BERR || result == VME_NO_BOARD)
        write_transfer(own, result);
    if (result != VME_MORE && result != VME_BUSY && result != VME_NOT_GRANTED && result != VME_SPENT)
        own->is_running = 0;
}

/* Logs the datum of a transfer of a lock or a mailbox, which moved these bytes unless it had a bus error. */
static void log_datum(traced *own, const vme_datum *moved, int is_berr)
{
    own->data = 0;
    reserve(own, has_halves(own) && !is_berr ? 2 : 1);
    write_datum(own, 0, moved->bytes, is_berr);
}

/* Logs what a step of a lock, an unlock, a put or a take did, by its reply and the bytes of the reply. */
static void log_reply(traced *own, uint8_t reply, const vme_datum *moved)
{
    if (reply == VME_OK || reply == VME_BERR)
        log_datum(own, moved, reply == VME_BERR);
    else if (reply == VME_BUS_FREED && !own->has_moved)
        log_datum(own, moved, 1);
    if (reply != VME_BUSY && reply != VME_SPENT)
        own->has_moved = reply == VME_OK || reply == VME_BERR;
}

/* Notes the transfer at which a lock, an unlock, a put or a take is. Returns whether there is one. */
static int note_shared(traced *own)
{
    vme_request request;
    vme_datum written = { 0, { 0 } };
    if (untraced_vme_processor_transfer(&own->own, &request, &written) != VME_OK)
        return 0;
    own->request = request;
    memcpy(own->bytes, written.bytes, sizeof written.bytes);
    return 1;
}

uint8_t vme_processor_step_reply(vme_processor *p, uint8_t *reply, vme_datum *bytes)
{
    traced *own = of(p);
    if (!own)
        return VME_CLOSED;
    const int is_logged = enter(own->to), is_shared = is_logged && note_shared(own);
    const uint8_t result = untraced_vme_processor_step_reply(&own->own, reply, bytes);
    if (is_shared)
        log_reply(own, *reply, bytes);
    else if (is_logged && own->is_running)
        log_step(own, result);
    if (is_logged)
        leave(own->to);
    return result;
}

uint8_t vme_processor_step(vme_processor *p)
{
    uint8_t reply = VME_BAD_CALL;
    vme_datum bytes = { 0, { 0 } };
    return vme_processor_step_reply(p, &reply, &bytes);
}

/* Step by step, so that each event has its line. */
uint8_t vme_processor_run(vme_processor *p)
{
    uint8_t result, reply = VME_BAD_CALL;
    vme_datum bytes = { 0, { 0 } };
    do {
        result = vme_processor_step_reply(p, &reply, &bytes);
    } while (result == VME_MORE && reply != VME_BUS_FREED);
    return result;
}

/* Notes a transfer of one datum that was made by a call which returned this, and logs it if it has ended: its bytes were moved unless it had a
 * bus error. Gives the log back. Returns the result. */
static uint8_t made(traced *own, int is_logged, uint8_t result, const vme_request *request, const vme_datum *moved)
{
    const vme_datum none = { 0, { 0 } };
    const int has_ended = result == VME_OK || result == VME_BERR || result == VME_NO_BOARD;
    if (has_ended || result == VME_NOT_GRANTED || result == VME_BUSY || result == VME_SPENT)
        started(own, VME_OK, request, request->kind);
    if (has_ended)
        own->is_running = 0;
    if (has_ended && is_logged)
        log_datum(own, result == VME_OK ? moved : &none, result != VME_OK);
    if (is_logged)
        leave(own->to);
    return result;
}

/* Each of these three makes its events with the log's lock held. */
uint8_t vme_processor_read(vme_processor *p, uint8_t am, uint32_t addr, uint8_t n, vme_datum *out)
{
    const vme_request request = { .kind = VME_READ, .am = am, .addr = addr, .n = n };
    traced *own = of(p);
    if (!own)
        return VME_CLOSED;
    const int is_logged = enter(own->to);
    return made(own, is_logged, untraced_vme_processor_read(&own->own, am, addr, n, out), &request, out);
}

uint8_t vme_processor_write(vme_processor *p, uint8_t am, uint32_t addr, const vme_datum *datum)
{
    const vme_request request = { .kind = VME_WRITE, .am = am, .addr = addr, .n = datum->n };
    traced *own = of(p);
    if (!own)
        return VME_CLOSED;
    const int is_logged = enter(own->to);
    if (!own->is_running)
        memcpy(own->bytes, datum->bytes, sizeof datum->bytes);
    return made(own, is_logged, untraced_vme_processor_write(&own->own, am, addr, datum), &request, datum);
}

uint8_t vme_processor_modify(vme_processor *p, uint8_t am, uint32_t addr, uint8_t n, const vme_modify *f, vme_datum *out)
{
    const vme_request request = { .kind = VME_MODIFY, .am = am, .addr = addr, .n = n, .f = *f };
    traced *own = of(p);
    if (!own)
        return VME_CLOSED;
    const int is_logged = enter(own->to);
    return made(own, is_logged, untraced_vme_processor_modify(&own->own, am, addr, n, f, out), &request, out);
}

uint8_t vme_processor_bytes(vme_processor *p, uint8_t *out, size_t size, size_t *count)
{
    return p->full ? untraced_vme_processor_bytes(&of(p)->own, out, size, count) : (uint8_t)VME_CLOSED;
}

/* ---- Locks and mailboxes ---- */

uint8_t vme_processor_start_lock(vme_processor *p, uint8_t am, uint32_t addr)
{
    return p->full ? untraced_vme_processor_start_lock(&of(p)->own, am, addr) : (uint8_t)VME_CLOSED;
}

uint8_t vme_processor_start_unlock(vme_processor *p, uint8_t am, uint32_t addr)
{
    return p->full ? untraced_vme_processor_start_unlock(&of(p)->own, am, addr) : (uint8_t)VME_CLOSED;
}

uint8_t vme_processor_start_put(vme_processor *p, const vme_mailbox *box, uint32_t word)
{
    return p->full ? untraced_vme_processor_start_put(&of(p)->own, box, word) : (uint8_t)VME_CLOSED;
}

uint8_t vme_processor_start_take(vme_processor *p, const vme_mailbox *box)
{
    return p->full ? untraced_vme_processor_start_take(&of(p)->own, box) : (uint8_t)VME_CLOSED;
}

uint8_t vme_processor_word(vme_processor *p, uint32_t *word)
{
    return p->full ? untraced_vme_processor_word(&of(p)->own, word) : (uint8_t)VME_CLOSED;
}

uint8_t vme_processor_transfer(vme_processor *p, vme_request *request, vme_datum *bytes)
{
    return p->full ? untraced_vme_processor_transfer(&of(p)->own, request, bytes) : (uint8_t)VME_CLOSED;
}
