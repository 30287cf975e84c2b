/* The lines of scripts, for scripts.c: each is carried out by calls of the machine, and its reply is written as `vme` writes it. */
#ifndef SCRIPT_LINES_H
#define SCRIPT_LINES_H

#include <time.h>

#include "cases.h"

enum { MOST_BOXES = 16, MOST_LINE = 80, MOST_WORDS = 7 };

/* A board's program: its processor, and the replies to its lines. */
typedef struct actor {
    _Alignas(64) vme_processor p;
    unsigned slot;
    uint32_t random;
    int is_fine;   /* whether it pauses before each event */
    size_t events; /* of what was started last, but the one that ends it */
    FILE *out;
    char *text;
    size_t size;
} actor;

static unsigned long tries;
static vme_mailbox boxes[MOST_BOXES + 1];
static size_t box_count;

static void stop(const char *what, const char *text)
{
    fprintf(stderr, "scripts: %s: %s\n", what, text);
    exit(1);
}

/* ---- Words ---- */

static uint32_t hex(const char *word)
{
    return (uint32_t)strtoul(word, NULL, 16);
}

static uint16_t number(const char *word)
{
    return (uint16_t)strtoul(word, NULL, 10);
}

/* The bytes of a word of a line, which are at most 40. */
static size_t bytes_of(const char *word, uint8_t *out)
{
    size_t size = 0;
    for (; word[2 * size]; size++) {
        const char digits[3] = { word[2 * size], word[2 * size + 1], 0 };
        out[size] = (uint8_t)hex(digits);
    }
    return size;
}

static vme_datum datum_of(const char *word)
{
    uint8_t bytes[MOST_LINE] = { 0 };
    vme_datum datum = { (uint8_t)bytes_of(word, bytes), { 0 } };
    memcpy(datum.bytes, bytes, sizeof datum.bytes);
    return datum;
}

/* The function of a read-modify-write: set, xchg HEX, add HEX or cas HEX HEX. */
static vme_modify function_of(char *const *word)
{
    static const char *const names[] = { "", "set", "xchg", "add", "cas" };
    vme_modify f;
    memset(&f, 0, sizeof f);
    while (f.function <= VME_COMPARE && strcmp(word[0], names[f.function]) != 0)
        f.function++;
    if (f.function > VME_COMPARE)
        stop("no function", word[0]);
    if (f.function != VME_SET)
        f.operand = datum_of(word[1]);
    if (f.function == VME_COMPARE)
        f.put = datum_of(word[2]);
    return f;
}

/* The mailbox of a number. */
static const vme_mailbox *box_of(const char *word)
{
    const size_t k = number(word);
    if (k < 1 || k > box_count)
        stop("no mailbox", word);
    return &boxes[k - 1];
}

/* ---- Replies ---- */

static void print_bytes(FILE *out, const uint8_t *bytes, size_t size)
{
    for (size_t i = 0; i < size; i++)
        fprintf(out, "%02x", bytes[i]);
}

/* The reply to a lock, a put or a take that was tried as often as the file says. */
static const char *word_of(uint8_t result)
{
    switch (result) {
    case VME_HELD: return "busy";
    case VME_FULL: return "full";
    case VME_EMPTY: return "empty";
    case VME_SPENT: return "spent";
    default: stop("no reply", "to the result of a call"); return "";
    }
}

/* Writes the reply to a line: a word if it was done, and bytes. */
static void reply(actor *own, uint8_t result, const char *done, const uint8_t *bytes, size_t size)
{
    if (result == VME_OK)
        fputs(done, own->out);
    else if (result >= VME_K1 && result <= VME_K9)
        fprintf(own->out, "refused K%u", result);
    else if (result == VME_BERR || result == VME_NO_BOARD)
        fprintf(own->out, "berr %zu", own->events < 2 ? 0 : own->events - 2); /* without the grant and the datum of the error */
    else
        fputs(word_of(result), own->out);
    if (size)
        fputc(' ', own->out);
    print_bytes(own->out, bytes, size);
    fputc('\n', own->out);
}

/* The same for a datum, which a call has written if it succeeded. */
static void reply_datum(actor *own, uint8_t result, const char *done, const vme_datum *datum)
{
    reply(own, result, done, datum->bytes, result == VME_OK ? datum->n : 0);
}

/* ---- Pauses, and what goes over the bus ---- */

/* Yields at times, and at times sleeps for 1 ns to 131 us, which the seed chooses. */
static void pause_at_times(actor *own)
{
    own->random = own->random * 1664525u + 1013904223u;
    const uint32_t chosen = own->random >> 24;
    const struct timespec moment = { 0, 1L << (own->random >> 8 & 0xffff) % 18 };
    if (chosen < 64)
        sched_yield();
    else if (chosen < 96)
        nanosleep(&moment, NULL);
}

/* Goes on with what a call has started until it ends. Returns its result, or that of the start if it failed. */
static uint8_t finish(actor *own, uint8_t started)
{
    own->events = 0;
    if (started != VME_OK)
        return started;
    for (;; own->events++) {
        if (own->is_fine)
            pause_at_times(own);
        const uint8_t result = vme_go_on(&own->p, &waiter, 1);
        if (result != VME_MORE)
            return result;
    }
}

/* The request of a line: AM and ADDR are the words after the first. */
static vme_request request_of(uint8_t kind, char *const *word, size_t n, uint16_t data)
{
    return vme_request_of(kind, (uint8_t)hex(word[1]), hex(word[2]), (uint8_t)n, data);
}

/* The reply to a line that reads, with the bytes that it got. */
static void reply_read(actor *own, uint8_t result, const char *done)
{
    uint8_t bytes[VME_MOST_READ];
    size_t size = 0;
    if (result == VME_OK || result == VME_BERR)
        want("bytes", vme_processor_bytes(&own->p, bytes, sizeof bytes, &size), VME_OK);
    reply(own, result, done, bytes, size);
}

/* ---- Lines ---- */

static void read_line(actor *own, char **word)
{
    const vme_request request = request_of(VME_READ, word, number(word[3]), 0);
    reply_read(own, finish(own, vme_processor_start_read(&own->p, &request)), "read");
}

static void write_line(actor *own, char **word)
{
    uint8_t bytes[MOST_LINE];
    const size_t size = bytes_of(word[3], bytes);
    const vme_request request = request_of(VME_WRITE, word, size, 0);
    reply(own, finish(own, vme_processor_start_write(&own->p, &request, bytes, size)), "done", NULL, 0);
}

static void block_read(actor *own, char **word)
{
    const vme_request request = request_of(VME_BLOCK_READ, word, number(word[3]), number(word[4]));
    reply_read(own, finish(own, vme_processor_start_read(&own->p, &request)), "read");
}

static void block_write(actor *own, char **word)
{
    uint8_t bytes[MOST_LINE];
    const vme_request request = request_of(VME_BLOCK_WRITE, word, number(word[3]), 0);
    const uint8_t started = vme_processor_start_write(&own->p, &request, bytes, bytes_of(word[4], bytes));
    reply(own, finish(own, started), "done", NULL, 0);
}

static void block_fill(actor *own, char **word)
{
    static const size_t most = 9999 * 8;
    uint8_t *bytes = calloc(most, 1);
    const size_t n = number(word[3]), size = n * number(word[4]);
    const vme_datum datum = datum_of(word[5]);
    if (!bytes || size > most || n != datum.n)
        stop("no block", word[5]);
    for (size_t i = 0; i < size; i++)
        bytes[i] = datum.bytes[i % n];
    const vme_request request = request_of(VME_BLOCK_WRITE, word, n, 0);
    const uint8_t started = vme_processor_start_write(&own->p, &request, bytes, size);
    free(bytes);
    reply(own, finish(own, started), "done", NULL, 0);
}

static void modify_line(actor *own, char **word)
{
    const vme_request request = request_of(VME_MODIFY, word, number(word[3]), 0);
    const vme_modify f = function_of(word + 4);
    reply_read(own, finish(own, vme_processor_start_modify(&own->p, &request, &f)), "old");
}

static void local_read(actor *own, char **word)
{
    vme_datum out = { 0, { 0 } };
    const uint8_t result = vme_processor_local_read(&own->p, &waiter, hex(word[1]), (uint8_t)number(word[2]), &out);
    reply_datum(own, result, "read", &out);
}

static void local_write(actor *own, char **word)
{
    const vme_datum datum = datum_of(word[2]);
    reply(own, vme_processor_local_write(&own->p, &waiter, hex(word[1]), &datum), "done", NULL, 0);
}

static void local_modify(actor *own, char **word)
{
    vme_datum out = { 0, { 0 } };
    const vme_modify f = function_of(word + 3);
    const uint8_t result = vme_processor_local_modify(&own->p, &waiter, hex(word[1]), (uint8_t)number(word[2]), &f, &out);
    reply_datum(own, result, "old", &out);
}

static void await_line(actor *own, char **word)
{
    uint8_t bytes[MOST_LINE];
    const size_t size = bytes_of(word[3], bytes);
    const vme_request request = request_of(VME_READ, word, size, 0);
    for (unsigned long k = 0; k < tries; k++) {
        vme_datum found = { 0, { 0 } };
        const uint8_t result = finish(own, vme_processor_start_read(&own->p, &request));
        if (result == VME_OK)
            want("bytes", vme_read_bytes(&own->p, &found), VME_OK);
        const int is_met = found.n == size && memcmp(found.bytes, bytes, size) == 0;
        if (result != VME_OK || is_met) {
            reply(own, result, "met", NULL, 0);
            return;
        }
        pause_at_times(own);
    }
    fputs("timeout\n", own->out);
}

static uint8_t start_lock(actor *own, char **word)
{
    return vme_processor_start_lock(&own->p, (uint8_t)hex(word[1]), hex(word[2]));
}

static uint8_t start_put(actor *own, char **word)
{
    return vme_processor_start_put(&own->p, box_of(word[1]), hex(word[2]));
}

static uint8_t start_take(actor *own, char **word)
{
    return vme_processor_start_take(&own->p, box_of(word[1]));
}

/* Tries a lock, a put or a take until it is done or fails, or as often as the file says. */
static uint8_t attempt(actor *own, uint8_t (*start)(actor *, char **), char **word)
{
    for (unsigned long k = 1;; k++) {
        const uint8_t result = finish(own, start(own, word));
        if (k == tries || (result != VME_HELD && result != VME_FULL && result != VME_EMPTY))
            return result;
        pause_at_times(own);
    }
}

static void lock_line(actor *own, char **word)
{
    reply(own, attempt(own, start_lock, word), "taken", NULL, 0);
}

static void unlock_line(actor *own, char **word)
{
    reply(own, finish(own, vme_processor_start_unlock(&own->p, (uint8_t)hex(word[1]), hex(word[2]))), "done", NULL, 0);
}

static void put_line(actor *own, char **word)
{
    reply(own, attempt(own, start_put, word), "put", NULL, 0);
}

static void take_line(actor *own, char **word)
{
    uint32_t taken = 0;
    const uint8_t result = attempt(own, start_take, word);
    if (result == VME_OK)
        want("word", vme_processor_word(&own->p, &taken), VME_OK);
    const vme_datum datum = vme_datum_of(taken);
    reply_datum(own, result, "took", &datum);
}

static const struct {
    const char *name;
    void (*run)(actor *, char **);
} words_of_lines[] = {
    { "r", read_line },      { "w", write_line },      { "br", block_read },      { "bw", block_write },  { "bf", block_fill },
    { "m", modify_line },    { "lr", local_read },     { "lw", local_write },     { "lm", local_modify }, { "await", await_line },
    { "lock", lock_line },   { "put", put_line },      { "take", take_line },     { "unlock", unlock_line },
};

/* Carries out a line, whose number is written before its reply. */
static void run_line(actor *own, unsigned number_of_line, const char *given)
{
    char text[MOST_LINE + 1], *word[MOST_WORDS] = { NULL }, *rest = NULL;
    size_t words = 0;
    snprintf(text, sizeof text, "%s", given);
    for (char *next = strtok_r(text, " ", &rest); next && words < MOST_WORDS; next = strtok_r(NULL, " ", &rest))
        word[words++] = next;
    own->events = 0;
    fprintf(own->out, "%u:%u ", own->slot, number_of_line);
    for (size_t i = 0; i < sizeof words_of_lines / sizeof *words_of_lines; i++)
        if (words && strcmp(word[0], words_of_lines[i].name) == 0) {
            words_of_lines[i].run(own, word);
            return;
        }
    stop("no call for", given);
}

#endif
