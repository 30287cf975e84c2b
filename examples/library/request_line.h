/* Reads the request lines of `vme cycles`, for the examples. It is not a part of the library. */
#ifndef REQUEST_LINE_H
#define REQUEST_LINE_H

#include <stdlib.h>
#include <string.h>
#include "vme.h"

enum { LINE_BYTES = 40 };

typedef struct request_line {
    vme_request request;
    uint8_t bytes[LINE_BYTES]; /* the bytes of a write, all data in order */
    size_t len;
    int fill; /* whether each datum of a block write has all these bytes */
} request_line;

/* Whether a text has 1 to most characters, and only some digits. A missing word is NULL. */
static int is_spelled(const char *text, const char *digits, size_t most)
{
    size_t len = text ? strlen(text) : 0;
    return len > 0 && len <= most && strspn(text, digits) == len;
}

static int is_hexadecimal(const char *text, size_t most)
{
    return is_spelled(text, "0123456789abcdefABCDEF", most);
}

/* Reads pairs of hexadecimal digits. Returns the number of bytes, or 0 unless they spell 1 to most bytes. */
static size_t read_bytes(const char *text, uint8_t *bytes, size_t most)
{
    if (!is_hexadecimal(text, 2 * most) || strlen(text) % 2 != 0)
        return 0;
    size_t len = strlen(text) / 2;
    for (size_t i = 0; i < len; i++) {
        char pair[3] = { text[2 * i], text[2 * i + 1], 0 };
        bytes[i] = (uint8_t)strtoul(pair, NULL, 16);
    }
    return len;
}

/* Reads a datum. Returns whether the text spells n bytes. */
static int read_datum(const char *text, uint8_t n, vme_datum *datum)
{
    datum->n = (uint8_t)read_bytes(text, datum->bytes, sizeof datum->bytes);
    return datum->n == n;
}

/* Reads the function of a read-modify-write of n bytes from count words. Returns whether they spell one. */
static int read_function(char **words, int count, uint8_t n, vme_modify *f)
{
    static const char *const names[] = { "", "set", "xchg", "add", "cas" };
    for (uint8_t function = VME_SET; function <= VME_COMPARE; function++)
        if (strcmp(words[0], names[function]) == 0)
            f->function = function;
    if (f->function == VME_NO_FUNCTION)
        return 0;
    if (f->function == VME_SET)
        return count == 1;
    if (!read_datum(words[1], n, &f->operand))
        return 0;
    if (f->function == VME_COMPARE)
        return count == 3 && read_datum(words[2], n, &f->put);
    return count == 2;
}

/* Reads the count words of a line after the address. Returns whether they are a request. */
static int read_rest(const char *word, char **rest, int count, request_line *out)
{
    vme_request *r = &out->request;
    if (strcmp(word, "w") == 0) {
        r->kind = VME_WRITE;
        out->len = read_bytes(rest[0], out->bytes, 8);
        r->n = (uint8_t)out->len;
        return count == 1 && out->len > 0;
    }
    if (!is_spelled(rest[0], "12345678", 1))
        return 0;
    r->n = (uint8_t)strtoul(rest[0], NULL, 10);
    if (strcmp(word, "r") == 0) {
        r->kind = VME_READ;
        return count == 1;
    }
    if (strcmp(word, "m") == 0) {
        r->kind = VME_MODIFY;
        return count > 1 && read_function(rest + 1, count - 1, r->n, &r->f);
    }
    if (strcmp(word, "bw") == 0) {
        r->kind = VME_BLOCK_WRITE;
        out->len = read_bytes(rest[1], out->bytes, LINE_BYTES);
        r->count = (uint16_t)(out->len % r->n == 0 ? out->len / r->n : 0);
        return count == 2 && out->len > 0;
    }
    if (!is_spelled(rest[1], "0123456789", 4))
        return 0;
    r->count = (uint16_t)strtoul(rest[1], NULL, 10);
    if (strcmp(word, "br") == 0) {
        r->kind = VME_BLOCK_READ;
        return count == 2;
    }
    r->kind = VME_BLOCK_WRITE;
    out->fill = 1;
    out->len = read_bytes(rest[2], out->bytes, 8);
    return strcmp(word, "bf") == 0 && count == 3 && out->len == r->n;
}

/* Reads a line. Returns 1 for a request, 0 for an empty line or a comment, and -1 for every other line. */
static int read_request_line(char *text, request_line *out)
{
    char *words[10] = { 0 };
    int count = 0;
    for (char *word = strtok(text, " \t\r\n"); word && count < 9; word = strtok(NULL, " \t\r\n"))
        words[count++] = word;
    memset(out, 0, sizeof *out);
    if (count == 0 || words[0][0] == '#')
        return 0;
    if (count < 4 || !is_hexadecimal(words[1], 2) || !is_hexadecimal(words[2], 8))
        return -1;
    if (strlen(words[1]) != 2 || strlen(words[2]) != 8)
        return -1;
    out->request.am = (uint8_t)strtoul(words[1], NULL, 16);
    out->request.addr = (uint32_t)strtoul(words[2], NULL, 16);
    return read_rest(words[0], words + 3, count - 3, out) ? 1 : -1;
}

/* Datum i of a write, and no bytes for every other request. A fill has one datum for all i. */
static vme_datum datum_at(const request_line *line, size_t i)
{
    vme_datum datum = { 0, { 0 } };
    size_t start = line->fill ? 0 : i * line->request.n;
    size_t left = start < line->len ? line->len - start : 0;
    size_t n = line->fill || left < line->request.n ? left : line->request.n;
    datum.n = (uint8_t)n;
    if (n > 0)
        memcpy(datum.bytes, line->bytes + start, n);
    return datum;
}

#endif
