/* Answers request lines from standard input as `vme cycles` does: the signals of each cycle, and the reply of one board
 * of 4,096 bytes. A line that is not a request gives `line refused`, without the reason.
 *
 *   cc cycles.c $(pkg-config --cflags --libs vme) -o cycles && ./cycles <requests
 */
#include <stdio.h>
#include "request_line.h"

static uint8_t memory[4096];
static const vme_class board = { 32, 1, 1, 1 };
static const vme_entry map[] = { { 0, sizeof memory, 32, 0 } };

static void print_lines(const vme_lines *lines)
{
    vme_am am;
    const vme_strobes *s = &lines->strobes;
    vme_am_read(lines->am, &am);
    printf("am=%02x a=%08x ds1=%d ds0=%d a01=%d lword=%d write=%d data=", lines->am, (unsigned)lines->addr, s->ds1, s->ds0,
           s->a01, s->lword, lines->write);
    for (int lane = am.wide ? VME_D63_D56 : VME_D31_D24; lane <= VME_D07_D00; lane++)
        if (lines->lanes[lane] == VME_IDLE)
            printf("--");
        else
            printf("%02x", lines->lanes[lane]);
    putchar('\n');
}

static void print_bytes(const char *word, const uint8_t *bytes, size_t len)
{
    fputs(word, stdout);
    if (len > 0)
        putchar(' ');
    for (size_t i = 0; i < len; i++)
        printf("%02x", bytes[i]);
    putchar('\n');
}

/* Makes datum i, and prints its lines. Puts the bytes that were read into found. */
static uint8_t make(const request_line *line, uint16_t i, vme_datum *found)
{
    const vme_request *r = &line->request;
    vme_datum datum = datum_at(line, i);
    vme_lines lines;
    vme_selection where;
    vme_request_lines(r, i, &datum, &lines);
    uint8_t result = vme_map_select(map, 1, r->am, r->addr, &where);
    if (result == VME_OK)
        result = vme_slave_cycle(memory, sizeof memory, &board, &lines, where.offset + (uint32_t)i * r->n, &r->f, found);
    if (result == VME_OK && found->n > 0)
        vme_lines_answer(&lines, found);
    print_lines(&lines);
    if (result == VME_OK && r->kind == VME_MODIFY) {
        vme_modify_value(&r->f, found, &datum);
        vme_request_write_half(r, &datum, &lines);
        print_lines(&lines);
    }
    return result;
}

static void answer(const request_line *line)
{
    const vme_request *r = &line->request;
    vme_datum datum = datum_at(line, 0);
    uint8_t refusal = vme_request_check(r, &datum);
    if (refusal != VME_OK) {
        printf("refused K%d\n", refusal);
        return;
    }
    uint8_t read[2048];
    size_t len = 0;
    unsigned count = r->kind == VME_BLOCK_READ || r->kind == VME_BLOCK_WRITE ? r->count : 1;
    for (unsigned i = 0; i < count; i++) {
        if (make(line, (uint16_t)i, &datum) != VME_OK) {
            char word[16];
            snprintf(word, sizeof word, "berr %u", i);
            print_bytes(word, read, len);
            return;
        }
        memcpy(read + len, datum.bytes, datum.n);
        len += datum.n;
    }
    print_bytes(len == 0 ? "done" : r->kind == VME_MODIFY ? "old" : "read", read, len);
}

int main(void)
{
    char text[256];
    if (vme_version() != VME_VERSION)
        return 1;
    while (fgets(text, sizeof text, stdin)) {
        request_line line;
        int kind = read_request_line(text, &line);
        if (kind < 0)
            puts("line refused");
        if (kind > 0)
            answer(&line);
    }
    return 0;
}
