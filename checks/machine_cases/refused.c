/* Each allocation of open, of load, of the start of a block write, of the start of a block read and of close is refused in turn, by an
   allocator of this program's own. A refused open or load gives VME_NO_MEMORY, no processor, and all its memory back, as does a file that
   is refused; a refused start or close leaves the machine as it was. No event allocates, and no start of another transfer, of a lock
   or of a mailbox. */
#include "cases.h"
#include "vme_alloc.h"

static long left = -1, live, asked; /* left: how many allocations are given before one is refused, or -1 for all */

static bool is_refused(void)
{
    asked++;
    return left >= 0 && left-- == 0;
}

vme_block rattle_alloc(size_t size, size_t align)
{
    (void)align;
    if (is_refused())
        return vme_block_at(NULL);
    live++;
    return vme_block_at(malloc(size ? size : 1));
}

vme_block rattle_realloc(void *old, size_t kept, size_t size, size_t align)
{
    (void)kept;
    (void)align;
    return vme_block_at(is_refused() ? NULL : realloc(old, size ? size : 1));
}

void rattle_dealloc(void *old)
{
    live--;
    free(old);
}

enum { COUNT = 3 };

static uint8_t open_three(vme_processor *out)
{
    vme_board boards[COUNT];
    for (uint32_t i = 0; i < COUNT; i++) {
        const vme_board board = { { address(i, 0), BOARD_SIZE, 32, 0 }, { 32, 1, 1, 1 }, (uint16_t)(i + 1), 3 };
        boards[i] = board;
    }
    return vme_machine_open(boards, COUNT, VME_PRIORITY, out, COUNT);
}

static const char lawful[] = "arbiter = 'rotating'\nschedule = [[1, 2], [3, 1]]\n"
                             "[[board]]\nslot = 1\nbase = 0\nsize = 64\nscript = 'lw 00000030 01'\n"
                             "[[board]]\nslot = 3\nbase = 64\nsize = 64\nscript = '''\nput 1 00000001\ntake 1'''\n"
                             "[[board]]\nslot = 4\nbase = 128\nsize = 64\n"
                             "[[mailbox]]\nam = 9\naddr = 64\nslots = 4\n";

static uint8_t load_text(const char *text, vme_processor *out)
{
    vme_board boards[COUNT];
    vme_loaded found;
    return vme_machine_load((const uint8_t *)text, strlen(text), boards, COUNT, out, COUNT, &found);
}

static uint8_t load_three(vme_processor *out)
{
    return load_text(lawful, out);
}

/* Opens with allocation after allocation refused, until none is. Returns how many were. */
static long refuse_open(uint8_t (*open_by)(vme_processor *), vme_processor *out)
{
    for (long n = 0;; n++) {
        left = n;
        const uint8_t result = open_by(out);
        const bool is_met = left < 0;
        left = -1;
        if (!is_met) {
            want("open", result, VME_OK);
            return n;
        }
        if (open_by == load_three && result == VME_OK) /* the reader of files does without it */
            for (int i = 0; i < COUNT; i++)
                want("drop", vme_processor_drop(&out[i]), VME_OK);
        else
            want("open without memory", result, VME_NO_MEMORY);
        want("its structs", (uint8_t)(out[0].full | out[1].full | out[2].full), 0);
        if (live) {
            fprintf(stderr, "refused allocation %ld of open: %ld blocks are not freed\n", n, live);
            exit(1);
        }
    }
}

/* The same for close. */
static long refuse_close(vme_processor *all)
{
    vme_datum datum = { 0, { 0 } };
    uint64_t steps = 77;
    uint8_t byte = 7;
    for (long n = 0;; n++) {
        left = n;
        const uint8_t result = vme_machine_close(all, COUNT, &steps, 1, &byte, 1);
        const bool is_met = left < 0;
        left = -1;
        if (!is_met) {
            want("close", result, VME_OK);
            return n;
        }
        want("close without memory", result, VME_NO_MEMORY);
        want("what it wrote", (uint8_t)(steps == 77 && byte == 7), 1);
        for (int i = 0; i < COUNT; i++)
            want("a read afterwards", vme_processor_try_local_read(&all[i], 0, 4, &datum), VME_OK);
    }
}

/* The same for the start of a block read or write. */
static long refuse_start(vme_processor *p, uint8_t kind)
{
    const vme_request request = vme_request_of(kind, BLOCK_AM, address(2, 256), 4, 64);
    static uint8_t block[256];
    for (long n = 0;; n++) {
        left = n;
        const uint8_t result =
            kind == VME_BLOCK_READ ? vme_processor_start_read(p, &request) : vme_processor_start_write(p, &request, block, sizeof block);
        const bool is_met = left < 0;
        left = -1;
        if (!is_met) {
            want("start", result, VME_OK);
            want("finish", vme_finish(p, &waiter), VME_OK);
            return n;
        }
        want("start without memory", result, VME_NO_MEMORY);
        want("a step afterwards: the end of the transfer before", vme_processor_step(p), VME_OK);
    }
}

int main(void)
{
    vme_processor all[COUNT];
    const vme_datum datum = { 4, { 1, 2, 3, 4 } };
    const vme_mailbox box = { address(1, 64), 4, AM };
    vme_datum out = { 0, { 0 } };
    uint32_t word;
    long loaded = 0;
    memset(all, 0, sizeof all);
    if (load_text("", all) != VME_BAD_STATE) { /* not the double, which reads no file */
        loaded = refuse_open(load_three, all);
        for (int i = 0; i < COUNT; i++)
            want("drop", vme_processor_drop(&all[i]), VME_OK);
        char text[sizeof lawful];
        for (size_t size = 0; size < sizeof lawful - 1; size++) { /* files that end before their end */
            memcpy(text, lawful, size);
            text[size] = '\0';
            if (load_text(text, all) == VME_OK)
                for (int i = 0; i < COUNT; i++)
                    vme_processor_drop(&all[i]);
            if (live) {
                fprintf(stderr, "after %zu bytes of a file %ld blocks are not freed\n", size, live);
                return 1;
            }
        }
    }
    const long opened = refuse_open(open_three, all);
    asked = 0;
    for (int i = 0; i < 1000; i++) {
        want("write", vme_processor_try_local_write(&all[i % COUNT], 8, &datum), VME_OK);
        want("read", vme_processor_try_local_read(&all[i % COUNT], 8, 4, &out), VME_OK);
    }
    for (int i = 0; i < 100; i++) {
        set(&all[i % COUNT], address(1, 16), 4, get(&all[(i + 1) % COUNT], address(2, 8), 4));
        want("put", vme_put(&all[i % COUNT], &waiter, &box, 1), VME_OK);
        want("take", vme_take(&all[(i + 1) % COUNT], &waiter, &box, &word), VME_OK);
    }
    if (asked) {
        fprintf(stderr, "%ld allocations in events\n", asked);
        return 1;
    }
    const long started = refuse_start(&all[2], VME_BLOCK_WRITE) + refuse_start(&all[2], VME_BLOCK_READ);
    const long closed = refuse_close(all);
    if (live) {
        fprintf(stderr, "after close %ld blocks are not freed\n", live);
        return 1;
    }
    printf("%ld allocations of open, %ld of load, %ld of starts and %ld of close refused in turn\n", opened, loaded, started, closed);
    return opened == 0;
}
