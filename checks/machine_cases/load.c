/* Opens a machine by each configuration file that is named, and prints what the library returns of it: the boards, or the refusal as `vme`
   prints it. Each machine is then used by its processors and closed, by structs and with places as few as there can be. */
#include <stdbool.h>

#include "cases.h"

enum { MOST_FILE = 1 << 20, SLOTS = 21 };

static uint8_t file[MOST_FILE];
static vme_board boards[SLOTS + 1];
static vme_processor p[SLOTS + 1];
static const vme_loaded nothing = { 77, 77, 77, 77, 77 };

static bool is_same(const vme_loaded *a, const vme_loaded *b)
{
    return a->count == b->count && a->slot == b->slot && a->line == b->line && a->arbiter == b->arbiter && a->script == b->script;
}

static void print_board(const vme_board *it)
{
    printf("; %u %u %u %u %u %u %u %u %u %u", it->slot, it->level, it->entry.space, it->entry.base, it->entry.size, it->entry.supervisory,
           it->cls.width, it->cls.uat, it->cls.blt, it->cls.rmw);
}

/* Uses each processor, which moves all boards of the machine by its own local port, and closes the machine. */
static void use(size_t count)
{
    uint64_t steps[SLOTS + 1];
    uint8_t byte;
    for (size_t i = 0; i < count; i++) {
        const vme_datum datum = { 1, { (uint8_t)(boards[i].slot + 1) } };
        vme_datum out = { 0, { 0 } };
        want("a last byte", vme_processor_local_read(&p[i], &waiter, boards[i].entry.size - 1, 1, &out), VME_OK);
        want("what it is", out.bytes[0], 0);
        want("write", vme_processor_local_write(&p[i], &waiter, boards[i].entry.size - 1, &datum), VME_OK);
        want("past the end", vme_processor_local_read(&p[i], &waiter, boards[i].entry.size, 1, &out), VME_BERR);
    }
    want("close", vme_machine_close(p, count, steps, SLOTS + 1, &byte, 1), VME_OK);
    for (size_t i = 0; i < count; i++)
        want("steps", (uint8_t)steps[i], 3);
    want("steps of the arbiter", (uint8_t)steps[count], 0);
}

/* Whether a place has what was there before. */
static bool is_untouched(const vme_board *it, const vme_board *before)
{
    return it->entry.base == before->entry.base && it->entry.size == before->entry.size && it->cls.width == before->cls.width
           && it->slot == before->slot && it->level == before->level;
}

/* With a struct too few nothing is written, and with a place too few the boards that have one. */
static void use_few(size_t size, size_t count)
{
    vme_loaded found = nothing;
    const vme_board last = boards[count - 1], other = { { 1, 2, 3, 4 }, { 5, 6, 7, 8 }, 9, 10 };
    memset(boards, 0, sizeof boards);
    boards[count - 1] = other;
    want("a struct too few", vme_machine_load(file, size, boards, SLOTS, p, count - 1, &found), VME_BAD_CALL);
    want("what it wrote", (uint8_t)(is_same(&found, &nothing) && !p[0].full && is_untouched(&boards[count - 1], &other)), 1);
    want("a place too few", vme_machine_load(file, size, boards, count - 1, p, count, &found), VME_OK);
    want("the place behind", (uint8_t)(is_untouched(&boards[count - 1], &other) && p[count - 1].full && !p[count].full), 1);
    boards[count - 1] = last;
    use(count);
}

static void load(const char *path)
{
    FILE *in = fopen(path, "rb");
    vme_loaded found = nothing;
    memset(boards, 0, sizeof boards);
    const size_t size = in ? fread(file, 1, sizeof file, in) : 0;
    if (!in || fclose(in) != 0)
        exit(1);
    const uint8_t result = vme_machine_load(file, size, boards, SLOTS, p, SLOTS, &found);
    if (result == VME_OK) {
        printf("%s %u", found.arbiter == VME_PRIORITY ? "priority" : "rotating", found.slot + found.line + found.script);
        for (size_t i = 0; i < found.count; i++)
            print_board(&boards[i]);
        puts("");
        use(found.count);
        use_few(size, found.count);
        return;
    }
    if (result == VME_C14)
        printf("C14 slot %u line %u S%u\n", found.slot, found.line, found.script);
    else
        printf("C%d\n", result - VME_C1 + 1);
    if (result == VME_C14)
        want("a refused count", (uint8_t)(found.count + found.arbiter), 0);
    else
        want("what a refusal wrote", (uint8_t)is_same(&found, &nothing), 1);
    want("structs of a refused file", (uint8_t)(p[0].full | boards[0].level | (boards[0].slot != 0)), 0);
}

int main(int argc, char **argv)
{
    for (int i = 1; i < argc; i++)
        load(argv[i]);
    return 0;
}
