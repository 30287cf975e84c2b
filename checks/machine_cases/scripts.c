/* Interprets the scripts of a configuration file over the machine that vme_machine_load opens by it, with a thread for each board. Prints
   the outcome of each run as `bendrika outcomes` does, and an empty line after it.

   usage: scripts FILE LINES SEED RUNS

   LINES has what C does not read from TOML, a line each:

     tries N                    the most reads of an await, and attempts of a lock, a put or a take
     box AM ADDR SLOTS          a mailbox, in the order of the file
     line SLOT NUMBER WORDS     a line of a script that asks for something

   The seed chooses where threads pause: with an even one before lines alone, with an odd one before each event. */
#define _POSIX_C_SOURCE 200809L
#include "script_lines.h"

enum { SLOTS = 21, MOST_LINES = SLOTS * 1000, MOST_FILE = 1 << 20, ROW = 16 };

typedef struct line {
    unsigned slot, number;
    char text[MOST_LINE + 1];
} line;

static line lines[MOST_LINES + 1];
static size_t line_count;
static uint8_t file[MOST_FILE];
static vme_board boards[SLOTS];
static actor actors[SLOTS];
static size_t count, arrived;

static void *run_script(void *given)
{
    actor *own = given;
    __atomic_add_fetch(&arrived, 1, __ATOMIC_SEQ_CST);
    while (__atomic_load_n(&arrived, __ATOMIC_SEQ_CST) < count)
        sched_yield();
    for (size_t i = 0; i < line_count; i++)
        if (lines[i].slot == own->slot) {
            pause_at_times(own);
            run_line(own, lines[i].number, lines[i].text);
        }
    return NULL;
}

static void run_threads(void)
{
    pthread_t threads[SLOTS];
    arrived = 0;
    for (size_t i = 0; i < count; i++)
        if (pthread_create(&threads[i], NULL, run_script, &actors[i]) != 0)
            stop("no thread", "");
    for (size_t i = 0; i < count; i++)
        pthread_join(threads[i], NULL);
}

/* Opens the machine, with the actors of its boards. */
static void load(size_t size, uint32_t seed)
{
    vme_processor p[SLOTS];
    vme_loaded found;
    memset(p, 0, sizeof p);
    want("load", vme_machine_load(file, size, boards, SLOTS, p, SLOTS, &found), VME_OK);
    count = found.count;
    for (size_t i = 0; i < count; i++) {
        actor *own = &actors[i];
        memset(own, 0, sizeof *own);
        own->p = p[i];
        own->slot = boards[i].slot;
        own->random = (seed * SLOTS + (uint32_t)i) * 2654435761u;
        own->is_fine = (int)(seed & 1);
        own->out = open_memstream(&own->text, &own->size);
        if (!own->out)
            stop("no memory", "");
    }
}

/* Prints the rows of a board that are not zeros. */
static void print_memory(const vme_board *board, const uint8_t *bytes)
{
    static const uint8_t zeros[ROW];
    for (uint32_t at = 0; at < board->entry.size; at += ROW) {
        const size_t size = board->entry.size - at < ROW ? board->entry.size - at : ROW;
        if (memcmp(bytes + at, zeros, size) == 0)
            continue;
        printf("mem %u %08x ", board->slot, at);
        print_bytes(stdout, bytes + at, size);
        puts("");
    }
}

/* Closes the machine, and prints the replies and the memories. */
static void close_and_print(void)
{
    vme_processor p[SLOTS];
    uint64_t steps[SLOTS + 1];
    size_t size = 0;
    for (size_t i = 0; i < count; i++) {
        p[i] = actors[i].p;
        size += boards[i].entry.size;
        fclose(actors[i].out);
        fputs(actors[i].text, stdout);
        free(actors[i].text);
    }
    uint8_t *bytes = malloc(size);
    if (!bytes)
        stop("no memory", "");
    want("close", vme_machine_close(p, count, steps, SLOTS + 1, bytes, size), VME_OK);
    for (size_t i = 0, at = 0; i < count; at += boards[i].entry.size, i++)
        print_memory(&boards[i], bytes + at);
    puts("");
    free(bytes);
}

static FILE *opened(const char *path)
{
    FILE *in = fopen(path, "rb");
    if (!in)
        stop("no file", path);
    return in;
}

static void read_lines(FILE *in)
{
    char text[128];
    while (fgets(text, sizeof text, in)) {
        if (line_count > MOST_LINES || box_count > MOST_BOXES)
            stop("too many", text);
        line *next = &lines[line_count];
        vme_mailbox *box = &boxes[box_count];
        if (sscanf(text, "line %u %u %80[^\n]", &next->slot, &next->number, next->text) == 3)
            line_count++;
        else if (sscanf(text, "box %hhx %x %hu", &box->am, &box->addr, &box->slots) == 3)
            box_count++;
        else if (sscanf(text, "tries %lu", &tries) != 1)
            stop("no line", text);
    }
    fclose(in);
}

int main(int argc, char **argv)
{
    if (argc != 5)
        stop("usage", "scripts FILE LINES SEED RUNS");
    FILE *in = opened(argv[1]);
    const size_t size = fread(file, 1, sizeof file, in);
    fclose(in);
    read_lines(opened(argv[2]));
    const uint32_t seed = (uint32_t)strtoul(argv[3], NULL, 10), runs = (uint32_t)strtoul(argv[4], NULL, 10);
    for (uint32_t k = 0; k < runs; k++) {
        load(size, seed + k);
        run_threads();
        close_and_print();
    }
    return 0;
}
