/* What the programs call of C, for a WebAssembly module: heap, words, files and the texts of errors, over ten calls of WASI
   preview 1. A pointer has 64 bits here and an address below 4 GiB; WASI takes its lower 32 bits. */
typedef unsigned char u8;
typedef unsigned int u32;
typedef unsigned long u64;
typedef long i64;

#define WASI(name, ...) \
    __attribute__((import_module("wasi_snapshot_preview1"), import_name(#name))) u32 wasi_##name(__VA_ARGS__)
WASI(args_sizes_get, u32 count, u32 bytes);
WASI(args_get, u32 words, u32 bytes);
WASI(fd_close, u32 fd);
WASI(fd_prestat_get, u32 fd, u32 found);
WASI(fd_prestat_dir_name, u32 fd, u32 name, u32 length);
WASI(fd_read, u32 fd, u32 parts, u32 count, u32 done);
WASI(fd_seek, u32 fd, i64 offset, u32 from, u32 place);
WASI(fd_write, u32 fd, u32 parts, u32 count, u32 done);
WASI(path_open, u32 dir, u32 how, u32 path, u32 length, u32 create, i64 rights, i64 inherited, u32 flags, u32 fd);
__attribute__((import_module("wasi_snapshot_preview1"), import_name("proc_exit"), noreturn)) void wasi_proc_exit(u32 status);

#define AT(pointer) ((u32)(u64)(pointer))

/* ---- The heap. A block has one of the sizes 16, 32, 48, 64, 96, 128, 192, .., after 16 bytes with the number of its size.
   Freed blocks are kept by size. The last block grows in place. No block ends above 4 GiB. */
enum { SIZES = 60, HEAD = 16, PAGE = 65536 };
struct block { u64 size; struct block *next; };
struct tried { u64 ok; void *p; };
extern u8 __heap_base;
static struct block *freed[SIZES];
static u64 top;

static u64 bytes_of(u64 size) { return size == 0 ? 16 : size & 1 ? 32ul << (size >> 1) : 48ul << ((size >> 1) - 1); }

/* The least size of at least n bytes. */
static u64 size_for(u64 n)
{
    u64 size = n > 256 ? 2 * (63 - (u64)__builtin_clzl(n)) - 9 : 0;
    while (bytes_of(size) < n) size++;
    return size;
}

/* Whether the memory reaches to `end`, once it is grown if need be. */
static int reach(u64 end)
{
    u64 have = (u64)__builtin_wasm_memory_size(0) * PAGE;
    if (end >> 32) return 0;
    if (end <= have) return 1;
    return (u32)__builtin_wasm_memory_grow(0, (end - have + PAGE - 1) / PAGE) != ~0u;
}

static void *allocated(u64 n)
{
    struct block *it;
    u64 size, end;

    if (n >> 31) return 0;
    size = size_for(n);
    it = freed[size];
    if (it) {
        freed[size] = it->next;
        return (u8 *)it + HEAD;
    }
    if (!top) top = ((u64)&__heap_base + 15) & ~15ul;
    end = top + HEAD + bytes_of(size);
    if (!reach(end)) return 0;
    it = (struct block *)top;
    top = end;
    it->size = size;
    return (u8 *)it + HEAD;
}

void rattle_dealloc(void *p)
{
    struct block *it = (struct block *)((u8 *)p - HEAD);
    it->next = freed[it->size];
    freed[it->size] = it;
}

/* The kit's result of an allocation. Its pointer is never null. */
static struct tried result_of(void *p) { return (struct tried){p != 0, p ? p : (void *)16}; }

struct tried rattle_alloc(u64 n, u64 align) { return (void)align, result_of(allocated(n)); }

struct tried rattle_realloc(void *p, u64 kept, u64 n, u64 align)
{
    struct block *it = (struct block *)((u8 *)p - HEAD);
    u64 have = bytes_of(it->size), size;
    void *to;

    (void)align;
    if (n <= have) return result_of(p);
    if (n >> 31) return result_of(0);
    if ((u64)p + have == top) {
        size = size_for(n);
        if (!reach((u64)p + bytes_of(size))) return result_of(0);
        it->size = size;
        top = (u64)p + bytes_of(size);
        return result_of(p);
    }
    to = allocated(n);
    if (!to) return result_of(0);
    __builtin_memcpy(to, p, kept);
    rattle_dealloc(p);
    return result_of(to);
}

/* ---- Errors: number and text, as Linux and glibc have them, by the number that WASI gives. The last is for all others. */
static const struct { u8 wasi, linux; const char *text; } ERRORS[] = {
    {44, 2, "No such file or directory"}, {2, 13, "Permission denied"}, {76, 13, "Permission denied"},
    {63, 1, "Operation not permitted"}, {31, 21, "Is a directory"}, {54, 20, "Not a directory"},
    {8, 9, "Bad file descriptor"}, {27, 4, "Interrupted system call"}, {28, 22, "Invalid argument"},
    {32, 40, "Too many levels of symbolic links"}, {33, 24, "Too many open files"}, {37, 36, "File name too long"},
    {48, 12, "Cannot allocate memory"}, {51, 28, "No space left on device"}, {64, 32, "Broken pipe"},
    {70, 29, "Illegal seek"}, {29, 5, "Input/output error"},
};
enum { KNOWN = sizeof ERRORS / sizeof *ERRORS, WASI_NOENT = 44, ERANGE = 34 };
static u32 error;

static i64 failed(u32 wasi)
{
    u32 i = 0;
    while (i < KNOWN - 1 && ERRORS[i].wasi != wasi) i++;
    error = ERRORS[i].linux;
    return -1;
}

int rattle_errno(void) { return (int)error; }
void rattle_set_errno(int number) { error = (u32)number; }

int __xpg_strerror_r(int number, char *to, u64 capacity)
{
    const char *text = "Unknown error";

    for (u32 i = 0; i < KNOWN; i++)
        if (ERRORS[i].linux == number) text = ERRORS[i].text;
    for (u64 i = 0; i < capacity; i++)
        if (!(to[i] = text[i])) return 0;
    return ERANGE;
}

/* ---- The words of the command line. */
static u32 words, *starts;

u64 rattle_arg_count(void) { return words; }

/* Copies a word and returns its length; -1 if there is none, -2 if it is longer than `capacity`. */
i64 rattle_arg(u64 i, u8 *to, u64 capacity)
{
    const u8 *from;
    u64 n;

    if (i >= words) return -1;
    from = (const u8 *)(u64)starts[i];
    for (n = 0; from[n]; n++) {
        if (n == capacity) return -2;
        to[n] = from[n];
    }
    return (i64)n;
}

/* ---- Files. */
struct part { u32 at, length; };
enum { MOST = 1 << 30 };

i64 read(int fd, void *to, u64 n)
{
    struct part part = {AT(to), n > MOST ? MOST : (u32)n};
    u32 done, why = wasi_fd_read((u32)fd, AT(&part), 1, AT(&done));
    return why ? failed(why) : done;
}

i64 write(int fd, const void *from, u64 n)
{
    struct part part = {AT(from), n > MOST ? MOST : (u32)n};
    u32 done, why = wasi_fd_write((u32)fd, AT(&part), 1, AT(&done));
    return why ? failed(why) : done;
}

/* There are no signals, and no variable of the environment. */
i64 __sysv_signal(int number, i64 handler) { return (void)number, (void)handler, 0; }
i64 rattle_env_at(u64 i, u8 *to, u64 capacity) { return (void)i, (void)to, (void)capacity, -1; }
i64 rattle_env(const char *name, u8 *to, u64 capacity) { return (void)name, (void)to, (void)capacity, -1; }
i64 rattle_write_no_sigpipe(int fd, const void *from, u64 n) { return write(fd, from, n); }

int close(int fd)
{
    u32 why = wasi_fd_close((u32)fd);
    return why ? (int)failed(why) : 0;
}

i64 lseek(int fd, i64 offset, int from)
{
    i64 place;
    u32 why = wasi_fd_seek((u32)fd, offset, (u32)from, AT(&place));
    return why ? failed(why) : place;
}

/* How many bytes of a path the name of an open directory covers, or -1: `/` and its folders cover the paths below them, and
   `.` or an empty name covers each path that does not begin with `/`. */
static i64 covered(const char *name, u32 n, const char *path)
{
    u32 i;

    if (n == 0 || (n == 1 && name[0] == '.')) return path[0] == '/' ? -1 : 0;
    while (n > 0 && name[n - 1] == '/') n--;
    for (i = 0; i < n; i++)
        if (path[i] != name[i]) return -1;
    return path[n] == '/' || !path[n] ? (i64)n : -1;
}

/* Opens a file for reading, below the open directory that covers most of its path. */
int open(const char *path, int flags, ...)
{
    enum { FOLLOW = 1, READ_SEEK_STAT = 2 | 4 | 1 << 21 };
    static char name[4096];
    struct { u32 kind, length; } found;
    u32 dir = 0, fd, length = 0, why;
    i64 most = -1, n;

    (void)flags;
    for (fd = 3; !wasi_fd_prestat_get(fd, AT(&found)); fd++) {
        if (found.length > sizeof name || wasi_fd_prestat_dir_name(fd, AT(name), found.length)) continue;
        n = covered(name, found.length, path);
        if (n > most) most = n, dir = fd;
    }
    if (most < 0) return (int)failed(WASI_NOENT);
    path += most;
    while (*path == '/') path++;
    while (path[length]) length++;
    why = wasi_path_open(dir, FOLLOW, AT(path), length, 0, READ_SEEK_STAT, 0, 0, AT(&fd));
    return why ? (int)failed(why) : (int)fd;
}

/* ---- The begin. `main` first asks for the features of an x86-64 processor, for which the kit builds. All are there. */
const u32 *__x86_get_cpuid_feature_leaf(u32 leaf)
{
    static const u32 all[8] = {~0u, ~0u, ~0u, ~0u, ~0u, ~0u, ~0u, ~0u};
    return (void)leaf, all;
}

i64 __write(int fd, const void *from, u64 n) { return write(fd, from, n); }

int main(void);

void _start(void)
{
    enum { NO_WORDS = 71 };
    u32 bytes;
    u8 *text;

    if (!wasi_args_sizes_get(AT(&words), AT(&bytes)) && words) {
        starts = allocated(words * 4ul + 4);
        text = allocated(bytes + 1ul);
        if (!starts || !text || wasi_args_get(AT(starts), AT(text))) wasi_proc_exit(NO_WORDS);
    }
    wasi_proc_exit((u32)main());
}
