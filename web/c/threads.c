/* WASI preview 1 has no threads: the start of one fails, as where the system has no room for another. So `vme run` reports
   `thread`, and no other function here is ever called with a thread. */
typedef unsigned long u64;
typedef long i64;
struct tried { u64 ok; void *p; };
enum { EAGAIN = 11 };

struct tried rattle_alloc(u64 n, u64 align);
void rattle_dealloc(void *p);
__attribute__((import_module("wasi_snapshot_preview1"), import_name("proc_exit"), noreturn)) void wasi_proc_exit(unsigned status);

void *malloc(u64 n)
{
    struct tried it = rattle_alloc(n, 16);
    return it.ok ? it.p : 0;
}

void free(void *p)
{
    if (p) rattle_dealloc(p);
}

int pthread_create(void *thread, void *how, void *what, void *with)
{
    return (void)thread, (void)how, (void)what, (void)with, EAGAIN;
}

int pthread_attr_init(void *how) { return (void)how, 0; }
int pthread_attr_setguardsize(void *how, u64 n) { return (void)how, (void)n, 0; }
int pthread_attr_setstacksize(void *how, u64 n) { return (void)how, (void)n, 0; }
int pthread_attr_destroy(void *how) { return (void)how, 0; }
u64 pthread_self(void) { return 1; }
int pthread_detach(u64 thread) { return (void)thread, 0; }
int pthread_join(u64 thread, void *what) { return (void)thread, (void)what, 0; }
int sched_yield(void) { return 0; }

/* A futex: nobody waits, and nobody is woken. */
i64 syscall(i64 number, void *a, i64 b, i64 c, void *d, ...)
{
    return (void)number, (void)a, (void)b, (void)c, (void)d, -1;
}

void _exit(int status) { wasi_proc_exit((unsigned)status); }
void abort(void) { __builtin_trap(); }
