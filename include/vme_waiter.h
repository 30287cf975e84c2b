/* vme_waiter.h: how a thread waits for a machine, for the calls of vme_wait.h.
 *
 * vme_releases. One for each machine, VME_RELEASES_INIT at first, which on Linux is zeros. All threads that
 *               use the machine share it; for processes it lies in the mapping that they share.
 * vme_waiter.   How a thread waits. It is read only, so threads may share one. {0} is lawful: without releases
 *               a waiter sleeps its millisecond.
 * limit.        The number of sleeps in a row, of 1 ms each, in which nothing changed, after which a call gives
 *               up; 0 for no limit. It then returns what it waited for: VME_BUSY if a thread or a process
 *               has stopped or died inside the object, and VME_NOT_GRANTED if one has the bus and does
 *               not release it. The transfer still goes on: vme_finish continues it.
 * pause.        Called in place of each look, yield and sleep, with the pointer `with`, if it is not null: a simulator
 *               runs its other work there. limit then is the number of pauses.
 *
 * Thread sanitizer: the archive is not instrumented. A program that is, gets each call of this file as an
 * acquire and a release of the waiter's releases. So it reports no false race, but it misses a race of
 * threads that happened to call the machine in between.
 */
#ifndef VME_WAITER_H
#define VME_WAITER_H

#include "vme_machine.h"

#include <sched.h>
#include <string.h>
#include <time.h>

#if defined(__linux__)
#include <errno.h>
#include <sys/syscall.h>
#include <unistd.h>
#ifndef __cplusplus
long syscall(long number, ...); /* not declared in a strict C11 program */
#endif
#else
#include <pthread.h>
#endif

#if defined(__SANITIZE_THREAD__)
#define VME_HAS_TSAN 1
#elif defined(__has_feature)
#if __has_feature(thread_sanitizer)
#define VME_HAS_TSAN 1
#endif
#endif

#ifdef __cplusplus
extern "C" {
#endif

#ifdef VME_HAS_TSAN
void __tsan_acquire(void *address);
void __tsan_release(void *address);
#endif

/* ---- What threads wait on ---- */

/* A count on which threads sleep until it changes. */
typedef struct vme_count {
    uint32_t value;
    uint32_t sleepers;
#if !defined(__linux__)
    pthread_mutex_t mutex;
    pthread_cond_t changed;
#endif
} vme_count;

#if defined(__linux__)
#define VME_COUNT_INIT { 0, 0 }
#else
#define VME_COUNT_INIT { 0, 0, PTHREAD_MUTEX_INITIALIZER, PTHREAD_COND_INITIALIZER }
#endif
#define VME_RELEASES_INIT { VME_COUNT_INIT, VME_COUNT_INIT, VME_COUNT_INIT }

/* What a machine's threads wait on. */
typedef struct vme_releases {
    vme_count bus;   /* transfers that ended */
    vme_count data;  /* transfers that ended and wrote */
    vme_count words; /* words that were moved into a mailbox or out of it */
} vme_releases;

/* How a thread waits; see above. */
typedef struct vme_waiter {
    vme_releases *releases;
    uint32_t limit;
    void (*pause)(void *with);
    void *with;
} vme_waiter;

/* ---- Sleeping, for the calls below ---- */

enum {
    VME_SPINS = 10,
    VME_YIELDS = 200,
    VME_LOOKS = 256,         /* at a count, in a round */
    VME_ROUNDS = 32,         /* before a sleep on it */
    VME_MOST_SLEEP = 1000000 /* ns */
};

/* Lets the other thread of a core run, for a moment. */
static inline void vme_relax(void)
{
#if defined(__x86_64__) || defined(__i386__)
    __builtin_ia32_pause();
#elif defined(__aarch64__)
    __asm__ volatile("yield");
#endif
}

/* The value of a count, or 0 without one. */
static inline uint32_t vme_count_value(const vme_count *count)
{
    return count ? __atomic_load_n(&count->value, __ATOMIC_SEQ_CST) : 0;
}

/* Increments a count, and wakes those that sleep on it. */
static inline void vme_count_increment(vme_count *count)
{
    if (!count)
        return;
    __atomic_fetch_add(&count->value, 1, __ATOMIC_SEQ_CST);
    if (__atomic_load_n(&count->sleepers, __ATOMIC_SEQ_CST) == 0)
        return;
#if defined(__linux__)
    syscall(SYS_futex, &count->value, 1 /* FUTEX_WAKE */, 0x7fffffff, NULL, NULL, 0);
#else
    pthread_mutex_lock(&count->mutex);
    pthread_cond_broadcast(&count->changed);
    pthread_mutex_unlock(&count->mutex);
#endif
}

/* Sleeps for 1 ms, or until a count has another value than this. Returns whether it slept all the time. */
static inline int vme_count_sleep(vme_count *count, uint32_t value)
{
#if defined(__linux__)
    const struct timespec most = { 0, VME_MOST_SLEEP };
    const int kept = errno;
    __atomic_fetch_add(&count->sleepers, 1, __ATOMIC_SEQ_CST);
    const long slept = syscall(SYS_futex, &count->value, 0 /* FUTEX_WAIT */, value, &most, NULL, 0);
    const int is_whole = slept == -1 && errno == ETIMEDOUT;
    __atomic_fetch_sub(&count->sleepers, 1, __ATOMIC_SEQ_CST);
    errno = kept;
    return is_whole;
#else
    struct timespec end;
    int result = 0;
    timespec_get(&end, TIME_UTC);
    end.tv_sec += (end.tv_nsec + VME_MOST_SLEEP) / 1000000000;
    end.tv_nsec = (end.tv_nsec + VME_MOST_SLEEP) % 1000000000;
    pthread_mutex_lock(&count->mutex);
    __atomic_fetch_add(&count->sleepers, 1, __ATOMIC_SEQ_CST);
    while (vme_count_value(count) == value && result == 0)
        result = pthread_cond_timedwait(&count->changed, &count->mutex, &end);
    __atomic_fetch_sub(&count->sleepers, 1, __ATOMIC_SEQ_CST);
    pthread_mutex_unlock(&count->mutex);
    return result != 0;
#endif
}

/* Sleeps for 1 ms. */
static inline int vme_sleep(void)
{
    vme_count alone = VME_COUNT_INIT;
    return vme_count_sleep(&alone, 0);
}

/* Looks at a count until it has another value than this, and otherwise yields the thread in the end. */
static inline void vme_count_look(const vme_count *count, uint32_t value)
{
    for (int i = 0; i < VME_LOOKS; i++) {
        if (vme_count_value(count) != value)
            return;
        vme_relax();
    }
    sched_yield();
}

/* How often a call has tried, and how many sleeps in a row changed nothing. */
typedef struct vme_tries {
    uint32_t tries;
    uint32_t slept;
} vme_tries;

/* Waits once before the next try: for a change of count, which had this value before the try, or for a moment if count
 * is null. A wake-up takes longer than the transfers of others, so it looks for a while before it sleeps. Returns 0 if
 * the waiter's limit is reached. */
static inline int vme_wait(const vme_waiter *waiter, vme_count *count, uint32_t value, vme_tries *tries)
{
    if (waiter->limit && tries->slept >= waiter->limit)
        return 0;
    tries->tries++;
    if (waiter->pause) {
        waiter->pause(waiter->with);
        tries->slept++;
    } else if (count && tries->tries <= VME_ROUNDS) {
        vme_count_look(count, value);
    } else if (!count && tries->tries <= VME_SPINS) {
        vme_relax();
    } else if (!count && tries->tries <= VME_SPINS + VME_YIELDS) {
        sched_yield();
    } else {
        const int is_whole = count ? vme_count_sleep(count, value) : vme_sleep();
        tries->slept = is_whole ? tries->slept + 1 : 0;
    }
    return 1;
}

static inline vme_count *vme_bus_of(const vme_waiter *waiter)
{
    return waiter->releases ? &waiter->releases->bus : NULL;
}

static inline vme_count *vme_data_of(const vme_waiter *waiter)
{
    return waiter->releases ? &waiter->releases->data : NULL;
}

static inline vme_count *vme_words_of(const vme_waiter *waiter)
{
    return waiter->releases ? &waiter->releases->words : NULL;
}

/* The order of the machine's events, as thread sanitizer sees it. */
static inline void vme_before_event(const vme_waiter *waiter)
{
#ifdef VME_HAS_TSAN
    __tsan_release(waiter->releases ? (void *)waiter->releases : (void *)(uintptr_t)waiter);
#else
    (void)waiter;
#endif
}

static inline void vme_after_event(const vme_waiter *waiter)
{
#ifdef VME_HAS_TSAN
    __tsan_acquire(waiter->releases ? (void *)waiter->releases : (void *)(uintptr_t)waiter);
#else
    (void)waiter;
#endif
}

#ifdef __cplusplus
}
#endif

#endif
