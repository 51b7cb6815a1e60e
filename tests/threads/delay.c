// SPDX-License-Identifier: Apache-2.0
/* Delays threads where they meet, to whatever program it is loaded before (LD_PRELOAD).
 *
 * The toolchain's locks, channels and joins are its own: they try an atomic word first, and come to the C library only to yield, to
 * sleep on a word or to wake who sleeps on it (futex). So threads are delayed before and behind each of these, as they begin and end,
 * and at each allocation and release, since messages and what a lock guards are made and let go of there.
 *
 * DELAY is `SEED MOST`: a thread's delays are drawn from SEED and the thread's number, each below MOST microseconds, and three in four
 * are none. How often threads were delayed at each kind of place is written to the file descriptor that COUNT_TO names, when the
 * program ends: waits and wakes, yields, beginnings and ends of threads, and memory. */
#define _GNU_SOURCE
#include <dlfcn.h>
#include <linux/futex.h>
#include <pthread.h>
#include <stdarg.h>
#include <stdatomic.h>
#include <stdint.h>
#include <stdio.h>
#include <stdlib.h>
#include <sys/syscall.h>
#include <time.h>
#include <unistd.h>

enum { FUTEX, YIELD, THREAD, MEMORY, KINDS };

static atomic_ulong delays[KINDS];
static atomic_uint threads;
static uint64_t seed, most;
static __thread uint64_t state __attribute__((tls_model("initial-exec")));

extern void *__libc_malloc(size_t), *__libc_realloc(void *, size_t), *__libc_memalign(size_t, size_t);
extern void __libc_free(void *);

__attribute__((constructor)) static void begin(void) {
    const char *how = getenv("DELAY");
    if (how) {
        char *behind;
        seed = strtoull(how, &behind, 10);
        most = strtoull(behind, NULL, 10);
    }
}

/* A number of this thread's own row (splitmix64). */
static uint64_t draw(void) {
    if (!state) state = (seed + 1) * 0x9e3779b97f4a7c15u + (atomic_fetch_add(&threads, 1) + 1) * 0xbf58476d1ce4e5b9u;
    uint64_t z = state += 0x9e3779b97f4a7c15u;
    z = (z ^ z >> 30) * 0xbf58476d1ce4e5b9u;
    z = (z ^ z >> 27) * 0x94d049bb133111ebu;
    return z ^ z >> 31;
}

static long bare(long number, long a, long b, long c, long d, long e, long f) {
    static long (*real)(long, ...);
    if (!real) real = (long (*)(long, ...))dlsym(RTLD_NEXT, "syscall");
    return real(number, a, b, c, d, e, f);
}

static void delay(int kind) {
    if (!most) return;
    uint64_t drawn = draw();
    if (drawn % 4) return;
    atomic_fetch_add(&delays[kind], 1);
    uint64_t micros = drawn / 4 % most;
    struct timespec time = {micros / 1000000, micros % 1000000 * 1000};
    /* not by nanosleep of the C library, so that errno stays */
    long r;
    __asm__ volatile("syscall" : "=a"(r) : "a"(SYS_nanosleep), "D"(&time), "S"(0) : "rcx", "r11", "memory");
}

static void end(void) {
    const char *to = getenv("COUNT_TO");
    char line[128];
    int size = snprintf(line, sizeof line, "%lu %lu %lu %lu\n", delays[FUTEX], delays[YIELD], delays[THREAD], delays[MEMORY]);
    if (to && write(atoi(to), line, size) < 0) abort();
}

void _exit(int status) {
    end();
    for (;;) bare(SYS_exit_group, status, 0, 0, 0, 0, 0);
}

long syscall(long number, ...) {
    long of[6];
    va_list all;
    va_start(all, number);
    for (int i = 0; i < 6; i++) of[i] = va_arg(all, long);
    va_end(all);
    if (number == SYS_futex) delay(FUTEX);
    long result = bare(number, of[0], of[1], of[2], of[3], of[4], of[5]);
    if (number == SYS_futex) delay(FUTEX);
    return result;
}

int sched_yield(void) {
    delay(YIELD);
    return (int)bare(SYS_sched_yield, 0, 0, 0, 0, 0, 0);
}

struct start {
    void *(*run)(void *);
    void *with;
};

static void *run_late(void *it) {
    struct start start = *(struct start *)it;
    __libc_free(it);
    delay(THREAD);
    void *result = start.run(start.with);
    delay(THREAD);
    return result;
}

int pthread_create(pthread_t *t, const pthread_attr_t *a, void *(*f)(void *), void *x) {
    static int (*real)(pthread_t *, const pthread_attr_t *, void *(*)(void *), void *);
    if (!real) real = (int (*)(pthread_t *, const pthread_attr_t *, void *(*)(void *), void *))dlsym(RTLD_NEXT, "pthread_create");
    struct start *start = __libc_malloc(sizeof *start);
    *start = (struct start){f, x};
    delay(THREAD);
    int refused = real(t, a, run_late, start);
    if (refused) __libc_free(start);
    delay(THREAD);
    return refused;
}

void *malloc(size_t n) { return delay(MEMORY), __libc_malloc(n); }
void *realloc(void *p, size_t n) { return delay(MEMORY), __libc_realloc(p, n); }
void *memalign(size_t a, size_t n) { return delay(MEMORY), __libc_memalign(a, n); }
void *aligned_alloc(size_t a, size_t n) { return memalign(a, n); }
void free(void *p) { delay(MEMORY), __libc_free(p); }
