// SPDX-License-Identifier: Apache-2.0
/* Refuses memory or a thread once, to whatever program it is loaded before (LD_PRELOAD).
 *
 * REFUSE is `memory N` or `thread N`: the Nth call that asks for memory, or for a thread, is told that there is none; 0 refuses
 * none. How many calls there were is written to the file descriptor that COUNT_TO names, when the program ends. */
#define _GNU_SOURCE
#include <dlfcn.h>
#include <errno.h>
#include <pthread.h>
#include <stdatomic.h>
#include <stdio.h>
#include <stdlib.h>
#include <string.h>
#include <sys/syscall.h>
#include <unistd.h>

static atomic_ulong asked[2];
static unsigned long refused[2];

/* The C library's own, by the names that stay whoever stands before it. */
extern void *__libc_malloc(size_t), *__libc_calloc(size_t, size_t), *__libc_realloc(void *, size_t), *__libc_memalign(size_t, size_t);

__attribute__((constructor)) static void begin(void) {
    const char *what = getenv("REFUSE");
    if (what) refused[strncmp(what, "thread", 6) == 0] = strtoul(what + 7, NULL, 10);
    atomic_store(&asked[0], 0);
    atomic_store(&asked[1], 0);
}

static void end(void) {
    const char *to = getenv("COUNT_TO");
    char line[64];
    int size = snprintf(line, sizeof line, "%lu %lu\n", atomic_load(&asked[0]), atomic_load(&asked[1]));
    if (to && write(atoi(to), line, size) < 0) abort();
}

/* The program ends by _exit, behind which no destructor runs. */
void _exit(int status) {
    end();
    for (;;) syscall(SYS_exit_group, status);
}

static int is_refused(int kind) { return atomic_fetch_add(&asked[kind], 1) + 1 == refused[kind]; }

void *malloc(size_t n) { return is_refused(0) ? (errno = ENOMEM, NULL) : __libc_malloc(n); }
void *calloc(size_t n, size_t m) { return is_refused(0) ? (errno = ENOMEM, NULL) : __libc_calloc(n, m); }
void *realloc(void *p, size_t n) { return is_refused(0) ? (errno = ENOMEM, NULL) : __libc_realloc(p, n); }
void *memalign(size_t a, size_t n) { return is_refused(0) ? (errno = ENOMEM, NULL) : __libc_memalign(a, n); }
void *aligned_alloc(size_t a, size_t n) { return memalign(a, n); }
int posix_memalign(void **p, size_t a, size_t n) { return (*p = memalign(a, n)) ? 0 : ENOMEM; }

int pthread_create(pthread_t *t, const pthread_attr_t *a, void *(*f)(void *), void *x) {
    static int (*real)(pthread_t *, const pthread_attr_t *, void *(*)(void *), void *);
    if (!real) real = (int (*)(pthread_t *, const pthread_attr_t *, void *(*)(void *), void *))dlsym(RTLD_NEXT, "pthread_create");
    return is_refused(1) ? EAGAIN : real(t, a, f, x);
}
