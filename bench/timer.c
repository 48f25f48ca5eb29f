/* Loaded before the C library (LD_PRELOAD): how long a run of two ranks takes. At the end of the program the file
   named in TIMED gets nanoseconds, and how many rounds were made in one crew; but not where no thread was asked for.
   The run begins where the first one is asked for. It ends where the last one was waited for, or at the last futex
   call, if that is later: each round ends with one. A round of two crews asks for one thread, and no two rounds in one
   crew follow each other. So there is one before each thread but the first, and one more where the last call is later
   than the last thread. */
#define _GNU_SOURCE
#include <dlfcn.h>
#include <pthread.h>
#include <stdarg.h>
#include <stdatomic.h>
#include <stdio.h>
#include <stdlib.h>
#include <sys/syscall.h>
#include <time.h>

static int (*create)(pthread_t *, const pthread_attr_t *, void *(*)(void *), void *);
static int (*join)(pthread_t, void **);
static long (*call)(long, ...);
static void (*leave)(int);
static atomic_int threads;
static long long first, joined;
static atomic_llong called;

static long long now(void) {
    struct timespec it;
    clock_gettime(CLOCK_MONOTONIC, &it);
    return it.tv_sec * 1000000000ll + it.tv_nsec;
}

__attribute__((constructor)) static void begin(void) {
    create = dlsym(RTLD_NEXT, "pthread_create");
    join = dlsym(RTLD_NEXT, "pthread_join");
    call = dlsym(RTLD_NEXT, "syscall");
    leave = dlsym(RTLD_NEXT, "_exit");
}

int pthread_create(pthread_t *thread, const pthread_attr_t *how, void *(*start)(void *), void *with) {
    if (atomic_fetch_add(&threads, 1) == 0) first = now();
    return create(thread, how, start, with);
}

int pthread_join(pthread_t thread, void **result) {
    int got = join(thread, result);
    joined = now();
    return got;
}

long syscall(long number, ...) {
    long it[6];
    va_list more;
    va_start(more, number);
    for (int k = 0; k < 6; k++) it[k] = va_arg(more, long);
    va_end(more);
    long got = call(number, it[0], it[1], it[2], it[3], it[4], it[5]);
    if (number == SYS_futex) atomic_store(&called, now());
    return got;
}

void _exit(int status) {
    const char *name = getenv("TIMED");
    FILE *file = name && threads ? fopen(name, "w") : NULL;
    int alone = called > joined;
    if (file) {
        fprintf(file, "%lld %d\n", (alone ? called : joined) - first, threads - 1 + alone);
        fclose(file);
    }
    leave(status);
    abort();
}
