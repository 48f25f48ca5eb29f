// Loaded before the C library (LD_PRELOAD), to refuse what a program asks it for. Of the requests for memory, the one
// whose number is in REFUSE_MEMORY is refused, and so is each later one where REFUSE_ON is set; so it is with threads
// and REFUSE_THREAD. At the first refusal one byte goes to descriptor 9. Numbers begin at 1.
#define _GNU_SOURCE
#include <dlfcn.h>
#include <errno.h>
#include <pthread.h>
#include <stdatomic.h>
#include <stddef.h>
#include <stdlib.h>
#include <unistd.h>

extern void *__libc_malloc(size_t size);
extern void *__libc_realloc(void *old, size_t size);

struct refused {
    unsigned long from;
    atomic_ulong asked;
};

static struct refused memory, threads;
static int goes_on;
static int (*create)(pthread_t *, const pthread_attr_t *, void *(*)(void *), void *);

static unsigned long number_in(const char *name) {
    const char *text = getenv(name);
    return text ? strtoul(text, NULL, 10) : 0;
}

__attribute__((constructor)) static void begin(void) {
    create = dlsym(RTLD_NEXT, "pthread_create");
    goes_on = getenv("REFUSE_ON") != NULL;
    threads.from = number_in("REFUSE_THREAD");
    atomic_store(&memory.asked, 0);
    memory.from = number_in("REFUSE_MEMORY");
}

static int is_refused(struct refused *kind) {
    unsigned long number = atomic_fetch_add(&kind->asked, 1) + 1;
    if (kind->from == 0)
        return 0;
    if (number == kind->from)
        return write(9, "!", 1) == 1;
    return goes_on && number > kind->from;
}

void *malloc(size_t size) {
    if (is_refused(&memory)) {
        errno = ENOMEM;
        return NULL;
    }
    return __libc_malloc(size);
}

void *realloc(void *old, size_t size) {
    if (is_refused(&memory)) {
        errno = ENOMEM;
        return NULL;
    }
    return __libc_realloc(old, size);
}

int pthread_create(pthread_t *thread, const pthread_attr_t *how, void *(*start)(void *), void *with) {
    return is_refused(&threads) ? EAGAIN : create(thread, how, start, with);
}
