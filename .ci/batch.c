// Loaded before the C library (LD_PRELOAD, with refuse.c), to run a program again and again without loading it each time.
// On descriptor 3 come runs, one after another; for each one the process forks before the program's main, and its answer
// goes to descriptor 4. `.ci/soak` is on the other side.
//
//     a run       six numbers of 4 bytes: what is refused (REFUSE_MEMORY, REFUSE_THREAD, REFUSE_ON), how many processors
//                 it may use, the lengths of the words and of the input; then the words, each with a 0 behind it, and the
//                 input. The program has as many words as it was loaded with
//     an answer   four numbers: the status as wait gives it, whether anything was refused, the lengths of the output and
//                 of standard error; then these
//
// A run ends by a signal after 60 seconds.
#define _GNU_SOURCE
#include <fcntl.h>
#include <sched.h>
#include <stdint.h>
#include <stdio.h>
#include <stdlib.h>
#include <string.h>
#include <sys/mman.h>
#include <sys/wait.h>
#include <unistd.h>

enum { RUNS = 3, ANSWERS = 4, REFUSED = 9, SECONDS = 60 };

static void must(int holds) {
    if (!holds)
        _exit(90);
}

// All of these bytes, or nothing where there are no more runs.
static int get(void *bytes, size_t length) {
    for (size_t got = 0; got < length;) {
        ssize_t more = read(RUNS, (char *)bytes + got, length - got);
        if (more <= 0)
            return 0;
        got += more;
    }
    return 1;
}

static void put(int to, const char *bytes, size_t length) {
    while (length > 0) {
        ssize_t more = write(to, bytes, length);
        must(more > 0);
        bytes += more, length -= more;
    }
}

static void refuse(const char *name, uint32_t number) {
    char text[16];
    snprintf(text, sizeof text, "%u", number);
    if (number)
        setenv(name, text, 1);
}

// Leaves so many of the processors, from one on that differs from run to run.
static void leave(uint32_t many) {
    cpu_set_t had, kept;
    CPU_ZERO(&kept);
    must(sched_getaffinity(0, sizeof had, &had) == 0);
    int count = CPU_COUNT(&had), first = getpid() % count, place = 0;
    for (int at = 0; at < CPU_SETSIZE; at++)
        if (CPU_ISSET(at, &had) && (uint32_t)(place++ + count - first) % count < many)
            CPU_SET(at, &kept);
    must(sched_setaffinity(0, sizeof kept, &kept) == 0);
}

// The rest of the constructors and main, in the child.
static void become(const uint32_t *head, char *words, char **argv, const int *files) {
    for (int at = 1; argv[at]; at++, words += strlen(words) + 1)
        argv[at] = words;
    refuse("REFUSE_MEMORY", head[0]);
    refuse("REFUSE_THREAD", head[1]);
    refuse("REFUSE_ON", head[2]);
    leave(head[3]);
    for (int at = 0; at < 3; at++)
        must(lseek(files[at], 0, SEEK_SET) == 0 && dup2(files[at], at) == at);
    must(dup2(files[3], REFUSED) == REFUSED);
    close(RUNS), close(ANSWERS);
    alarm(SECONDS);
}

// The lengths of what is in these files.
static uint32_t length_of(int file) { return (uint32_t)lseek(file, 0, SEEK_END); }

static void send(int file, uint32_t length) {
    void *bytes = length ? mmap(NULL, length, PROT_READ, MAP_SHARED, file, 0) : NULL;
    must(bytes != MAP_FAILED);
    put(ANSWERS, bytes, length);
    if (length)
        munmap(bytes, length);
}

__attribute__((constructor(101))) static void serve(int argc, char **argv) {
    (void)argc;
    int files[4];
    uint32_t head[6], said[4];
    size_t room = 0;
    char *text = NULL;
    for (int at = 0; at < 4; at++) {
        int file = memfd_create("batch", 0);
        must((files[at] = fcntl(file, F_DUPFD_CLOEXEC, 10 + at)) >= 0);
        close(file);
    }
    while (get(head, sizeof head)) {
        size_t length = (size_t)head[4] + head[5];
        if (length > room)
            must((text = realloc(text, room = 2 * length)) != NULL);
        must(get(text, length));
        for (int at = 0; at < 4; at++)
            must(ftruncate(files[at], 0) == 0 && lseek(files[at], 0, SEEK_SET) == 0);
        put(files[0], text + head[4], head[5]);
        pid_t child = fork();
        must(child >= 0);
        if (child == 0)
            return become(head, text, argv, files);
        int status = 0;
        must(waitpid(child, &status, 0) == child);
        said[0] = (uint32_t)status;
        said[1] = length_of(files[3]) > 0;
        said[2] = length_of(files[1]), said[3] = length_of(files[2]);
        put(ANSWERS, (char *)said, sizeof said);
        send(files[1], said[2]);
        send(files[2], said[3]);
    }
    _exit(0);
}
