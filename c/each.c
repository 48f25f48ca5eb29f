/* each.c: runs a program whose global variables each rank has for itself: each rank loads a copy of it.
 *
 * The program is a shared library with a `main`. It is appended to this one's own file, with a last line that has its
 * length (mpicc), or is the first word. */
#define _GNU_SOURCE
#include <dlfcn.h>
#include <fcntl.h>
#include <stdio.h>
#include <stdlib.h>
#include <string.h>
#include <sys/mman.h>
#include <sys/sendfile.h>
#include <sys/stat.h>
#include <unistd.h>

/* The last line: "nemesis ", the length in 20 digits, and a newline. */
enum { LINE = 29 };

/* A file, and where the program is in it. */
struct place {
    int file;
    off_t from, length;
};

static int fail(const char *what) {
    perror(what);
    return 70;
}

/* Whether a program is appended to this one's own file. */
static int is_appended(struct place *at) {
    char line[LINE + 1] = "";
    struct stat of;
    at->file = open("/proc/self/exe", O_RDONLY | O_CLOEXEC);
    if (at->file < 0 || fstat(at->file, &of)) return 0;
    if (pread(at->file, line, LINE, of.st_size - LINE) != LINE || strncmp(line, "nemesis ", 8)) return close(at->file);
    at->length = (off_t)strtoll(line + 8, NULL, 10);
    at->from = of.st_size - LINE - at->length;
    return 1;
}

static int find(struct place *at, const char *name) {
    struct stat of;
    at->file = open(name, O_RDONLY | O_CLOEXEC);
    if (at->file < 0 || fstat(at->file, &of)) return -1;
    at->from = 0;
    at->length = of.st_size;
    return 0;
}

/* Copies the program to a file in memory. It stays open: the loader and debuggers know it by its number. */
static int copy(const struct place *at) {
    off_t from = at->from, end = at->from + at->length;
    int out = memfd_create("nemesis", MFD_CLOEXEC);
    while (out >= 0 && from < end)
        if (sendfile(out, at->file, &from, (size_t)(end - from)) <= 0) return -1;
    return out;
}

/* Loads a copy, and runs its `main`. */
static int run(const struct place *at, int count, char **words) {
    char name[48];
    int file = copy(at);
    close(at->file);
    if (file < 0) return fail("each: no memory for the program");
    snprintf(name, sizeof name, "/proc/%d/fd/%d", (int)getpid(), file);
    void *program = dlopen(name, RTLD_NOW | RTLD_LOCAL);
    int (*its_main)(int, char **) = program ? (int (*)(int, char **))dlsym(program, "main") : NULL;
    if (its_main) return its_main(count, words);
    fprintf(stderr, "each: %s\n", dlerror());
    return 70;
}

int main(int count, char **words) {
    struct place at;
    if (is_appended(&at)) return run(&at, count, words);
    if (count < 2) return fprintf(stderr, "usage: each PROGRAM WORD ..\n"), 2;
    if (find(&at, words[1])) return fail(words[1]);
    return run(&at, count - 1, words + 1);
}
