/* ranks.c: a thread for each rank, which runs the program's `main`; what begins and ends it. */
#include "parts.h"
#include <limits.h>
#include <pthread.h>
#include <stdatomic.h>
#include <stdio.h>
#include <stdlib.h>
#include <string.h>
#include <sys/utsname.h>
#include <time.h>
#include <unistd.h>

/* How many turns in which nothing moves a thread makes before it sleeps, and for how many nanoseconds. On a busy
 * machine one that yields is not back for milliseconds; one that sleeps is back first. */
static unsigned patience;
enum { NAP = 10000 };
static atomic_int finalized;

/* The program's `main`, by the linker's --wrap=main. */
int __real_main(int count, char **words);

struct start {
    struct rank *rank;
    pthread_t thread;
    int count, status;
    char **words;
};

static void fail(const char *cause) {
    fprintf(stderr, "nemesis_mpi: %s\n", cause);
    exit(70);
}

static void *run(void *given) {
    struct start *it = given;
    char **words = malloc((it->count + 1) * sizeof *words);
    if (!words) fail("out of memory");
    memcpy(words, it->words, (it->count + 1) * sizeof *words);
    me = it->rank;
    it->status = __real_main(it->count, words);
    free(words);
    if (me->is_begun && !me->is_over) {
        fprintf(stderr, "nemesis_mpi: rank %d ended without MPI_Finalize\n", me->number);
        stop(it->status ? it->status : 1);
    }
    return NULL;
}

/* A number of the environment, if it is set. */
static uint32_t setting(const char *name, uint32_t usual) {
    const char *text = getenv(name);
    if (!text) return usual;
    char *last;
    unsigned long number = strtoul(text, &last, 10);
    if (last == text || *last || number > NM_MAX_EAGER) fail("a NEMESIS_ variable has no number in range");
    return (uint32_t)number;
}

static struct rank *new_rank(nm_rank core) {
    struct rank *it = calloc(1, sizeof *it);
    if (!it) fail("out of memory");
    it->core = core;
    it->number = (int)nm_number(&it->core);
    it->count = (int)nm_count(&it->core);
    it->comms[0] = (struct communicator){.is_used = true};
    it->comms[1] = (struct communicator){.is_used = true, .is_self = true};
    return it;
}

static void free_rank(struct rank *it) {
    nm_rank_free(it->core);
    while (it->spare) {
        struct nemesis_request *spare = it->spare;
        it->spare = spare->next;
        free(spare);
    }
    free(it);
}

/* Starts a thread for each rank, which has the words of the command line. */
static void start_all(struct start *starts, uint32_t ranks, int count, char **words) {
    nm_rank cores[NM_MAX_RANKS];
    uint32_t cells = setting("NEMESIS_CELLS", NM_WORLD_CELLS), eager = setting("NEMESIS_EAGER", NM_WORLD_EAGER);
    if (nm_world_new(cores, ranks, cells, eager) != NM_OK)
        fail("there is no such world: NEMESIS_RANKS is 1 to 64, NEMESIS_CELLS 1 to 64, NEMESIS_EAGER up to 4096");
    for (uint32_t k = 0; k < ranks; k++) {
        starts[k] = (struct start){.rank = new_rank(cores[k]), .count = count, .words = words};
        if (pthread_create(&starts[k].thread, NULL, run, &starts[k])) fail("a thread was refused");
    }
}

/* The status of the first rank that has one. */
static int free_all(const struct start *starts, uint32_t ranks) {
    int status = 0;
    for (uint32_t k = 0; k < ranks; k++) {
        free_rank(starts[k].rank);
        if (!status) status = starts[k].status;
    }
    return status;
}

int __wrap_main(int count, char **words) {
    struct start starts[NM_MAX_RANKS];
    uint32_t ranks = setting("NEMESIS_RANKS", 2);
    patience = ranks <= (uint32_t)sysconf(_SC_NPROCESSORS_ONLN) ? 2000 : 20;
    start_all(starts, ranks, count, words);
    for (uint32_t k = 0; k < ranks; k++) pthread_join(starts[k].thread, NULL);
    return free_all(starts, ranks);
}

static bool take_number(struct numbers *numbers, uint32_t *number) {
    if (numbers->kept)
        *number = numbers->back[--numbers->kept];
    else if (numbers->fresh <= NM_MAX_NAME)
        *number = numbers->fresh++;
    else
        return false;
    return true;
}

static void give_number(struct numbers *numbers, uint32_t number) { numbers->back[numbers->kept++] = (uint16_t)number; }

/* Asks of the next requests that go on by themselves, so many at most, whether they can. */
static void ask(unsigned most) {
    struct nemesis_request *it = me->due ? me->due : me->chores;
    for (; it && most > 0; most--) {
        me->due = it->next;
        advance(it);
        it = me->due;
    }
}

static void ask_all(void) {
    me->due = NULL;
    ask(UINT_MAX);
}

/* Of how many requests a turn asks, since each time is a call. */
enum { ASKED = 4 };

/* One turn of the rank, and of what goes on by itself (3.5, progress). */
static bool turn(void) {
    bool moved = nm_progress(&me->core) == NM_MOVED;
    ask(ASKED);
    return moved;
}

/* After a turn of a call that waits. */
static void rest(unsigned *idle, bool moved) {
    *idle = moved ? 0 : *idle + 1;
    if (*idle > patience) nanosleep(&(struct timespec){.tv_nsec = NAP}, NULL);
}

static _Noreturn void stop(int status) {
    fflush(NULL);
    _exit(status);
}

int MPI_Init(int *count, char ***words) {
    (void)count, (void)words;
    if (!me) fail("a thread that is no rank called MPI: is the program linked with -Wl,--wrap=main?");
    me->is_begun = true;
    return MPI_SUCCESS;
}

int MPI_Init_thread(int *count, char ***words, int required, int *provided) {
    (void)required;
    *provided = MPI_THREAD_FUNNELED;
    return MPI_Init(count, words);
}

int MPI_Initialized(int *flag) {
    *flag = me && me->is_begun;
    return MPI_SUCCESS;
}

int MPI_Finalized(int *flag) {
    *flag = me && me->is_over;
    return MPI_SUCCESS;
}

/* Whether a rank has something to send, or a freed request to send it. */
static bool has_to_send(void) {
    nm_left left = {0};
    nm_left_of(&me->core, &left);
    if (left.to_send) return true;
    struct nemesis_request *it = me->chores;
    while (it && it->mode == RECEIVE) it = it->next;
    return it;
}

static void wait_for_all(void) {
    unsigned idle = 0;
    atomic_fetch_add(&finalized, 1);
    while (atomic_load(&finalized) < me->count) rest(&idle, turn());
    while (turn()) {}
}

static void drop_held(void) {
    while (me->held) {
        struct nemesis_message *it = me->held;
        me->held = it->next;
        drop_message(it);
    }
}

/* All sends are completed; a receive that was freed and has no message is given up. */
int MPI_Finalize(void) {
    unsigned idle = 0;
    nm_left left;
    while (has_to_send()) rest(&idle, turn());
    wait_for_all();
    while (me->chores) end(me->chores, MPI_SUCCESS);
    drop_held();
    nm_close(&me->core, &left);
    me->is_over = true;
    return MPI_SUCCESS;
}

int MPI_Alloc_mem(MPI_Aint size, MPI_Info info, void *at) {
    (void)info;
    *(void **)at = size < 0 ? NULL : malloc(size ? (size_t)size : 1);
    return raised(MPI_COMM_WORLD, *(void **)at ? MPI_SUCCESS : MPI_ERR_NO_MEM, __func__);
}

int MPI_Free_mem(void *at) {
    free(at);
    return MPI_SUCCESS;
}

int MPI_Abort(MPI_Comm comm, int status) {
    (void)comm;
    fprintf(stderr, "nemesis_mpi: rank %d aborts with %d\n", me->number, status);
    stop(status);
}

double MPI_Wtime(void) {
    struct timespec now;
    clock_gettime(CLOCK_MONOTONIC, &now);
    return (double)now.tv_sec + (double)now.tv_nsec * 1e-9;
}

double MPI_Wtick(void) { return 1e-9; }

int MPI_Get_library_version(char *text, int *length) {
    *length = snprintf(text, MPI_MAX_LIBRARY_VERSION_STRING, "nemesis, ranks as threads");
    return MPI_SUCCESS;
}

int MPI_Get_version(int *version, int *subversion) {
    *version = MPI_VERSION;
    *subversion = MPI_SUBVERSION;
    return MPI_SUCCESS;
}

int MPI_Get_processor_name(char *name, int *length) {
    struct utsname host = {0};
    uname(&host);
    *length = snprintf(name, MPI_MAX_PROCESSOR_NAME, "%s", host.nodename);
    return MPI_SUCCESS;
}
