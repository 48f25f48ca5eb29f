/* Runs a script on the MPI library that it is built with, many rounds in one launch, and writes what each command
 * answered. Each round has communicators of its own, so what one leaves behind matches nothing of the next.
 *
 *   mpiexec -n RANKS conform OUT SCRIPT FIRST ROUNDS WAIT_MS SEED PLACING
 *   conform                          (no rank: prints the library's name)
 *
 * Rank R writes OUT.R: for each round `round K`, then `LINE ANSWER @NANOSECONDS` of the one clock of the host, the last
 * one `LINE waits` where the rank waits for ever, then `end`. A round in which a rank waits is the last of its launch.
 * The last line is `finalized`, or `left` where the rank left without MPI_Finalize.
 * With SEED other than 0 there are pauses before commands. With PLACING 1 each line is written at once, and `at LINE` before each
 * command, to place a crash. Nothing here is proved.
 */
#define _GNU_SOURCE 1
#include <mpi.h>
#include <errno.h>
#include <sched.h>
#include "script.h"
#include "board.h"
#include "mistakes.h"

#define NAMES 65536
#define MOST_COMMUNICATORS 1500
#define GUARD 0xee
#define GUARDS 64

struct request { int is_live, is_send; MPI_Request of; unsigned char *bytes; long capacity; };
struct handle { int is_live; MPI_Message of; int source, tag; };

static struct script script;
static struct request *requests;
static struct handle *handles;
static MPI_Comm quiet;
static int out = -1, is_placing;
static unsigned long long seed;

/* ---- the text ---- */

static char *text;
static size_t written, room;

static void stop(const char *why)
{
    fprintf(stderr, "conform: rank %d: %s\n", rank, why);
    MPI_Abort(MPI_COMM_WORLD, 3);
    exit(3);
}

static void flush(void)
{
    size_t at = 0;
    while (at < written) {
        ssize_t n = write(out, text + at, written - at);
        if (n < 0 && errno != EINTR) stop(strerror(errno));
        if (n > 0) at += n;
    }
    written = 0;
}

static void put(const char *words, size_t length)
{
    if (written + length > room) {
        room = 2 * (written + length) + 4096;
        text = memory(text, room);
    }
    memcpy(text + written, words, length);
    written += length;
    if (is_placing) flush();
}

static void put_number(const char *before, long number, const char *behind)
{
    char words[80];
    put(words, snprintf(words, sizeof words, "%s%ld%s", before, number, behind));
}

static void say(long line, const char *answer)
{
    put_number("", line, " ");
    put(answer, strlen(answer));
    put_number(" @", nanoseconds(CLOCK_MONOTONIC), "\n");
}

static void say_envelope(long line, const char *word, const MPI_Status *status)
{
    char words[96];
    int count = 0;
    MPI_Get_count(status, MPI_BYTE, &count);
    snprintf(words, sizeof words, "%s %d %d %d", word, status->MPI_SOURCE, status->MPI_TAG, count);
    say(line, words);
}

static void say_error(long line, const char *call, int error)
{
    char words[MPI_MAX_ERROR_STRING];
    int length = 0;
    MPI_Error_string(error, words, &length);
    fprintf(stderr, "conform: rank %d, line %ld, %s: %.*s\n", rank, line, call, length, words);
    say(line, "error");
}

/* ---- requests ---- */

/* Room for the longest message of the script, so that what is written behind the capacity is seen and breaks nothing. */
static long size_of_buffer(long capacity)
{
    return (capacity > script.longest ? capacity : script.longest) + GUARDS;
}

static void with_buffer(struct request *r, long capacity)
{
    r->capacity = capacity;
    r->bytes = memory(NULL, size_of_buffer(capacity));
    memset(r->bytes + capacity, GUARD, size_of_buffer(capacity) - capacity);
}

static int is_overrun(const struct request *r)
{
    long k = r->capacity, end = size_of_buffer(r->capacity);
    while (k < end && r->bytes[k] == GUARD) k++;
    return k < end;
}

static void say_message(long line, const struct request *r, const MPI_Status *status)
{
    static const char digits[] = "0123456789abcdef";
    char words[96], *hex;
    int k, count = 0;
    MPI_Get_count(status, MPI_BYTE, &count);
    if (count < 0 || count > r->capacity) {
        say(line, "badcount");
        return;
    }
    put(words, snprintf(words, sizeof words, "%ld got %d %d %d x", line, status->MPI_SOURCE, status->MPI_TAG, count));
    hex = memory(NULL, 2 * (size_t) count);
    for (k = 0; k < count; k++) {
        hex[2 * k] = digits[r->bytes[k] >> 4];
        hex[2 * k + 1] = digits[r->bytes[k] & 15];
    }
    put(hex, 2 * (size_t) count);
    free(hex);
    put_number(" @", nanoseconds(CLOCK_MONOTONIC), "\n");
}

/* A request has ended; the call said this error. */
static void finish(long line, struct request *r, int error, const MPI_Status *status)
{
    int class = MPI_SUCCESS, is_cancelled = 0;
    if (error != MPI_SUCCESS) MPI_Error_class(error, &class);
    else MPI_Test_cancelled(status, &is_cancelled);
    r->is_live = 0;
    board->live[rank]--;
    if (is_cancelled && r->is_send) board->sent[rank]--;
    if (!is_cancelled && !r->is_send) board->received[rank]++;
    if (!r->is_send && is_overrun(r)) say(line, "overrun");
    else if (is_cancelled) say(line, "cancelled");
    else if (class == MPI_ERR_TRUNCATE && !r->is_send) say_envelope(line, "cut", status);
    else if (class != MPI_SUCCESS) say_error(line, "completion", error);
    else if (r->is_send) say(line, "sent");
    else say_message(line, r, status);
    free(r->bytes);
    r->bytes = NULL;
}

/* ---- commands; each is 0 where the rank waits for ever ---- */

static int source_of(const struct command *c) { return c->peer == ANY ? MPI_ANY_SOURCE : (int) c->peer; }
static int tag_of(const struct command *c) { return c->tag == ANY ? MPI_ANY_TAG : (int) c->tag; }

static void start(const struct command *c)
{
    struct request *r = &requests[c->name];
    int error, source = source_of(c);
    if (r->is_live) {
        say(c->line, "busy");
        return;
    }
    r->is_live = 1;
    r->is_send = c->word != IRECV;
    board->live[rank]++;
    if (r->is_send) {
        board->sent[rank]++;
        error = start_send(c, &r->of);
    } else {
        with_buffer(r, c->capacity);
        error = MPI_Irecv(r->bytes, (int) c->capacity, MPI_BYTE, source, tag_of_receive(c, source, tag_of(c)), communicator(c), &r->of);
    }
    if (error) say_error(c->line, "start", error);
}

static int wait_for(const struct command *c)
{
    struct request *r = &requests[c->name];
    MPI_Status status;
    int error;
    memset(&status, 0, sizeof status);
    if (!r->is_live) {
        say(c->line, "null");
        return 1;
    }
    if (sigsetjmp(out_of_wait, 1)) return 0;
    is_blocked = 1;
    error = MPI_Wait(&r->of, &status);
    is_blocked = 0;
    finish(c->line, r, error, &status);
    return 1;
}

static void test(const struct command *c)
{
    struct request *r = &requests[c->name];
    MPI_Status status;
    int error, is_complete = 0;
    memset(&status, 0, sizeof status);
    if (!r->is_live) {
        say(c->line, "null");
        return;
    }
    error = MPI_Test(&r->of, &is_complete, &status);
    if (is_complete || error) finish(c->line, r, error, &status);
    else say(c->line, "no");
}

static void probe(const struct command *c)
{
    MPI_Status status;
    int is_there = 0;
    memset(&status, 0, sizeof status);
    MPI_Iprobe(source_of(c), tag_of(c), communicator(c), &is_there, &status);
    if (is_there) say_envelope(c->line, "seen", &status);
    else say(c->line, "none");
}

static int await(const struct command *c)
{
    MPI_Status status;
    memset(&status, 0, sizeof status);
    if (sigsetjmp(out_of_wait, 1)) return 0;
    is_blocked = 1;
    MPI_Probe(source_of(c), tag_of(c), communicator(c), &status);
    is_blocked = 0;
    say_envelope(c->line, "seen", &status);
    return 1;
}

/* MPI_Cancel answers nothing. What became of a receive is looked up, and its request stays; where that is not known yet,
 * the answer is `asked`. */
static void cancel(const struct command *c)
{
    struct request *r = &requests[c->name];
    MPI_Status status;
    int error, is_complete = 0, is_cancelled = 0;
    memset(&status, 0, sizeof status);
    if (!r->is_live) {
        say(c->line, "null");
        return;
    }
    error = MPI_Cancel(&r->of);
    if (error) {
        say_error(c->line, "MPI_Cancel", error);
        return;
    }
    if (BREAK != SAYS_CANCELLED && !r->is_send) MPI_Request_get_status(r->of, &is_complete, &status);
    if (is_complete) MPI_Test_cancelled(&status, &is_cancelled);
    if (r->is_send) say(c->line, "asked");
    else if (BREAK == SAYS_CANCELLED || is_cancelled) say(c->line, "done");
    else say(c->line, is_complete ? "late" : "asked");
}

static void mprobe(const struct command *c)
{
    struct handle *h = &handles[c->handle];
    MPI_Status status;
    memset(&status, 0, sizeof status);
    if (h->is_live) {
        say(c->line, "busy");
        return;
    }
    if (BREAK == CLAIMS_NOTHING) MPI_Iprobe(source_of(c), tag_of(c), communicator(c), &h->is_live, &status);
    else MPI_Improbe(source_of(c), tag_of(c), communicator(c), &h->is_live, &h->of, &status);
    h->source = status.MPI_SOURCE;
    h->tag = status.MPI_TAG;
    board->live[rank] += h->is_live;
    if (h->is_live) say_envelope(c->line, "seen", &status);
    else say(c->line, "none");
}

static void mrecv(const struct command *c)
{
    struct request *r = &requests[c->name];
    struct handle *h = &handles[c->handle];
    int error;
    if (r->is_live || !h->is_live) {
        say(c->line, r->is_live ? "busy" : "null");
        return;
    }
    r->is_live = 1;
    r->is_send = 0;
    h->is_live = 0;
    with_buffer(r, c->capacity);
    if (BREAK == CLAIMS_NOTHING) error = MPI_Irecv(r->bytes, (int) c->capacity, MPI_BYTE, h->source, h->tag, communicator(c), &r->of);
    else error = MPI_Imrecv(r->bytes, (int) c->capacity, MPI_BYTE, &h->of, &r->of);
    if (error) say_error(c->line, "MPI_Imrecv", error);
}

static void shake(void)
{
    volatile unsigned k = 0;
    unsigned chance;
    struct timespec pause = { 0, 0 };
    if (!seed) return;
    seed = seed * 6364136223846793005ULL + 1442695040888963407ULL;
    chance = (unsigned) (seed >> 40);
    if (chance % 3 == 1) while (k < (chance >> 4) % 20000) k = k + 1;
    pause.tv_nsec = (chance >> 4) % 200 * 1000;
    if (chance % 3 == 2) nanosleep(&pause, NULL);
}

static int run(const struct command *c)
{
    shake();
    if (is_placing) put_number("at ", c->line, "\n");
    if (c->word != ISEND && c->word != ISSEND) let_go();
    switch (c->word) {
    case ISEND: case ISSEND: case IRECV: start(c); return 1;
    case WAIT: return wait_for(c);
    case TEST: test(c); return 1;
    case PROBE: probe(c); return 1;
    case AWAIT: return await(c);
    case CANCEL: cancel(c); return 1;
    case MPROBE: mprobe(c); return 1;
    default: mrecv(c); return 1;
    }
}

/* ---- rounds ---- */

static void begin(long round)
{
    int k;
    for (k = 0; k < CONTEXTS; k++) if (script.uses[k]) {
        MPI_Comm_dup(MPI_COMM_WORLD, &communicators[k]);
        MPI_Comm_set_errhandler(communicators[k], MPI_ERRORS_RETURN);
    }
    memset(requests, 0, NAMES * sizeof *requests);
    memset(handles, 0, NAMES * sizeof *handles);
    board->sent[rank] = board->received[rank] = board->live[rank] = 0;
    put_number("round ", round, "\n");
    MPI_Barrier(quiet);
    board->state[rank] = 2 * round;
}

/* A rank at its end goes on looking, so that the library may move the messages of others. */
static void look_on(long round)
{
    int is_there;
    while (!are_all_behind(round)) {
        if (board->state[rank] == WAITS || is_stuck) {
            usleep(2000);
            continue;
        }
        MPI_Iprobe(MPI_ANY_SOURCE, 0, quiet, &is_there, MPI_STATUS_IGNORE);
        board->looks[rank]++;
        sched_yield();
    }
}

/* Whether every rank came to its end. */
static int run_round(long round)
{
    long k = 0;
    begin(round);
    while (k < script.count && run(&script.commands[k])) {
        board->ran[rank]++;
        k++;
    }
    if (k < script.count) {
        watch(0);  /* a call of the library was left: it is not called again */
        say(script.commands[k].line, "waits");
    } else let_go();
    put("end\n", 4);
    flush();
    __sync_synchronize();
    board->state[rank] = k < script.count ? WAITS : 2 * round + 1;
    look_on(round);
    return !does_any_wait();
}

/* Communicators are freed where nothing is left in them; how many stay. */
static int free_communicators(void)
{
    int k, stay = 0, is_clean = is_all_received();
    MPI_Barrier(quiet);
    for (k = 0; k < CONTEXTS; k++) if (script.uses[k]) {
        if (is_clean) MPI_Comm_free(&communicators[k]);
        else stay++;
    }
    return stay;
}

/* The last line of a rank. */
static void end(const char *how)
{
    put(how, strlen(how));
    flush();
}

/* Leaves without MPI_Finalize, which may wait for what was never received; all is written. */
static void leave(void)
{
    end("left\n");
    fflush(stderr);
    usleep(100000);
    _exit(0);
}

static void run_rounds(long first, long rounds, unsigned long long chosen)
{
    long round, stay = 0;
    watch(1);
    for (round = first; round < first + rounds && stay + CONTEXTS <= MOST_COMMUNICATORS; round++) {
        if (chosen) seed = (chosen * 1000003ULL + round) * RANKS + rank + 1;
        if (!run_round(round)) leave();
        stay += free_communicators();
    }
    watch(0);
    MPI_Barrier(quiet);
    if (stay) leave();
}

static void open_all(const char *base)
{
    char path[4096];
    snprintf(path, sizeof path, "%s.%d", base, rank);
    out = open(path, O_WRONLY | O_CREAT | O_APPEND, 0644);
    if (out < 0) stop(strerror(errno));
    snprintf(path, sizeof path, "%s.board", base);
    if (!rank && !make_board(path)) stop("the board can't be made");
    MPI_Barrier(MPI_COMM_WORLD);
    if (!open_board(path)) stop("the board can't be opened: all ranks have to run on this host");
    MPI_Barrier(MPI_COMM_WORLD);
    if (!rank) unlink(path);
}

static int print_library(void)
{
    char words[MPI_MAX_LIBRARY_VERSION_STRING];
    int length = 0;
    MPI_Get_library_version(words, &length);
    printf("%.*s\n", length, words);
    return 0;
}

int main(int count, char **words)
{
    if (count != 8) return print_library();
    MPI_Init(&count, &words);
    MPI_Comm_rank(MPI_COMM_WORLD, &rank);
    MPI_Comm_size(MPI_COMM_WORLD, &ranks);
    if (ranks > RANKS) stop("more than 64 ranks");
    script = read_script(words[2], rank, ranks);
    the_script = &script;
    requests = memory(NULL, NAMES * sizeof *requests);
    handles = memory(NULL, NAMES * sizeof *handles);
    limit_ms = atol(words[5]);
    is_placing = atoi(words[7]);
    MPI_Comm_set_errhandler(MPI_COMM_WORLD, MPI_ERRORS_RETURN);
    MPI_Comm_dup(MPI_COMM_WORLD, &quiet);
    open_all(words[1]);
    run_rounds(atol(words[3]), atol(words[4]), strtoull(words[6], NULL, 10));
    MPI_Finalize();
    end("finalized\n");
    return 0;
}
