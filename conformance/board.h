/* What the ranks of one host tell each other beside MPI, and the watchdog that tells a hang from a slow machine.
 *
 * A hang: for LIMIT ms of the clock no rank ran a command, and each rank either had a quarter of that in processor time,
 * or is at its end and made 1,000 looks that give way to others; or nothing happened for ten times as long. */
#include <fcntl.h>
#include <setjmp.h>
#include <signal.h>
#include <sys/mman.h>
#include <time.h>
#include <unistd.h>

#ifndef sigev_notify_thread_id
#define sigev_notify_thread_id _sigev_un._tid
#endif

#define RANKS 64
#define TICK_MS 50

enum { WAITS = -1 };

/* The state of a rank is 2 * ROUND while it runs that round, one more when it has run it, or WAITS. */
struct board {
    volatile long ran[RANKS];      /* commands */
    volatile long worked[RANKS];   /* ms of processor time */
    volatile long looks[RANKS];    /* at its end */
    volatile long state[RANKS];
    volatile long sent[RANKS], received[RANKS], live[RANKS];  /* of this round: messages, and requests and handles left */
};

static struct board *board;
static int rank, ranks;
static long limit_ms = 1000;
static volatile sig_atomic_t is_blocked, is_stuck;
static sigjmp_buf out_of_wait;

static long nanoseconds(clockid_t clock)
{
    struct timespec t;
    clock_gettime(clock, &t);
    return t.tv_sec * 1000000000L + t.tv_nsec;
}

static int had_its_share(int other, const long *worked, const long *looks)
{
    return board->worked[other] - worked[other] >= limit_ms / 4 || board->looks[other] - looks[other] >= 1000;
}

/* Runs each TICK_MS. Where the ranks are stuck, a blocked call is left for good. */
static void tick(void)
{
    static long last = -1, still_ms, worked[RANKS], looks[RANKS];
    long ran = 0;
    int k, all = 1;
    board->worked[rank] = nanoseconds(CLOCK_THREAD_CPUTIME_ID) / 1000000;
    for (k = 0; k < ranks; k++) ran += board->ran[k];
    if (ran != last) {
        last = ran;
        still_ms = 0;
        is_stuck = 0;
        for (k = 0; k < ranks; k++) {
            worked[k] = board->worked[k];
            looks[k] = board->looks[k];
        }
        return;
    }
    still_ms += TICK_MS;
    for (k = 0; k < ranks; k++) all = all && had_its_share(k, worked, looks);
    if (still_ms < limit_ms || (!all && still_ms < 10 * limit_ms)) return;
    is_stuck = 1;
    if (is_blocked) {
        is_blocked = 0;
        siglongjmp(out_of_wait, 1);
    }
}

/* What a timer tells its thread: ranks that are threads of one process have this file once each, and one handler. */
struct watchdog {
    void (*tick)(void);
};

static void ring(int signal, siginfo_t *info, void *where)
{
    const struct watchdog *of = info->si_value.sival_ptr;
    (void) signal;
    (void) where;
    of->tick();
}

static void watch(int on)
{
    static struct watchdog own = { tick };
    static timer_t timer;
    static int is_made;
    struct itimerspec each = { { 0, on ? TICK_MS * 1000000L : 0 }, { 0, on ? TICK_MS * 1000000L : 0 } };
    struct sigevent event;
    struct sigaction action;
    memset(&action, 0, sizeof action);
    action.sa_sigaction = ring;
    action.sa_flags = SA_RESTART | SA_SIGINFO;
    sigaction(SIGALRM, &action, NULL);
    memset(&event, 0, sizeof event);
    event.sigev_notify = SIGEV_THREAD_ID;
    event.sigev_notify_thread_id = gettid();
    event.sigev_signo = SIGALRM;
    event.sigev_value.sival_ptr = &own;
    is_made = is_made || timer_create(CLOCK_MONOTONIC, &event, &timer) == 0;
    if (is_made) timer_settime(timer, 0, &each, NULL);
}

/* The board is a file; rank 0 makes it before the others open it. */
static int make_board(const char *path)
{
    int file = open(path, O_RDWR | O_CREAT | O_EXCL, 0600);
    return file >= 0 && ftruncate(file, sizeof *board) == 0 && close(file) == 0;
}

static int open_board(const char *path)
{
    int file = open(path, O_RDWR);
    void *at = file < 0 ? MAP_FAILED : mmap(NULL, sizeof *board, PROT_READ | PROT_WRITE, MAP_SHARED, file, 0);
    if (at == MAP_FAILED) return 0;
    board = at;
    return close(file) == 0;
}

/* Whether all ranks have run the round, or wait. */
static int are_all_behind(long round)
{
    int k, all = 1;
    for (k = 0; k < ranks; k++) all = all && (board->state[k] == WAITS || board->state[k] > 2 * round);
    return all;
}

static int does_any_wait(void)
{
    int k, any = 0;
    for (k = 0; k < ranks; k++) any = any || board->state[k] == WAITS;
    return any;
}

/* Whether nothing of the round is left in its communicators. */
static int is_all_received(void)
{
    long left = 0;
    int k, live = 0;
    for (k = 0; k < ranks; k++) {
        left += board->sent[k] - board->received[k];
        live = live || board->live[k];
    }
    return !left && !live;
}
