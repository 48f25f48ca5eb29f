/* What calls of nemesis.h take, made by one thread for a rank that sends to itself.

     calls LENGTH TIMES

   Standard output: nanoseconds of a call that only tells a number, of a probe that finds nothing, of a turn that does
   nothing, and of a message, with how many calls each message made. Some messages before them are not counted. */
#include "nemesis.h"
#include <stdio.h>
#include <stdlib.h>
#include <time.h>

enum { LONGEST = 1 << 20, FEW = 1000, SEND = 0, RECEIVE = 1, TAG = 7 };

static nm_rank ranks[2];
static nm_status status;
static uint8_t here[LONGEST], there[LONGEST];
static uint32_t length;
static long long calls;

static double now(void) {
    struct timespec it;
    clock_gettime(CLOCK_MONOTONIC, &it);
    return it.tv_sec * 1e9 + it.tv_nsec;
}

static void number(void) { calls += nm_number(ranks) == 0; }

static void probe(void) { calls += nm_iprobe(ranks, NM_ANY, NM_ANY, 1, &status) == NM_NOTHING; }

static void turn(void) { calls += nm_progress(ranks) == NM_IDLE; }

static void must(nm_code code, nm_code due) {
    calls++;
    if (code != due) exit(1);
}

static void finish(uint32_t name, nm_code due) {
    nm_code code;
    while (calls++, (code = nm_test(ranks, name, &status, there, length)) == NM_PENDING) calls++, nm_progress(ranks);
    if (code != due) exit(1);
}

static void message(void) {
    must(nm_isend(ranks, SEND, 0, TAG, 0, here, length), NM_OK);
    must(nm_irecv(ranks, RECEIVE, 0, TAG, 0, length), NM_OK);
    finish(RECEIVE, NM_RECEIVED);
    finish(SEND, NM_SENT);
}

static double took(void (*step)(void), long times) {
    double begun = now();
    calls = 0;
    for (long k = 0; k < times; k++) step();
    return (now() - begun) / times;
}

int main(int count, char **words) {
    if (count != 3) return 2;
    length = (uint32_t)atol(words[1]);
    long times = atol(words[2]);
    if (length > LONGEST || times < 1) return 2;
    if (nm_world_new(ranks, 2, NM_WORLD_CELLS, NM_WORLD_EAGER) != NM_OK) return 6;
    took(message, FEW);
    double tells = took(number, times), probes = took(probe, times), turns = took(turn, times);
    double each = took(message, times);
    printf("%.1f %.1f %.1f %.1f %.1f\n", tells, probes, turns, each, (double)calls / times);
    return nm_world_end(ranks, 2) == NM_OK ? 0 : 1;
}
