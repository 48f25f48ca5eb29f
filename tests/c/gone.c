/* gone.c: a thread that ends without closing its rank. The others get what it sent, and lose nothing of each other; who
 * joins the thread may drive its rank from then on, and gets what they sent to it. */
#include "nemesis.h"
#include <pthread.h>
#include <sched.h>
#include <stdio.h>
#include <stdlib.h>

enum { RANKS = 3, GONE = 0, TIMES = 1000, LENGTH = 2000, FIRST = 1, LAST = 2, ROUND = 3, SENT = 0, GOT = 1 };

static void must(const char *call, nm_code code, nm_code due) {
    if (code == due) return;
    printf("%s answers %u, not %u\n", call, (unsigned)code, (unsigned)due);
    exit(1);
}

static nm_code wait_for(nm_rank *rank, uint32_t name, uint8_t *body, size_t room) {
    nm_status status;
    nm_code code;
    while ((code = nm_test(rank, name, &status, body, room)) == NM_PENDING)
        if (nm_progress(rank) == NM_IDLE) sched_yield();
    return code;
}

static void send(nm_rank *rank, uint32_t to, uint32_t tag, uint8_t first, size_t length) {
    uint8_t body[LENGTH] = {first};
    must("nm_isend", nm_isend(rank, SENT, to, tag, 0, body, length), NM_OK);
    must("a send", wait_for(rank, SENT, body, 0), NM_SENT);
}

static void receive(nm_rank *rank, uint32_t from, uint32_t tag, uint8_t first) {
    uint8_t body[LENGTH] = {0};
    must("nm_irecv", nm_irecv(rank, GOT, from, tag, 0, LENGTH), NM_OK);
    must("a receive", wait_for(rank, GOT, body, LENGTH), NM_RECEIVED);
    must("its first byte", body[0], first);
}

/* Sends a message to each other rank, and a receive stays open. */
static void *leave(void *given) {
    nm_rank *rank = given;
    for (uint32_t to = 0; to < RANKS; to++)
        if (to != GONE) send(rank, to, FIRST, 7, 9);
    must("nm_irecv", nm_irecv(rank, GOT, NM_ANY, ROUND, 0, 0), NM_OK);
    return NULL;
}

/* Takes the message of the rank that is gone, sends it one, and exchanges many with the other one. */
static void *stay(void *given) {
    nm_rank *rank = given;
    uint32_t me = nm_number(rank), other = 3 - me;
    send(rank, GONE, LAST, (uint8_t)me, 9);
    for (int k = 0; k < TIMES; k++) {
        if (me == 1) send(rank, other, ROUND, (uint8_t)k, LENGTH);
        receive(rank, other, ROUND, (uint8_t)k);
        if (me == 2) send(rank, other, ROUND, (uint8_t)k, LENGTH);
    }
    receive(rank, GONE, FIRST, 7);
    return NULL;
}

int main(void) {
    nm_rank ranks[RANKS];
    pthread_t threads[RANKS];
    nm_left left;
    uint8_t nothing;
    must("nm_world_new", nm_world_new(ranks, RANKS, 2, 1024), NM_OK);
    for (int k = 0; k < RANKS; k++)
        if (pthread_create(&threads[k], NULL, k == GONE ? leave : stay, &ranks[k])) return 1;
    for (int k = 0; k < RANKS; k++) pthread_join(threads[k], NULL);
    must("nm_cancel", nm_cancel(&ranks[GONE], GOT), NM_WITHDRAWN);
    must("the open receive", wait_for(&ranks[GONE], GOT, &nothing, 0), NM_CANCELLED);
    for (uint8_t from = 1; from < RANKS; from++) receive(&ranks[GONE], from, LAST, from);
    for (int k = 0; k < RANKS; k++) {
        must("nm_close", nm_close(&ranks[k], &left), NM_OK);
        must("requests that are left", left.requests, 0);
    }
    for (int k = 0; k < RANKS; k++) nm_rank_free(ranks[k]);
    printf("%d messages of %d bytes beside a rank that is gone\n", 2 * TIMES, LENGTH);
    return 0;
}
