/* ping_pong.c: two threads send a message to and fro, by the calls of nemesis.h.
 *
 *     cc -Iinclude examples/c/ping_pong.c libnemesis.a -pthread -o ping_pong
 */
#include "nemesis.h"
#include <pthread.h>
#include <sched.h>
#include <stdio.h>
#include <stdlib.h>

enum { LENGTH = 3000, TIMES = 1000, NAME = 0, TAG = 7, CONTEXT = 0 };

static void stop(const char *call, nm_code code) {
    fprintf(stderr, "ping_pong: %s answers %u\n", call, (unsigned)code);
    exit(1);
}

/* Until the request is complete: asks, and makes turns; where nothing moves, others may have the processor. */
static nm_code wait_for(nm_rank *rank, nm_status *status, uint8_t *body) {
    nm_code code;
    while ((code = nm_test(rank, NAME, status, body, LENGTH)) == NM_PENDING)
        if (nm_progress(rank) == NM_IDLE) sched_yield();
    return code;
}

static void send(nm_rank *rank, const uint8_t *body) {
    nm_status none;
    uint8_t nothing[LENGTH];
    nm_code code = nm_isend(rank, NAME, 1 - nm_number(rank), TAG, CONTEXT, body, LENGTH);
    if (code != NM_OK) stop("nm_isend", code);
    code = wait_for(rank, &none, nothing);
    if (code != NM_SENT) stop("nm_test", code);
}

static void receive(nm_rank *rank, uint8_t *body) {
    nm_status status;
    nm_code code = nm_irecv(rank, NAME, NM_ANY, TAG, CONTEXT, LENGTH);
    if (code != NM_OK) stop("nm_irecv", code);
    code = wait_for(rank, &status, body);
    if (code != NM_RECEIVED || status.length != LENGTH) stop("nm_test", code);
}

/* Rank 0 sends what it got, plus one in its first byte. Rank 1 sends it back. */
static void *run(void *given) {
    nm_rank *rank = given;
    uint8_t body[LENGTH] = {0};
    for (int k = 0; k < TIMES; k++) {
        if (nm_number(rank) == 0) {
            body[0]++;
            send(rank, body);
        }
        receive(rank, body);
        if (nm_number(rank) == 1) send(rank, body);
    }
    if (nm_number(rank) == 0) printf("%d round trips of %d bytes, the first byte is %d\n", TIMES, LENGTH, body[0]);
    return NULL;
}

int main(void) {
    nm_rank ranks[2];
    pthread_t threads[2];
    nm_code code = nm_world_new(ranks, 2, NM_WORLD_CELLS, NM_WORLD_EAGER);
    if (code != NM_OK) stop("nm_world_new", code);
    for (int k = 0; k < 2; k++)
        if (pthread_create(&threads[k], NULL, run, &ranks[k])) return 1;
    for (int k = 0; k < 2; k++) pthread_join(threads[k], NULL);
    while ((code = nm_world_end(ranks, 2)) == NM_MOVED) {}
    if (code != NM_OK) stop("nm_world_end", code);
    for (int k = 0; k < 2; k++) nm_rank_free(ranks[k]);
    return 0;
}
