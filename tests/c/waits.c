/* waits.c: waits that are given and run by turns. Two ranks send a number to and fro by them; then each misuse of them,
 * row by row. */
#include "nemesis.h"
#include <pthread.h>
#include <stdio.h>
#include <string.h>

enum { TURNS = 2000 };

static nm_rank ranks[2];
static int wrong;

static void row(const char *call, nm_code code, nm_code due) {
    if (code == due) return;
    wrong++;
    printf("%s: %u, not %u\n", call, (unsigned)code, (unsigned)due);
}
#define ROW(call, due) row(#call, call, due)

/* Ends a request by a wait: the code that a test would have answered. */
static nm_code waited(nm_rank *rank, uint32_t name, nm_status *status, void *body, size_t room) {
    nm_code code = nm_wait(rank, name);
    while (code == NM_OK || code == NM_PENDING) {
        nm_progress(rank);
        code = nm_answer(rank, status, body, room);
    }
    return code;
}

static void send_number(nm_rank *rank, uint32_t to, uint64_t number) {
    nm_status status;
    uint8_t body[8];
    memcpy(body, &number, 8);
    ROW(nm_isend(rank, 1, to, 5, 0, body, 8), NM_OK);
    ROW(waited(rank, 1, &status, body, 8), NM_SENT);
}

static uint64_t receive_number(nm_rank *rank, uint32_t from) {
    nm_status status;
    uint64_t number = 0;
    uint8_t body[8] = {0};
    ROW(nm_irecv(rank, 2, from, 5, 0, 8), NM_OK);
    ROW(waited(rank, 2, &status, body, 8), NM_RECEIVED);
    memcpy(&number, body, 8);
    return number;
}

static void *other(void *unused) {
    (void)unused;
    for (int k = 0; k < TURNS; k++) send_number(&ranks[1], 0, receive_number(&ranks[1], 0) + 1);
    return NULL;
}

static void misuses(nm_rank *rank) {
    nm_status status;
    nm_left left;
    uint8_t body[8];
    ROW(nm_wait(rank, 65536), NM_BAD_NAME);
    ROW(nm_irecv(rank, 3, 1, 9, 0, 8), NM_OK);
    ROW(nm_wait(rank, 3), NM_OK);
    ROW(nm_answer(rank, &status, body, 8), NM_PENDING);
    ROW(nm_wait(rank, 3), NM_WAITS);
    ROW(nm_test(rank, 3, &status, body, 8), NM_WAITS);
    ROW(nm_isend(rank, 4, 1, 0, 0, body, 8), NM_WAITS);
    ROW(nm_close(rank, &left), NM_OK);
    ROW(nm_wait(rank, 3), NM_CLOSED);
    ROW(nm_answer(rank, &status, body, 8), NM_PENDING);
}

int main(void) {
    pthread_t thread;
    uint64_t number = 0;
    ROW(nm_world_new(ranks, 2, NM_WORLD_CELLS, NM_WORLD_EAGER), NM_OK);
    if (pthread_create(&thread, NULL, other, NULL)) return 1;
    for (int k = 0; k < TURNS; k++) {
        send_number(&ranks[0], 1, number);
        number = receive_number(&ranks[0], 1);
    }
    pthread_join(thread, NULL);
    misuses(&ranks[0]);
    nm_rank_free(ranks[0]);
    nm_rank_free(ranks[1]);
    printf("the number is %llu, %d wrong\n", (unsigned long long)number, wrong);
    return wrong != 0;
}
