/* misuse.c: what a caller of nemesis.h can get wrong in a number, row by row, and what is answered. One thread drives
 * three ranks. After all rows each rank still gets what the others sent. */
#include "nemesis.h"
#include <stdio.h>
#include <string.h>

enum { RANKS = 3, BEYOND = 1048577 };

static nm_rank ranks[RANKS];
static nm_rank *me = &ranks[0];
static uint8_t body[BEYOND];
static nm_status status;
static int rows, wrong;

static void row(const char *call, nm_code code, nm_code due) {
    rows++;
    if (code == due) return;
    wrong++;
    printf("%s: %u, not %u\n", call, (unsigned)code, (unsigned)due);
}
#define ROW(call, due) row(#call, call, due)

static void worlds(void) {
    nm_rank many[NM_MAX_RANKS + 1];
    ROW(nm_world_new(many, 0, 8, 1024), NM_BAD_WORLD);
    ROW(nm_world_new(many, NM_MAX_RANKS + 1, 8, 1024), NM_BAD_WORLD);
    ROW(nm_world_new(many, 2, 0, 1024), NM_BAD_WORLD);
    ROW(nm_world_new(many, 2, NM_MAX_CELLS + 1, 1024), NM_BAD_WORLD);
    ROW(nm_world_new(many, 2, 8, NM_MAX_EAGER + 1), NM_BAD_WORLD);
    ROW(nm_world_new(many, NM_MAX_RANKS, NM_MAX_CELLS, NM_MAX_EAGER), NM_OK);
    for (int k = 0; k < NM_MAX_RANKS; k++) nm_rank_free(many[k]);
    ROW(nm_world_new(many, 1, 1, 0), NM_OK);
    nm_rank_free(many[0]);
}

static void sends(void) {
    ROW(nm_isend(me, 65536, 1, 0, 0, body, 0), NM_BAD_NAME);
    ROW(nm_isend(me, UINT32_MAX, 1, 0, 0, body, 0), NM_BAD_NAME);
    ROW(nm_isend(me, 0, RANKS, 0, 0, body, 0), NM_BAD_RANK);
    ROW(nm_isend(me, 0, NM_ANY, 0, 0, body, 0), NM_BAD_RANK);
    ROW(nm_isend(me, 0, 256, 0, 0, body, 0), NM_BAD_RANK);
    ROW(nm_isend(me, 0, 1, 32768, 0, body, 0), NM_BAD_TAG);
    ROW(nm_isend(me, 0, 1, NM_ANY, 0, body, 0), NM_BAD_TAG);
    ROW(nm_isend(me, 0, 1, 0, 256, body, 0), NM_BAD_CONTEXT);
    ROW(nm_isend(me, 0, 1, 0, 0, body, BEYOND), NM_BAD_LENGTH);
    ROW(nm_issend(me, 65536, 1, 0, 0, body, 0), NM_BAD_NAME);
    ROW(nm_issend(me, 0, RANKS, 0, 0, body, 0), NM_BAD_RANK);
    ROW(nm_issend(me, 0, 1, 32768, 0, body, 0), NM_BAD_TAG);
    ROW(nm_issend(me, 0, 1, 0, 256, body, 0), NM_BAD_CONTEXT);
    ROW(nm_issend(me, 0, 1, 0, 0, body, BEYOND), NM_BAD_LENGTH);
}

static void receives(void) {
    ROW(nm_irecv(me, 65536, 1, 0, 0, 8), NM_BAD_NAME);
    ROW(nm_irecv(me, 0, RANKS, 0, 0, 8), NM_BAD_RANK);
    ROW(nm_irecv(me, 0, 1, 32768, 0, 8), NM_BAD_TAG);
    ROW(nm_irecv(me, 0, 1, 0, 256, 8), NM_BAD_CONTEXT);
    ROW(nm_irecv(me, 0, 1, 0, 0, BEYOND), NM_BAD_LENGTH);
    ROW(nm_iprobe(me, RANKS, 0, 0, &status), NM_BAD_RANK);
    ROW(nm_iprobe(me, 1, 32768, 0, &status), NM_BAD_TAG);
    ROW(nm_iprobe(me, 1, 0, 256, &status), NM_BAD_CONTEXT);
    ROW(nm_iprobe(me, NM_ANY, NM_ANY, 0, &status), NM_NOTHING);
    ROW(nm_improbe(me, 65536, 1, 0, 0, &status), NM_BAD_NAME);
    ROW(nm_improbe(me, 0, RANKS, 0, 0, &status), NM_BAD_RANK);
    ROW(nm_improbe(me, 0, 1, 32768, 0, &status), NM_BAD_TAG);
    ROW(nm_improbe(me, 0, 1, 0, 256, &status), NM_BAD_CONTEXT);
    ROW(nm_imrecv(me, 0, 0, 8), NM_NO_SUCH);
    ROW(nm_imrecv(me, 65536, 0, 8), NM_BAD_NAME);
    ROW(nm_imrecv(me, 0, 65536, 8), NM_BAD_NAME);
    ROW(nm_imrecv(me, 0, 0, BEYOND), NM_BAD_LENGTH);
}

/* Names that are in use, and names that are not. */
static void names(void) {
    ROW(nm_test(me, 0, &status, body, 8), NM_NO_SUCH);
    ROW(nm_test(me, 65536, &status, body, 8), NM_BAD_NAME);
    ROW(nm_cancel(me, 0), NM_NO_SUCH);
    ROW(nm_cancel(me, 65536), NM_BAD_NAME);
    ROW(nm_body(me, body, 8), NM_NO_SUCH);
    ROW(nm_irecv(me, 5, 1, 9, 0, 8), NM_OK);
    ROW(nm_irecv(me, 5, 1, 9, 0, 8), NM_BUSY);
    ROW(nm_isend(me, 5, 1, 9, 0, body, 8), NM_BUSY);
    ROW(nm_issend(me, 5, 1, 9, 0, body, 8), NM_BUSY);
    ROW(nm_test(me, 5, &status, body, 8), NM_PENDING);
    ROW(nm_cancel(me, 5), NM_WITHDRAWN);
    ROW(nm_test(me, 5, &status, body, 8), NM_CANCELLED);
    ROW(nm_test(me, 5, &status, body, 8), NM_NO_SUCH);
}

static void turns(void) {
    for (int k = 0; k < 1000; k++)
        for (int rank = 0; rank < RANKS; rank++) nm_progress(&ranks[rank]);
}

/* A wait that was given and has not ended: the rank takes no other command. */
static void waits(void) {
    ROW(nm_answer(&ranks[2], &status, body, 8), NM_NO_SUCH);
    ROW(nm_wait(me, 65536), NM_BAD_NAME);
    ROW(nm_irecv(me, 6, 1, 8, 0, 8), NM_OK);
    ROW(nm_wait(me, 6), NM_OK);
    ROW(nm_answer(me, &status, body, 8), NM_PENDING);
    ROW(nm_wait(me, 6), NM_WAITS);
    ROW(nm_isend(me, 7, 1, 8, 0, body, 8), NM_WAITS);
    ROW(nm_irecv(me, 7, 1, 8, 0, 8), NM_WAITS);
    ROW(nm_test(me, 6, &status, body, 8), NM_WAITS);
    ROW(nm_cancel(me, 6), NM_WAITS);
    ROW(nm_iprobe(me, 1, 8, 0, &status), NM_WAITS);
    ROW(nm_improbe(me, 0, 1, 8, 0, &status), NM_WAITS);
    ROW(nm_imrecv(me, 7, 0, 8), NM_WAITS);
    turns();
    ROW(nm_answer(me, &status, body, 8), NM_PENDING);
    ROW(nm_isend(&ranks[1], 6, 0, 8, 0, (const uint8_t *)"awaited", 8), NM_OK);
    turns();
    ROW(nm_answer(me, &status, body, 8), NM_RECEIVED);
    row("the body", (nm_code)memcmp(body, "awaited", 8), 0);
    ROW(nm_test(me, 6, &status, body, 8), NM_NO_SUCH);
    ROW(nm_wait(me, 6), NM_OK);
    turns();
    ROW(nm_answer(me, &status, body, 8), NM_NO_SUCH);
    ROW(nm_test(&ranks[1], 6, &status, body, 8), NM_SENT);
}

/* Each rank sends to each, itself too; a long message and a short one. */
static void send_all(void) {
    for (uint32_t from = 0; from < RANKS; from++)
        for (uint32_t to = 0; to < RANKS; to++) {
            ROW(nm_isend(&ranks[from], 10 + to, to, 1, 0, (const uint8_t *)"short", 5), NM_OK);
            ROW(nm_isend(&ranks[from], 20 + to, to, 2, 0, body, 5000), NM_OK);
        }
}

static void receive_all(uint32_t to) {
    for (uint32_t from = 0; from < RANKS; from++) {
        ROW(nm_irecv(&ranks[to], 30 + from, from, 1, 0, 5), NM_OK);
        ROW(nm_irecv(&ranks[to], 40 + from, from, 2, 0, 4999), NM_OK);
    }
    turns();
    for (uint32_t from = 0; from < RANKS; from++) {
        ROW(nm_test(&ranks[to], 30 + from, &status, body, 2), NM_RECEIVED);
        ROW(nm_body(&ranks[to], body, 4), NM_SHORT);
        ROW(nm_body(&ranks[to], body, 5), NM_OK);
        row("the body", (nm_code)memcmp(body, "short", 5), 0);
        ROW(nm_test(&ranks[to], 40 + from, &status, body, 4999), NM_CUT);
        row("its whole length", status.length, 5000);
    }
}

/* A handle of a matched probe is in use until a receive takes its message. */
static void handles(void) {
    ROW(nm_isend(me, 1, 1, 3, 0, body, 4), NM_OK);
    ROW(nm_isend(me, 2, 1, 3, 0, body, 4), NM_OK);
    turns();
    ROW(nm_improbe(&ranks[1], 7, 0, 3, 0, &status), NM_SEEN);
    ROW(nm_improbe(&ranks[1], 7, 0, 3, 0, &status), NM_BUSY);
    ROW(nm_imrecv(&ranks[1], 7, 7, 4), NM_OK);
    ROW(nm_imrecv(&ranks[1], 8, 7, 4), NM_NO_SUCH);
    turns();
    ROW(nm_test(&ranks[1], 7, &status, body, 4), NM_RECEIVED);
    ROW(nm_irecv(&ranks[1], 7, 0, 3, 0, 4), NM_OK);
    ROW(nm_cancel(&ranks[1], 7), NM_LATE);
    ROW(nm_test(&ranks[1], 7, &status, body, 4), NM_RECEIVED);
}

/* A rank that is closed and freed takes no call, and loses no message of others; what it had sent, they get. */
static void closed(void) {
    nm_left left = {99, 99};
    ROW(nm_isend(me, 50, 1, 4, 0, (const uint8_t *)"last", 4), NM_OK);
    ROW(nm_irecv(me, 51, 1, 4, 0, 4), NM_OK);
    turns();
    ROW(nm_close(me, &left), NM_OK);
    row("its requests", left.requests, 10);
    row("what is to be sent", left.to_send, 0);
    ROW(nm_close(me, &left), NM_CLOSED);
    ROW(nm_isend(me, 52, 1, 4, 0, body, 4), NM_CLOSED);
    ROW(nm_issend(me, 52, 1, 4, 0, body, 4), NM_CLOSED);
    ROW(nm_irecv(me, 52, 1, 4, 0, 4), NM_CLOSED);
    ROW(nm_test(me, 50, &status, body, 4), NM_CLOSED);
    ROW(nm_cancel(me, 50), NM_CLOSED);
    ROW(nm_iprobe(me, 1, 4, 0, &status), NM_CLOSED);
    ROW(nm_improbe(me, 0, 1, 4, 0, &status), NM_CLOSED);
    ROW(nm_imrecv(me, 52, 0, 4), NM_CLOSED);
    nm_rank_free(*me);
    ROW(nm_irecv(&ranks[1], 60, 0, 4, 0, 4), NM_OK);
    ROW(nm_isend(&ranks[2], 61, 1, 5, 0, (const uint8_t *)"more", 4), NM_OK);
    ROW(nm_irecv(&ranks[1], 61, 2, 5, 0, 4), NM_OK);
    for (int k = 0; k < 1000; k++) nm_progress(&ranks[1 + k % 2]);
    ROW(nm_test(&ranks[1], 60, &status, body, 4), NM_RECEIVED);
    row("the body", (nm_code)memcmp(body, "last", 4), 0);
    ROW(nm_test(&ranks[1], 61, &status, body, 4), NM_RECEIVED);
    row("the body", (nm_code)memcmp(body, "more", 4), 0);
}

int main(void) {
    worlds();
    if (nm_world_new(ranks, RANKS, 2, 1024) != NM_OK) return 1;
    sends();
    receives();
    names();
    waits();
    send_all();
    for (uint32_t to = 0; to < RANKS; to++) receive_all(to);
    handles();
    closed();
    for (int k = 1; k < RANKS; k++) nm_rank_free(ranks[k]);
    printf("%d rows, %d wrong\n", rows, wrong);
    return wrong != 0;
}
