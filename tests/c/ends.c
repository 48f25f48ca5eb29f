/* ends.c: how worlds end, row by row: at rest, or with something under way; and what a caller can get wrong about it. A
 * world that is refused its end goes on. */
#include "nemesis.h"
#include <stdio.h>
#include <string.h>

enum { RANKS = 3, LONG = 5000 };

static nm_status status;
static uint8_t body[LONG];
static int rows, wrong;

static void row(const char *call, nm_code code, nm_code due) {
    rows++;
    if (code == due) return;
    wrong++;
    printf("%s: %u, not %u\n", call, (unsigned)code, (unsigned)due);
}
#define ROW(call, due) row(#call, call, due)

static void begin(nm_rank *ranks) {
    ROW(nm_world_new(ranks, RANKS, 2, 1024), NM_OK);
}

/* The end of ranks that stand as they should, and what their handles answer from then on. */
static void end(nm_rank *ranks, nm_code due) {
    nm_code code;
    nm_left left = {9, 9};
    while ((code = nm_world_end(ranks, RANKS)) == NM_MOVED) {}
    row("the end", code, due);
    for (uint32_t k = 0; k < RANKS; k++) {
        row("its number", nm_number(&ranks[k]), k);
        row("how many there are", nm_count(&ranks[k]), RANKS);
        ROW(nm_isend(&ranks[k], 0, 0, 0, 0, body, 1), NM_CLOSED);
        ROW(nm_irecv(&ranks[k], 0, 0, 0, 0, 1), NM_CLOSED);
        ROW(nm_test(&ranks[k], 0, &status, body, 1), NM_CLOSED);
        ROW(nm_progress(&ranks[k]), NM_IDLE);
        ROW(nm_left_of(&ranks[k], &left), NM_OK);
        row("what is left", left.requests + left.to_send, 0);
        ROW(nm_close(&ranks[k], &left), NM_CLOSED);
    }
    ROW(nm_world_end(ranks, RANKS), NM_OK);
    for (int k = 0; k < RANKS; k++) nm_rank_free(ranks[k]);
}

/* Each rank sends a short and a long message to each, itself too, and gets what was sent to it. */
static void exchange(nm_rank *ranks) {
    for (uint32_t from = 0; from < RANKS; from++)
        for (uint32_t to = 0; to < RANKS; to++) {
            ROW(nm_isend(&ranks[from], 10 + to, to, 1, 0, (const uint8_t *)"short", 5), NM_OK);
            ROW(nm_issend(&ranks[from], 20 + to, to, 2, 0, body, LONG), NM_OK);
            ROW(nm_irecv(&ranks[to], 30 + from, from, 1, 0, 5), NM_OK);
            ROW(nm_irecv(&ranks[to], 40 + from, from, 2, 0, LONG), NM_OK);
        }
    for (int k = 0; k < 1000; k++) nm_progress(&ranks[k % RANKS]);
    for (uint32_t a = 0; a < RANKS; a++)
        for (uint32_t b = 0; b < RANKS; b++) {
            ROW(nm_test(&ranks[a], 10 + b, &status, body, LONG), NM_SENT);
            ROW(nm_test(&ranks[a], 20 + b, &status, body, LONG), NM_SENT);
            ROW(nm_test(&ranks[a], 30 + b, &status, body, LONG), NM_RECEIVED);
            ROW(nm_test(&ranks[a], 40 + b, &status, body, LONG), NM_RECEIVED);
        }
}

/* At rest: nothing was asked; all was received; a rank is closed; a message was never received, or never sent. */
static void at_rest(void) {
    nm_rank ranks[RANKS];
    nm_left left;
    begin(ranks);
    end(ranks, NM_OK);
    begin(ranks);
    exchange(ranks);
    end(ranks, NM_OK);
    begin(ranks);
    ROW(nm_close(&ranks[1], &left), NM_OK);
    end(ranks, NM_OK);
    begin(ranks);
    ROW(nm_isend(&ranks[0], 1, 2, 0, 0, body, 5), NM_OK);
    ROW(nm_issend(&ranks[1], 1, 0, 0, 0, body, LONG), NM_OK);
    ROW(nm_irecv(&ranks[2], 1, 1, 0, 0, 5), NM_OK);
    end(ranks, NM_OK);
}

/* A wait that never ends. */
static void waits(void) {
    nm_rank ranks[RANKS];
    begin(ranks);
    ROW(nm_irecv(&ranks[2], 1, 1, 0, 0, 5), NM_OK);
    ROW(nm_wait(&ranks[2], 1), NM_OK);
    end(ranks, NM_PENDING);
}

/* Something is under way: the world goes on, and its turns are those of its end. */
static void under_way(void) {
    nm_rank ranks[RANKS];
    begin(ranks);
    ROW(nm_isend(&ranks[0], 1, 2, 0, 0, (const uint8_t *)"later", 5), NM_OK);
    ROW(nm_world_end(ranks, RANKS), NM_MOVED);
    ROW(nm_irecv(&ranks[2], 1, 0, 0, 0, 5), NM_OK);
    for (int k = 0; k < 1000; k++) nm_progress(&ranks[k % RANKS]);
    ROW(nm_test(&ranks[2], 1, &status, body, 5), NM_RECEIVED);
    row("the body", (nm_code)memcmp(body, "later", 5), 0);
    end(ranks, NM_OK);
}

/* Not all ranks of one world, or not in order. */
static void others(void) {
    nm_rank ranks[RANKS], mixed[RANKS + 1], more[RANKS];
    begin(ranks);
    begin(more);
    ROW(nm_world_end(ranks, 0), NM_BAD_WORLD);
    ROW(nm_world_end(ranks, RANKS - 1), NM_BAD_WORLD);
    for (int k = 0; k < RANKS; k++) mixed[k] = ranks[RANKS - 1 - k];
    ROW(nm_world_end(mixed, RANKS), NM_BAD_WORLD);
    for (int k = 0; k < RANKS; k++) mixed[k] = ranks[k];
    mixed[RANKS] = more[0];
    ROW(nm_world_end(mixed, RANKS + 1), NM_BAD_WORLD);
    mixed[1] = more[1];
    ROW(nm_world_end(mixed, RANKS), NM_BAD_WORLD);
    exchange(ranks);
    exchange(more);
    end(ranks, NM_OK);
    end(more, NM_OK);
}

/* A rank was freed: what is left of its world has no end, and none with the rank of another. */
static void freed(void) {
    nm_rank ranks[RANKS], more[RANKS];
    begin(ranks);
    begin(more);
    nm_rank_free(ranks[2]);
    ROW(nm_world_end(ranks, RANKS - 1), NM_BAD_WORLD);
    ranks[2] = more[2];
    ROW(nm_world_end(ranks, RANKS), NM_BAD_WORLD);
    ROW(nm_isend(&ranks[0], 1, 1, 0, 0, (const uint8_t *)"still", 5), NM_OK);
    ROW(nm_irecv(&ranks[1], 1, 0, 0, 0, 5), NM_OK);
    for (int k = 0; k < 1000; k++) nm_progress(&ranks[k % 2]);
    ROW(nm_test(&ranks[1], 1, &status, body, 5), NM_RECEIVED);
    end(more, NM_OK);
    nm_rank_free(ranks[0]);
    nm_rank_free(ranks[1]);
}

int main(void) {
    at_rest();
    waits();
    under_way();
    others();
    freed();
    printf("%d wrong\n", wrong);
    return wrong != 0;
}
