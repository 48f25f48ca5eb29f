/* long_messages.c: messages about as long as the core takes, and longer, which nemesis_mpi.c sends in parts: each rank
 * sends all lengths to itself and to the next, and they are received in six ways. Each byte and order is checked. */
#include "nemesis_mpi.h"
#include <stdio.h>
#include <stdlib.h>
#include <string.h>

enum { MOST = 1 << 20, LENGTHS = 6, LONGEST = 2 * MOST - 1 };
static const int lengths[LENGTHS] = {0, 1, 5000, MOST - 1, MOST, LONGEST};

/* What a rank keeps. Its buffer has room for one message. */
struct rank {
    int me, count, faults;
    unsigned char *out[LENGTHS], *in;
    MPI_Comm comm;
};

static unsigned char byte_of(int from, int to, int which, int at) {
    return (unsigned char)(from * 31 + to * 17 + which * 7 + at * 13 + at / 257);
}

static void fill(unsigned char *at, int from, int to, int which) {
    for (int k = 0; k < lengths[which]; k++) at[k] = byte_of(from, to, which, k);
}

static void fault(struct rank *it, const char *what, int a, int b) {
    if (it->faults++ < 5) printf("rank %d: %s: %d %d\n", it->me, what, a, b);
}

/* The message that is in the buffer. */
static void check(struct rank *it, const MPI_Status *status, int which) {
    int length, k = 0;
    MPI_Get_count(status, MPI_BYTE, &length);
    if (length != lengths[which]) fault(it, "length", length, lengths[which]);
    while (k < length && it->in[k] == byte_of(status->MPI_SOURCE, it->me, which, k)) k++;
    if (k != length) fault(it, "byte", which, k);
}

/* Starts all sends to a rank, of one length after another; the tag is the length's number. */
static void send_all(struct rank *it, int to, MPI_Request *requests) {
    for (int which = 0; which < LENGTHS; which++) {
        fill(it->out[which], it->me, to, which);
        MPI_Isend(it->out[which], lengths[which], MPI_BYTE, to, which, it->comm, &requests[which]);
    }
}

static void by_name(struct rank *it, int from) {
    MPI_Status status;
    for (int which = LENGTHS - 1; which >= 0; which--) {
        MPI_Recv(it->in, LONGEST, MPI_BYTE, from, which, it->comm, &status);
        check(it, &status, which);
    }
}

static void in_turn(struct rank *it, int from) {
    MPI_Status status;
    for (int which = 0; which < LENGTHS; which++) {
        MPI_Recv(it->in, LONGEST, MPI_BYTE, from, MPI_ANY_TAG, it->comm, &status);
        if (status.MPI_TAG != which) fault(it, "tag", status.MPI_TAG, which);
        check(it, &status, status.MPI_TAG);
    }
}

static void probed(struct rank *it, int from) {
    MPI_Status seen, status;
    int length;
    for (int which = 0; which < LENGTHS; which++) {
        MPI_Probe(from, MPI_ANY_TAG, it->comm, &seen);
        MPI_Get_count(&seen, MPI_BYTE, &length);
        if (length != lengths[which]) fault(it, "probed length", length, which);
        MPI_Recv(it->in, length, MPI_BYTE, seen.MPI_SOURCE, seen.MPI_TAG, it->comm, &status);
        check(it, &status, which);
    }
}

/* A probe of the last message first: what was sent before it keeps its order. */
static void last_probed(struct rank *it, int from) {
    MPI_Status seen;
    int length, flag = 0;
    while (!flag) MPI_Iprobe(from, LENGTHS - 1, it->comm, &flag, &seen);
    MPI_Get_count(&seen, MPI_BYTE, &length);
    if (length != LONGEST) fault(it, "probed length", length, LONGEST);
    in_turn(it, from);
}

static void claimed(struct rank *it, int from) {
    MPI_Message messages[LENGTHS];
    MPI_Status seen, status;
    for (int which = LENGTHS - 1; which >= 0; which--) MPI_Mprobe(from, which, it->comm, &messages[which], &seen);
    for (int which = 0; which < LENGTHS; which++) {
        MPI_Mrecv(it->in, LONGEST, MPI_BYTE, &messages[which], &status);
        if (messages[which] != MPI_MESSAGE_NULL) fault(it, "message", which, 0);
        check(it, &status, which);
    }
}

/* Of each message at most ten bytes. */
static void cut(struct rank *it, int from) {
    MPI_Status status;
    memset(it->in, 0, 20);
    for (int which = 0; which < LENGTHS; which++) {
        int error = MPI_Recv(it->in, 10, MPI_BYTE, from, which, it->comm, &status);
        if (error != (lengths[which] > 10 ? MPI_ERR_TRUNCATE : MPI_SUCCESS)) fault(it, "cut", which, error);
        if (it->in[10]) fault(it, "written past the end", which, it->in[10]);
    }
}

/* Each rank sends all lengths to itself, then to the next one. */
static void exchange(struct rank *it, void (*receive)(struct rank *, int)) {
    MPI_Request requests[LENGTHS];
    for (int far = 0; far < 2; far++) {
        send_all(it, (it->me + far) % it->count, requests);
        receive(it, (it->me + it->count - far) % it->count);
        MPI_Waitall(LENGTHS, requests, MPI_STATUSES_IGNORE);
    }
}

static void replaced(struct rank *it) {
    int to = (it->me + 1) % it->count, from = (it->me + it->count - 1) % it->count;
    MPI_Status status;
    fill(it->in, it->me, to, LENGTHS - 1);
    MPI_Sendrecv_replace(it->in, LONGEST, MPI_BYTE, to, 1, from, 1, it->comm, &status);
    check(it, &status, LENGTHS - 1);
}

int main(int count, char **words) {
    void (*ways[])(struct rank *, int) = {by_name, in_turn, probed, last_probed, claimed, cut};
    struct rank it = {0};
    MPI_Init(&count, &words);
    MPI_Comm_dup(MPI_COMM_WORLD, &it.comm);
    MPI_Comm_set_errhandler(it.comm, MPI_ERRORS_RETURN);
    MPI_Comm_rank(it.comm, &it.me);
    MPI_Comm_size(it.comm, &it.count);
    for (int which = 0; which < LENGTHS; which++) it.out[which] = malloc((size_t)lengths[which] + 1);
    it.in = malloc(LONGEST);
    for (size_t k = 0; k < sizeof ways / sizeof *ways; k++) exchange(&it, ways[k]);
    replaced(&it);
    for (int which = 0; which < LENGTHS; which++) free(it.out[which]);
    free(it.in);
    MPI_Barrier(it.comm);
    MPI_Comm_free(&it.comm);
    if (it.me == 0) puts("all is as it was sent");
    MPI_Finalize();
    return it.faults != 0;
}
