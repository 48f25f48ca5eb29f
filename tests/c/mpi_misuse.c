/* mpi_misuse.c: what a caller of nemesis_mpi.h can get wrong, row by row, in each rank at once, and what is answered.
 * After all rows each rank still gets what the others sent. */
#include "nemesis_mpi.h"
#include <stdio.h>
#include <string.h>

enum { MOST_TAG = 32767 };

/* What a rank counts, and what it hands to calls. */
struct tried {
    int rank, ranks, rows, wrong;
    char body[8];
    MPI_Request request;
    MPI_Message message;
    MPI_Status status;
    MPI_Comm comm;
};

static void row(struct tried *it, const char *call, int error, int due) {
    it->rows++;
    if (error == due) return;
    it->wrong++;
    printf("rank %d: %s: %d, not %d\n", it->rank, call, error, due);
}
#define ROW(call, due) row(it, #call, call, due)

static void sends(struct tried *it) {
    ROW(MPI_Send(NULL, 8, MPI_BYTE, 0, 1, it->comm), MPI_ERR_BUFFER);
    ROW(MPI_Send(it->body, -1, MPI_BYTE, 0, 1, it->comm), MPI_ERR_COUNT);
    ROW(MPI_Send(it->body, 8, MPI_DATATYPE_NULL, 0, 1, it->comm), MPI_ERR_TYPE);
    ROW(MPI_Send(it->body, 8, MPI_BYTE, it->ranks, 1, it->comm), MPI_ERR_RANK);
    ROW(MPI_Send(it->body, 8, MPI_BYTE, MPI_ANY_SOURCE, 1, it->comm), MPI_ERR_RANK);
    ROW(MPI_Send(it->body, 8, MPI_BYTE, 0, MOST_TAG + 1, it->comm), MPI_ERR_TAG);
    ROW(MPI_Send(it->body, 8, MPI_BYTE, 0, MPI_ANY_TAG, it->comm), MPI_ERR_TAG);
    ROW(MPI_Send(it->body, 8, MPI_BYTE, 0, 1, MPI_COMM_NULL), MPI_ERR_COMM);
    ROW(MPI_Bsend(it->body, 8, MPI_BYTE, 0, 1, it->comm), MPI_ERR_BUFFER);
    ROW(MPI_Isend(it->body, 8, MPI_BYTE, -7, 1, it->comm, &it->request), MPI_ERR_RANK);
    ROW(it->request != MPI_REQUEST_NULL, 0);
    ROW(MPI_Send(NULL, 0, MPI_BYTE, MPI_PROC_NULL, 1, it->comm), MPI_SUCCESS);
}

static void receives(struct tried *it) {
    ROW(MPI_Recv(NULL, 8, MPI_BYTE, 0, 1, it->comm, &it->status), MPI_ERR_BUFFER);
    ROW(MPI_Recv(it->body, 8, MPI_BYTE, it->ranks, 1, it->comm, &it->status), MPI_ERR_RANK);
    ROW(MPI_Irecv(it->body, 8, MPI_BYTE, 0, MOST_TAG + 1, it->comm, &it->request), MPI_ERR_TAG);
    ROW(MPI_Probe(it->ranks, 1, it->comm, &it->status), MPI_ERR_RANK);
    ROW(MPI_Mrecv(it->body, 8, MPI_BYTE, &it->message, &it->status), MPI_ERR_REQUEST);
}

static void others(struct tried *it) {
    MPI_Datatype named = MPI_INT, made;
    MPI_Comm world = MPI_COMM_WORLD;
    ROW(MPI_Start(&it->request), MPI_ERR_REQUEST);
    ROW(MPI_Cancel(&it->request), MPI_ERR_REQUEST);
    ROW(MPI_Request_free(&it->request), MPI_ERR_REQUEST);
    ROW(MPI_Wait(&it->request, &it->status), MPI_SUCCESS);
    ROW(MPI_Type_free(&named), MPI_ERR_TYPE);
    ROW(MPI_Type_vector(-1, 1, 2, MPI_INT, &made), MPI_ERR_COUNT);
    ROW(MPI_Type_vector(3, 1, 2, MPI_DATATYPE_NULL, &made), MPI_ERR_TYPE);
    ROW(MPI_Type_vector(3, 1, 2, MPI_INT, &made), MPI_SUCCESS);
    ROW(MPI_Send(NULL, 1, made, 0, 1, it->comm), MPI_ERR_BUFFER);
    ROW(MPI_Type_free(&made), MPI_SUCCESS);
    ROW(MPI_Type_free(&made), MPI_ERR_TYPE);
    ROW(MPI_Comm_free(&world), MPI_ERR_COMM);
    ROW(MPI_Bcast(it->body, 8, MPI_BYTE, it->ranks, it->comm), MPI_ERR_ROOT);
    ROW(MPI_Barrier(MPI_COMM_NULL), MPI_ERR_COMM);
}

/* A message of each rank to the next; a receive that is too short says so, and the one after it gets its own. */
static void exchange(struct tried *it) {
    int next = (it->rank + 1) % it->ranks, before = (it->rank + it->ranks - 1) % it->ranks;
    char got[8] = "";
    MPI_Request sent[2];
    MPI_Isend("too long", 8, MPI_CHAR, next, 2, it->comm, &sent[0]);
    MPI_Isend("right", 6, MPI_CHAR, next, 2, it->comm, &sent[1]);
    ROW(MPI_Recv(got, 4, MPI_CHAR, before, 2, it->comm, &it->status), MPI_ERR_TRUNCATE);
    ROW(MPI_Recv(got, 8, MPI_CHAR, before, 2, it->comm, &it->status), MPI_SUCCESS);
    ROW(strcmp(got, "right"), 0);
    ROW(MPI_Waitall(2, sent, MPI_STATUSES_IGNORE), MPI_SUCCESS);
}

int main(int count, char **words) {
    struct tried all = {.request = MPI_REQUEST_NULL, .message = MPI_MESSAGE_NULL}, *it = &all;
    int sum[2] = {0, 0}, other[2];
    MPI_Init(&count, &words);
    MPI_Comm_rank(MPI_COMM_WORLD, &it->rank);
    MPI_Comm_size(MPI_COMM_WORLD, &it->ranks);
    MPI_Comm_set_errhandler(MPI_COMM_WORLD, MPI_ERRORS_RETURN);
    MPI_Comm_dup(MPI_COMM_WORLD, &it->comm);
    sends(it);
    receives(it);
    others(it);
    exchange(it);
    sum[0] = it->rows;
    sum[1] = it->wrong;
    if (it->rank > 0) MPI_Send(sum, 2, MPI_INT, 0, 3, it->comm);
    for (int rank = 1; it->rank == 0 && rank < it->ranks; rank++) {
        MPI_Recv(other, 2, MPI_INT, rank, 3, it->comm, MPI_STATUS_IGNORE);
        sum[0] += other[0];
        sum[1] += other[1];
    }
    if (it->rank == 0) printf("%d rows in %d ranks, %d wrong\n", sum[0], it->ranks, sum[1]);
    MPI_Comm_free(&it->comm);
    MPI_Finalize();
    return it->wrong != 0;
}
