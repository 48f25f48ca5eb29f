/* Each kind of call that is written down; four ranks. */
#include <mpi.h>

enum { RANKS = 4 };

static int rank;

static void persistent(void)
{
    int out = rank, in;
    MPI_Request both[2];
    MPI_Status statuses[2];
    MPI_Send_init(&out, 1, MPI_INT, (rank + 1) % RANKS, 1, MPI_COMM_WORLD, &both[0]);
    MPI_Recv_init(&in, 1, MPI_INT, (rank + RANKS - 1) % RANKS, 1, MPI_COMM_WORLD, &both[1]);
    for (int i = 0; i < 2; i++) {
        MPI_Startall(2, both);
        MPI_Waitall(2, both, statuses);
    }
    MPI_Request_free(&both[0]);
    MPI_Request_free(&both[1]);
}

static void polls(void)
{
    int seen = 0, body = 0, place;
    MPI_Request request[2];
    if (rank == 0) {
        while (!seen) MPI_Iprobe(1, MPI_ANY_TAG, MPI_COMM_WORLD, &seen, MPI_STATUS_IGNORE);
        MPI_Irecv(&body, 1, MPI_INT, MPI_ANY_SOURCE, 2, MPI_COMM_WORLD, &request[0]);
        for (seen = 0; !seen;) MPI_Test(&request[0], &seen, MPI_STATUS_IGNORE);
    } else if (rank == 1) {
        MPI_Issend(&body, 1, MPI_INT, 0, 2, MPI_COMM_WORLD, &request[0]);
        request[1] = MPI_REQUEST_NULL;
        MPI_Waitany(2, request, &place, MPI_STATUS_IGNORE);
    }
}

static void matched(void)
{
    int body[3] = {0};
    MPI_Message message;
    MPI_Request request;
    if (rank == 2) MPI_Ssend(body, 3, MPI_INT, 3, 4, MPI_COMM_WORLD);
    if (rank == 2) MPI_Send(body, 3, MPI_INT, 3, 4, MPI_COMM_WORLD);
    if (rank != 3) return;
    MPI_Mprobe(2, 4, MPI_COMM_WORLD, &message, MPI_STATUS_IGNORE);
    MPI_Mrecv(body, 3, MPI_INT, &message, MPI_STATUS_IGNORE);
    MPI_Mprobe(2, MPI_ANY_TAG, MPI_COMM_WORLD, &message, MPI_STATUS_IGNORE);
    MPI_Imrecv(body, 3, MPI_INT, &message, &request);
    MPI_Wait(&request, MPI_STATUS_IGNORE);
}

static void groups(void)
{
    int body = rank, sum;
    MPI_Comm half;
    MPI_Comm_split(MPI_COMM_WORLD, rank % 2, rank, &half);
    if (rank < 2) MPI_Send(&body, 1, MPI_INT, 1, 5, half);
    else MPI_Recv(&body, 1, MPI_INT, MPI_ANY_SOURCE, MPI_ANY_TAG, half, MPI_STATUS_IGNORE);
    MPI_Reduce(&body, &sum, 1, MPI_INT, MPI_SUM, 0, half);
    MPI_Comm_free(&half);
}

static void others(void)
{
    int out = rank, in = 0;
    MPI_Request request;
    MPI_Sendrecv(&out, 1, MPI_INT, rank ^ 1, 6, &in, 1, MPI_INT, rank ^ 1, 6, MPI_COMM_WORLD, MPI_STATUS_IGNORE);
    MPI_Send(&out, 1, MPI_INT, MPI_PROC_NULL, 6, MPI_COMM_WORLD);
    MPI_Irecv(&in, 1, MPI_INT, rank, 40000, MPI_COMM_WORLD, &request);
    MPI_Cancel(&request);
    MPI_Wait(&request, MPI_STATUS_IGNORE);
}

int main(int count, char **words)
{
    MPI_Init(&count, &words);
    MPI_Comm_rank(MPI_COMM_WORLD, &rank);
    persistent();
    polls();
    matched();
    groups();
    others();
    MPI_Bcast(&rank, 1, MPI_INT, 0, MPI_COMM_WORLD);
    MPI_Finalize();
    return 0;
}
