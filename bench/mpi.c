/* Two ranks of MPI, as OSU's programs have them: a ping-pong (osu_latency), or windows of 64 messages, each with an
   empty answer (osu_bw, osu_mbw_mr).

     mpi pingpong|window LENGTH TIMES named|any      so many round trips or windows

   Standard output: nanoseconds for each message. Some round trips or windows before them are not counted. All messages
   of a window have one place in memory, as in OSU's. */
#include <mpi.h>
#include <stdio.h>
#include <stdlib.h>
#include <string.h>

enum { WINDOW = 64, TAG = 7, LARGE = 8192 };

struct end {
    int me, from, length;
    char *here, *there;
};

static void send(struct end *it) { MPI_Send(it->here, it->length, MPI_BYTE, 1 - it->me, TAG, MPI_COMM_WORLD); }

static void receive(struct end *it) {
    MPI_Recv(it->there, it->length, MPI_BYTE, it->from, TAG, MPI_COMM_WORLD, MPI_STATUS_IGNORE);
}

static void round_trip(struct end *it) {
    if (it->me == 0) {
        send(it);
        receive(it);
    } else {
        receive(it);
        send(it);
    }
}

static void window(struct end *it) {
    MPI_Request all[WINDOW];
    MPI_Status ends[WINDOW];
    for (int k = 0; k < WINDOW; k++) {
        if (it->me == 0)
            MPI_Isend(it->here, it->length, MPI_BYTE, 1, TAG, MPI_COMM_WORLD, &all[k]);
        else
            MPI_Irecv(it->there, it->length, MPI_BYTE, it->from, TAG, MPI_COMM_WORLD, &all[k]);
    }
    MPI_Waitall(WINDOW, all, ends);
    if (it->me == 0)
        MPI_Recv(it->there, 0, MPI_BYTE, it->from, TAG, MPI_COMM_WORLD, MPI_STATUS_IGNORE);
    else
        MPI_Send(it->here, 0, MPI_BYTE, 0, TAG, MPI_COMM_WORLD);
}

static double seconds(struct end *it, void (*step)(struct end *), int times) {
    MPI_Barrier(MPI_COMM_WORLD);
    double begun = MPI_Wtime();
    for (int k = 0; k < times; k++) step(it);
    return MPI_Wtime() - begun;
}

int main(int count, char **words) {
    MPI_Init(&count, &words);
    struct end it = {0};
    MPI_Comm_rank(MPI_COMM_WORLD, &it.me);
    if (count != 5) return 2;
    int times = atoi(words[3]), windows = !strcmp(words[1], "window");
    it.length = atoi(words[2]);
    it.from = strcmp(words[4], "any") ? 1 - it.me : MPI_ANY_SOURCE;
    it.here = calloc(1, it.length + 1);
    it.there = calloc(1, it.length + 1);
    if (!it.here || !it.there) return 6;
    void (*step)(struct end *) = windows ? window : round_trip;
    seconds(&it, step, it.length > LARGE ? 10 : 100);
    double took = seconds(&it, step, times);
    if (it.me == 0) printf("%.1f\n", took * 1e9 / times / (windows ? WINDOW : 2));
    MPI_Finalize();
    return 0;
}
