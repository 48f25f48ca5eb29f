/* farm.c: a master hands out tasks to whichever worker is done, by receives from any rank (MPI 3.1, 3.2.4).
 *
 *     cc -Iinclude examples/c/farm.c c/nemesis_mpi.c libnemesis.a -pthread -Wl,--wrap=main -o farm
 *     NEMESIS_RANKS=4 ./farm
 */
#include "nemesis_mpi.h"
#include <stdio.h>

enum { TASKS = 1000, LAST = -1, TASK = 1, RESULT = 2 };

/* How many steps the number takes to 1: halved if it is even, else three times it and one. */
static int steps(long number) {
    int count = 0;
    for (; number > 1; count++) number = number % 2 ? 3 * number + 1 : number / 2;
    return count;
}

static void work(void) {
    int task, result = 0;
    MPI_Status status;
    for (;;) {
        MPI_Send(&result, 1, MPI_INT, 0, RESULT, MPI_COMM_WORLD);
        MPI_Recv(&task, 1, MPI_INT, 0, TASK, MPI_COMM_WORLD, &status);
        if (task == LAST) return;
        result = steps(task);
    }
}

/* Each worker's first message is of no task, and tells 0. */
static void manage(int workers) {
    int result, last = LAST, task = 1;
    long sum = 0;
    MPI_Status status;
    for (int busy = workers; busy > 0;) {
        MPI_Recv(&result, 1, MPI_INT, MPI_ANY_SOURCE, RESULT, MPI_COMM_WORLD, &status);
        sum += result;
        MPI_Send(task <= TASKS ? &task : &last, 1, MPI_INT, status.MPI_SOURCE, TASK, MPI_COMM_WORLD);
        if (task <= TASKS)
            task++;
        else
            busy--;
    }
    printf("%d tasks, %ld steps\n", TASKS, sum);
}

int main(int count, char **words) {
    int rank, ranks;
    MPI_Init(&count, &words);
    MPI_Comm_rank(MPI_COMM_WORLD, &rank);
    MPI_Comm_size(MPI_COMM_WORLD, &ranks);
    if (rank == 0)
        manage(ranks - 1);
    else
        work();
    return MPI_Finalize();
}
