/* globals.c: what c/mpicc links has global and static variables for each rank. */
#include "nemesis_mpi.h"
#include <stdio.h>

static int mine = -1;
int shown = -1;

static int counted(void) {
    static int calls;
    return ++calls;
}

int main(int count, char **words) {
    int rank, ranks, wrong, sum;
    MPI_Init(&count, &words);
    MPI_Comm_rank(MPI_COMM_WORLD, &rank);
    MPI_Comm_size(MPI_COMM_WORLD, &ranks);
    mine = shown = rank;
    for (int k = 0; k < rank; k++) counted();
    MPI_Barrier(MPI_COMM_WORLD);
    wrong = mine != rank || shown != rank || counted() != rank + 1;
    sum = wrong;
    if (rank > 0) MPI_Send(&wrong, 1, MPI_INT, 0, 1, MPI_COMM_WORLD);
    for (int from = 1; rank == 0 && from < ranks; from++) {
        MPI_Recv(&wrong, 1, MPI_INT, from, 1, MPI_COMM_WORLD, MPI_STATUS_IGNORE);
        sum += wrong;
    }
    MPI_Bcast(&sum, 1, MPI_INT, 0, MPI_COMM_WORLD);
    if (rank == 0) printf("%d ranks, %d with another's variables\n", ranks, sum);
    MPI_Finalize();
    return sum != 0;
}
