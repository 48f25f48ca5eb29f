/* Each of two ranks sends before it receives: what is sent is too long for the library to keep. */
#include <mpi.h>

static char out[1000000], in[1000000];

int main(int count, char **words)
{
    int rank;
    MPI_Init(&count, &words);
    MPI_Comm_rank(MPI_COMM_WORLD, &rank);
    MPI_Barrier(MPI_COMM_WORLD);
    MPI_Send(out, sizeof out, MPI_CHAR, 1 - rank, 7, MPI_COMM_WORLD);
    MPI_Recv(in, sizeof in, MPI_CHAR, 1 - rank, 7, MPI_COMM_WORLD, MPI_STATUS_IGNORE);
    MPI_Finalize();
    return 0;
}
