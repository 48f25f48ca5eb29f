/* A receive that is too short for a message of its rank to itself: mpiexec -n 1 cut_itself. MPI 3.1, 3.2.4, has an error.
 * Open MPI 4.1.4, where the receive is posted first: error 0, count 8. MPICH 4.0.2: an error. */
#include <mpi.h>
#include <stdio.h>

int main(int count, char **words)
{
    MPI_Request send, receive;
    MPI_Status status;
    char sent[100] = {1}, received[100] = {0};
    int bytes, error;
    MPI_Init(&count, &words);
    MPI_Comm_set_errhandler(MPI_COMM_WORLD, MPI_ERRORS_RETURN);
    MPI_Irecv(received, 8, MPI_BYTE, 0, 5, MPI_COMM_WORLD, &receive);
    MPI_Isend(sent, 100, MPI_BYTE, 0, 5, MPI_COMM_WORLD, &send);
    error = MPI_Wait(&receive, &status);
    MPI_Get_count(&status, MPI_BYTE, &bytes);
    printf("error %d, count %d\n", error, bytes);
    MPI_Wait(&send, MPI_STATUS_IGNORE);
    MPI_Finalize();
    return 0;
}
