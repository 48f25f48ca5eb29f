/* dtpoolsconf.h: what MPICH's pools of types ask for beside MPI's types: calls under their names of MPI 1, and pairs of
 * numbers, of which no test makes a pool. */
#define MPI_Type_hvector MPI_Type_create_hvector
#define MPI_Type_hindexed MPI_Type_create_hindexed
#define MPI_FLOAT_INT MPI_DATATYPE_NULL
#define MPI_DOUBLE_INT MPI_DATATYPE_NULL
#define MPI_LONG_INT MPI_DATATYPE_NULL
#define MPI_2INT MPI_DATATYPE_NULL
#define MPI_SHORT_INT MPI_DATATYPE_NULL
#define MPI_LONG_DOUBLE_INT MPI_DATATYPE_NULL
