/* mpi.h: for programs that ask for it by this name. */
#include "../nemesis_mpi.h"
