/* nemesis_mpi.c: what ../include/nemesis_mpi.h declares, as one file to compile. Not proved. */
#define _GNU_SOURCE
#include "mpi/parts.h"

#include "mpi/communicators.c"
#include "mpi/layouts.c"
#include "mpi/types.c"

#include "mpi/requests.c"
#include "mpi/probes.c"

#include "mpi/ends.c"
#include "mpi/calls.c"
#include "mpi/ranks.c"
