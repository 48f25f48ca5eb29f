/* mpitest.h: what MPICH's test programs ask of their own helpers, for those that `.ci/mpitests` runs. */
#ifndef MPITEST_H
#define MPITEST_H

#include "mpitestconf.h"
#include <mpi.h>
#include <stdarg.h>
#include <stdbool.h>
#include <stdio.h>
#include <stdlib.h>
#include <string.h>
#include <unistd.h>

#define MTEST_HAVE_MIN_MPI_VERSION(major, minor) \
    (MPI_VERSION > (major) || (MPI_VERSION == (major) && MPI_SUBVERSION >= (minor)))
#define MTEST_VG_MEM_INIT(at, size) memset(at, 0, size)

/* Fortran's handles (17.2.4): one program asks whether there are such calls. There are none but these. */
typedef int MPI_Fint;
static inline MPI_Fint MPI_Message_c2f(MPI_Message it) { return it != MPI_MESSAGE_NULL; }
static inline MPI_Message MPI_Message_f2c(MPI_Fint it) { return it ? MPI_MESSAGE_NO_PROC : MPI_MESSAGE_NULL; }
#define PMPI_Message_c2f MPI_Message_c2f
#define PMPI_Message_f2c MPI_Message_f2c

static inline void MTest_Init(int *count, char ***words) { MPI_Init(count, words); }

/* Each rank says how many errors it found; the first one says so of none, as the runner of these tests awaits. */
static inline void MTest_Finalize(int errors) {
    int rank;
    MPI_Comm_rank(MPI_COMM_WORLD, &rank);
    if (errors) printf(" Found %d errors in rank %d\n", errors, rank);
    MPI_Barrier(MPI_COMM_WORLD);
    if (!errors && rank == 0) puts(" No Errors");
    MPI_Finalize();
}

static inline int MTestReturnValue(int errors) { return errors ? 1 : 0; }

static inline void MTestPrintErrorMsg(const char *text, int error) {
    char cause[MPI_MAX_ERROR_STRING];
    int length;
    MPI_Error_string(error, cause, &length);
    printf("%s: %s\n", text, cause);
}

static inline void MTestPrintError(int error) { MTestPrintErrorMsg("error", error); }

static inline void MTestPrintfMsg(int level, const char *format, ...) { (void)level, (void)format; }

static inline void MTestError(const char *text) {
    puts(text);
    MPI_Abort(MPI_COMM_WORLD, 1);
}

static inline void MTestSleep(int seconds) { sleep((unsigned)seconds); }

/* The world, a duplicate of it, and the rank alone where one is enough; then no more. */
static inline int MTestGetIntracommGeneral(MPI_Comm *comm, int least, bool smaller) {
    static int next;
    (void)smaller;
    *comm = next == 0 ? MPI_COMM_WORLD : MPI_COMM_SELF;
    if (next == 1) MPI_Comm_dup(MPI_COMM_WORLD, comm);
    if (next < (least <= 1 ? 3 : 2)) return ++next;
    *comm = MPI_COMM_NULL;
    return next = 0;
}

static inline int MTestGetIntracomm(MPI_Comm *comm, int least) { return MTestGetIntracommGeneral(comm, least, false); }

#ifdef MTEST_OF_MPICH
#include "mtest_common.h"
int MTestIsBasicDtype(MPI_Datatype type);

/* Whether a type has a name (4.1.13), of which alone MPICH's helpers ask. */
enum { MPI_COMBINER_NAMED, OTHER_COMBINER };
static inline int MPI_Type_get_envelope(MPI_Datatype type, int *numbers, int *places, int *types, int *combiner) {
    *numbers = *places = *types = 0;
    *combiner = type->users ? OTHER_COMBINER : MPI_COMBINER_NAMED;
    return MPI_SUCCESS;
}

/* How much of a status is not as it should be. */
static inline int MTestCheckStatus(MPI_Status *status, MPI_Datatype type, int count, int from, int tag, bool says) {
    int got;
    (void)says;
    MPI_Get_count(status, type, &got);
    return (MTestIsBasicDtype(type) && got != count) + (from != MPI_ANY_SOURCE && status->MPI_SOURCE != from) +
           (tag != MPI_ANY_TAG && status->MPI_TAG != tag);
}
#endif

static inline void MTestFreeComm(MPI_Comm *comm) {
    if (*comm != MPI_COMM_WORLD && *comm != MPI_COMM_SELF && *comm != MPI_COMM_NULL) MPI_Comm_free(comm);
}

#endif
