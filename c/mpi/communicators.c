/* communicators.c: communicators, whose messages have contexts of their own; errors; a barrier and a broadcast. */
#include "parts.h"
#include <stdio.h>
#include <string.h>

struct nemesis_comm nemesis_comms[COMMUNICATORS];

/* What a rank knows of a communicator; nothing, if there is none such. */
static struct communicator *known(MPI_Comm comm) {
    ptrdiff_t place = comm - nemesis_comms;
    if (!comm || place < 0 || place >= COMMUNICATORS || !me->comms[place].is_used) return NULL;
    return &me->comms[place];
}

static uint32_t context_of(MPI_Comm comm) { return 2 * (uint32_t)(comm - nemesis_comms); }

static int error_of(nm_code code) {
    switch (code) {
    case NM_OK: return MPI_SUCCESS;
    case NM_MEMORY: return MPI_ERR_NO_MEM;
    case NM_BAD_RANK: return MPI_ERR_RANK;
    case NM_BAD_TAG: return MPI_ERR_TAG;
    case NM_BAD_LENGTH: return MPI_ERR_COUNT;
    case NM_NO_SUCH: return MPI_ERR_REQUEST;
    case NM_FAILED:
    case NM_CLOSED:
    case NM_WORN: return MPI_ERR_OTHER;
    default: return MPI_ERR_INTERN;
    }
}

static const char *const texts[] = {
    [MPI_SUCCESS] = "no error",
    [MPI_ERR_BUFFER] = "no buffer, or no room in it",
    [MPI_ERR_COUNT] = "a count is out of range",
    [MPI_ERR_TYPE] = "no such type",
    [MPI_ERR_TAG] = "a tag is out of range",
    [MPI_ERR_COMM] = "no such communicator",
    [MPI_ERR_RANK] = "no such rank",
    [MPI_ERR_REQUEST] = "no such request",
    [MPI_ERR_ARG] = "an argument is out of range",
    [MPI_ERR_TRUNCATE] = "the message is longer than the receive",
    [MPI_ERR_OTHER] = "the rank has failed, is over or is worn",
    [MPI_ERR_INTERN] = "a mistake in nemesis_mpi",
    [MPI_ERR_IN_STATUS] = "an error is in a status",
    [MPI_ERR_PENDING] = "not complete",
    [MPI_ERR_NO_MEM] = "memory, names or contexts were refused",
    [MPI_ERR_ROOT] = "no such root",
    [MPI_ERR_GROUP] = "no such group",
    [MPI_ERR_OP] = "no such operation",
    [MPI_ERR_TOPOLOGY] = "no such topology",
    [MPI_ERR_DIMS] = "dimensions are out of range",
    [MPI_ERR_UNKNOWN] = "an unknown error",
};

int MPI_Error_class(int error, int *class_of) {
    *class_of = error;
    return MPI_SUCCESS;
}

int MPI_Error_string(int error, char *text, int *length) {
    if (error < 0 || error > MPI_ERR_LASTCODE) return MPI_ERR_ARG;
    *length = snprintf(text, MPI_MAX_ERROR_STRING, "%s", texts[error]);
    return MPI_SUCCESS;
}

/* What a call answers: its error, or none; an error of which the communicator's handler says so ends all (8.3). */
static int raised(MPI_Comm comm, int error, const char *call) {
    if (!error) return MPI_SUCCESS;
    struct communicator *of = known(comm);
    if (!of) of = known(MPI_COMM_WORLD);
    if (of->handler == MPI_ERRORS_RETURN) return error;
    fprintf(stderr, "nemesis_mpi: rank %d: %s: %s\n", me->number, call, texts[error]);
    stop(error);
}

int MPI_Comm_rank(MPI_Comm comm, int *rank) {
    struct communicator *of = known(comm);
    if (!of) return raised(comm, MPI_ERR_COMM, __func__);
    *rank = of->is_self ? 0 : me->number;
    return MPI_SUCCESS;
}

int MPI_Comm_size(MPI_Comm comm, int *size) {
    struct communicator *of = known(comm);
    if (!of) return raised(comm, MPI_ERR_COMM, __func__);
    *size = of->is_self ? 1 : me->count;
    return MPI_SUCCESS;
}

int MPI_Comm_set_errhandler(MPI_Comm comm, MPI_Errhandler handler) {
    struct communicator *of = known(comm);
    if (!of) return raised(comm, MPI_ERR_COMM, __func__);
    of->handler = handler;
    return MPI_SUCCESS;
}

int MPI_Comm_get_errhandler(MPI_Comm comm, MPI_Errhandler *handler) {
    struct communicator *of = known(comm);
    if (!of) return raised(comm, MPI_ERR_COMM, __func__);
    *handler = of->handler;
    return MPI_SUCCESS;
}

int MPI_Comm_get_attr(MPI_Comm comm, int key, void *value, int *flag) {
    static const int greatest_tag = NM_MAX_TAG;
    if (!known(comm)) return raised(comm, MPI_ERR_COMM, __func__);
    *flag = key == MPI_TAG_UB;
    if (*flag) *(const int **)value = &greatest_tag;
    return MPI_SUCCESS;
}

/* Tags of the messages of its own that a communicator has. */
enum { BARRIER, MASK = 64, AGREED, BROADCAST };

/* What a message has. */
struct body {
    void *at;
    int count;
    MPI_Datatype type;
};
static const struct body empty = {NULL, 0, MPI_BYTE};

/* A message among the communicator's own. */
static int pass(enum mode mode, const struct body *of, int peer, int tag, MPI_Comm comm, struct nemesis_request *it) {
    int error = prepare(it, mode, of->at, of->count, of->type, peer, tag, comm);
    if (error) return error;
    it->context++;
    return start(it);
}

static int passed(enum mode mode, const struct body *of, int peer, int tag, MPI_Comm comm) {
    struct nemesis_request it;
    int error = pass(mode, of, peer, tag, comm, &it);
    if (error) return error;
    finish(&it);
    return it.error;
}

/* In step k each rank tells the one 2^k after it, and waits for the one 2^k before it. */
int MPI_Barrier(MPI_Comm comm) {
    struct nemesis_request told;
    int rank, size, error = known(comm) ? MPI_SUCCESS : MPI_ERR_COMM;
    if (error) return raised(comm, error, __func__);
    MPI_Comm_rank(comm, &rank);
    MPI_Comm_size(comm, &size);
    for (int step = 0, far = 1; far < size && !error; step++, far *= 2) {
        error = pass(STANDARD, &empty, (rank + far) % size, BARRIER + step, comm, &told);
        if (!error) error = passed(RECEIVE, &empty, (rank + size - far) % size, BARRIER + step, comm);
        if (!error) finish(&told);
    }
    return raised(comm, error, __func__);
}

/* Sends to the ranks that are 2^k behind, by the numbers from the root on, for each 2^k below `far`. */
static int spread(const struct body *of, int number, int far, int root, int size, MPI_Comm comm) {
    int error = MPI_SUCCESS;
    for (far /= 2; far > 0 && !error; far /= 2)
        if (number + far < size) error = passed(STANDARD, of, (number + far + root) % size, BROADCAST, comm);
    return error;
}

/* By the numbers from the root on: each rank has it from the one that lacks its number's last 1. */
int MPI_Bcast(void *at, int count, MPI_Datatype type, int root, MPI_Comm comm) {
    struct body of = {at, count, type};
    int rank, size, far = 1, error = known(comm) ? MPI_SUCCESS : MPI_ERR_COMM;
    if (error) return raised(comm, error, __func__);
    MPI_Comm_rank(comm, &rank);
    MPI_Comm_size(comm, &size);
    if (root < 0 || root >= size) return raised(comm, MPI_ERR_ROOT, __func__);
    int number = (rank + size - root) % size;
    while (far < size && !(number & far)) far *= 2;
    if (number) error = passed(RECEIVE, &of, (number - far + root) % size, BROADCAST, comm);
    if (!error) error = spread(&of, number, far, root, size, comm);
    return raised(comm, error, __func__);
}

/* The places of communicators that are free in all ranks: each rank tells rank 0 its own, which tells all. */
struct free_places {
    bool is_free[COMMUNICATORS];
};

static int gather(struct free_places *all, int size, MPI_Comm comm) {
    struct free_places its;
    int error = MPI_SUCCESS;
    for (int rank = 1; rank < size && !error; rank++) {
        error = passed(RECEIVE, &(struct body){&its, sizeof its, MPI_BYTE}, rank, MASK, comm);
        for (int k = 0; k < COMMUNICATORS; k++) all->is_free[k] &= its.is_free[k];
    }
    for (int rank = 1; rank < size && !error; rank++)
        error = passed(STANDARD, &(struct body){all, sizeof *all, MPI_BYTE}, rank, AGREED, comm);
    return error;
}

static int agree(struct free_places *all, MPI_Comm comm) {
    struct body own = {all, sizeof *all, MPI_BYTE};
    int rank, size;
    MPI_Comm_rank(comm, &rank);
    MPI_Comm_size(comm, &size);
    for (int k = 0; k < COMMUNICATORS; k++) all->is_free[k] = !me->comms[k].is_used;
    if (!rank) return gather(all, size, comm);
    int error = passed(STANDARD, &own, 0, MASK, comm);
    return error ? error : passed(RECEIVE, &own, 0, AGREED, comm);
}

/* All its ranks take the same place, so the same context (6.4.2). */
int MPI_Comm_dup(MPI_Comm comm, MPI_Comm *made) {
    struct free_places all;
    int place = 0, error = known(comm) ? agree(&all, comm) : MPI_ERR_COMM;
    *made = MPI_COMM_NULL;
    if (error) return raised(comm, error, __func__);
    while (place < COMMUNICATORS && !all.is_free[place]) place++;
    if (place == COMMUNICATORS) return raised(comm, MPI_ERR_NO_MEM, __func__);
    me->comms[place] = *known(comm);
    *made = &nemesis_comms[place];
    return MPI_SUCCESS;
}

int MPI_Comm_free(MPI_Comm *comm) {
    struct communicator *of = known(*comm);
    if (!of || *comm == MPI_COMM_WORLD || *comm == MPI_COMM_SELF) return raised(*comm, MPI_ERR_COMM, __func__);
    of->is_used = false;
    *comm = MPI_COMM_NULL;
    return MPI_SUCCESS;
}
