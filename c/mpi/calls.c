/* calls.c: the calls that start a send or a receive, and those that wait for its end. */
#include "parts.h"

/* Starts a request and gives it to the caller. */
static int begin(enum mode mode, const void *at, int count, MPI_Datatype type, int peer, int tag, MPI_Comm comm,
                 MPI_Request *made, const char *call) {
    struct nemesis_request *it = new_request();
    *made = MPI_REQUEST_NULL;
    if (!it) return raised(comm, MPI_ERR_NO_MEM, call);
    int error = prepare(it, mode, at, count, type, peer, tag, comm);
    keep_type(it);
    if (!error) error = start(it);
    if (error)
        drop_request(it);
    else
        *made = it;
    return raised(comm, error, call);
}

/* Goes on until the request, which has just been started, has ended, and tells of it. */
static int wait_for(struct nemesis_request *it, int error, MPI_Status *status, const char *call) {
    if (error) return raised(it->comm, error, call);
    turn();
    finish(it);
    tell(status, &it->status);
    return raised(it->comm, it->error, call);
}

static int blocking(enum mode mode, const void *at, int count, MPI_Datatype type, int peer, int tag, MPI_Comm comm,
                    MPI_Status *status, const char *call) {
    struct nemesis_request it;
    int error = prepare(&it, mode, at, count, type, peer, tag, comm);
    if (error) return raised(comm, error, call);
    return wait_for(&it, start(&it), status, call);
}

/* Makes a request that can be started again and again (3.9). */
static int persistent(enum mode mode, const void *at, int count, MPI_Datatype type, int peer, int tag, MPI_Comm comm,
                      MPI_Request *made, const char *call) {
    struct nemesis_request *it = new_request();
    *made = MPI_REQUEST_NULL;
    if (!it) return raised(comm, MPI_ERR_NO_MEM, call);
    int error = prepare(it, mode, at, count, type, peer, tag, comm);
    keep_type(it);
    it->is_persistent = true;
    if (error)
        drop_request(it);
    else
        *made = it;
    return raised(comm, error, call);
}

int MPI_Send(const void *at, int count, MPI_Datatype type, int to, int tag, MPI_Comm comm) {
    return blocking(STANDARD, at, count, type, to, tag, comm, MPI_STATUS_IGNORE, __func__);
}

int MPI_Bsend(const void *at, int count, MPI_Datatype type, int to, int tag, MPI_Comm comm) {
    return blocking(BUFFERED, at, count, type, to, tag, comm, MPI_STATUS_IGNORE, __func__);
}

int MPI_Ssend(const void *at, int count, MPI_Datatype type, int to, int tag, MPI_Comm comm) {
    return blocking(SYNCHRONOUS, at, count, type, to, tag, comm, MPI_STATUS_IGNORE, __func__);
}

int MPI_Rsend(const void *at, int count, MPI_Datatype type, int to, int tag, MPI_Comm comm) {
    return blocking(STANDARD, at, count, type, to, tag, comm, MPI_STATUS_IGNORE, __func__);
}

int MPI_Recv(void *at, int count, MPI_Datatype type, int from, int tag, MPI_Comm comm, MPI_Status *status) {
    return blocking(RECEIVE, at, count, type, from, tag, comm, status, __func__);
}

int MPI_Isend(const void *at, int count, MPI_Datatype type, int to, int tag, MPI_Comm comm, MPI_Request *made) {
    return begin(STANDARD, at, count, type, to, tag, comm, made, __func__);
}

int MPI_Ibsend(const void *at, int count, MPI_Datatype type, int to, int tag, MPI_Comm comm, MPI_Request *made) {
    return begin(BUFFERED, at, count, type, to, tag, comm, made, __func__);
}

int MPI_Issend(const void *at, int count, MPI_Datatype type, int to, int tag, MPI_Comm comm, MPI_Request *made) {
    return begin(SYNCHRONOUS, at, count, type, to, tag, comm, made, __func__);
}

int MPI_Irsend(const void *at, int count, MPI_Datatype type, int to, int tag, MPI_Comm comm, MPI_Request *made) {
    return begin(STANDARD, at, count, type, to, tag, comm, made, __func__);
}

int MPI_Irecv(void *at, int count, MPI_Datatype type, int from, int tag, MPI_Comm comm, MPI_Request *made) {
    return begin(RECEIVE, at, count, type, from, tag, comm, made, __func__);
}

int MPI_Send_init(const void *at, int count, MPI_Datatype type, int to, int tag, MPI_Comm comm, MPI_Request *made) {
    return persistent(STANDARD, at, count, type, to, tag, comm, made, __func__);
}

int MPI_Bsend_init(const void *at, int count, MPI_Datatype type, int to, int tag, MPI_Comm comm, MPI_Request *made) {
    return persistent(BUFFERED, at, count, type, to, tag, comm, made, __func__);
}

int MPI_Ssend_init(const void *at, int count, MPI_Datatype type, int to, int tag, MPI_Comm comm, MPI_Request *made) {
    return persistent(SYNCHRONOUS, at, count, type, to, tag, comm, made, __func__);
}

int MPI_Rsend_init(const void *at, int count, MPI_Datatype type, int to, int tag, MPI_Comm comm, MPI_Request *made) {
    return persistent(STANDARD, at, count, type, to, tag, comm, made, __func__);
}

int MPI_Recv_init(void *at, int count, MPI_Datatype type, int from, int tag, MPI_Comm comm, MPI_Request *made) {
    return persistent(RECEIVE, at, count, type, from, tag, comm, made, __func__);
}

int MPI_Start(MPI_Request *request) {
    struct nemesis_request *it = *request;
    if (!it || !it->is_persistent || it->state != INACTIVE) return raised(MPI_COMM_WORLD, MPI_ERR_REQUEST, __func__);
    return raised(it->comm, start(it), __func__);
}

int MPI_Startall(int count, MPI_Request requests[]) {
    int error = MPI_SUCCESS;
    for (int k = 0; k < count && !error; k++) error = MPI_Start(&requests[k]);
    return error;
}

/* A send and a receive that go on side by side (3.10). The send starts first: so the receive may write over it. */
static int both(struct nemesis_request *out, struct nemesis_request *in, MPI_Status *status, const char *call) {
    int error = start(out);
    if (error) return raised(out->comm, error, call);
    error = start(in);
    finish(out);
    return out->error ? raised(out->comm, out->error, call) : wait_for(in, error, status, call);
}

int MPI_Sendrecv(const void *out, int outs, MPI_Datatype out_type, int to, int out_tag, void *in, int ins,
                 MPI_Datatype in_type, int from, int in_tag, MPI_Comm comm, MPI_Status *status) {
    struct nemesis_request sent, got;
    int error = prepare(&sent, STANDARD, out, outs, out_type, to, out_tag, comm);
    if (!error) error = prepare(&got, RECEIVE, in, ins, in_type, from, in_tag, comm);
    return error ? raised(comm, error, __func__) : both(&sent, &got, status, __func__);
}

/* What is sent is copied by its start. */
int MPI_Sendrecv_replace(void *at, int count, MPI_Datatype type, int to, int out_tag, int from, int in_tag,
                         MPI_Comm comm, MPI_Status *status) {
    struct nemesis_request sent, got;
    int error = prepare(&sent, STANDARD, at, count, type, to, out_tag, comm);
    if (!error) error = prepare(&got, RECEIVE, at, count, type, from, in_tag, comm);
    sent.is_copied = true;
    return error ? raised(comm, error, __func__) : both(&sent, &got, status, __func__);
}

int MPI_Buffer_attach(void *at, int size) {
    if (me->buffer || size < 0) return raised(MPI_COMM_WORLD, MPI_ERR_BUFFER, __func__);
    me->buffer = at;
    me->buffer_size = (size_t)size;
    return MPI_SUCCESS;
}

/* Waits for all buffered sends, and gives the buffer back (3.6.1). */
int MPI_Buffer_detach(void *at, int *size) {
    unsigned idle = 0;
    while (me->buffer_used) rest(&idle, turn());
    *(void **)at = me->buffer;
    *size = (int)me->buffer_size;
    me->buffer = NULL;
    me->buffer_size = 0;
    return MPI_SUCCESS;
}
