/* requests.c: a send or a receive, from its start to its end. */
#include "parts.h"
#include <stdlib.h>
#include <string.h>

static uint8_t nothing[1];

/* Below it nobody has memory: so without memory only a type of addresses has a place (MPI_BOTTOM, 4.1.5). */
enum { LEAST_ADDRESS = 4096 };

static size_t least(size_t a, size_t b) { return a < b ? a : b; }

static bool is_long(size_t length) { return length == HEAD || length > NM_MAX_LENGTH; }

/* What a caller of a send or a receive can get wrong (8.3). */
static int wrong(const struct communicator *of, enum mode mode, int count, MPI_Datatype type, int peer, int tag) {
    if (!of) return MPI_ERR_COMM;
    if (count < 0) return MPI_ERR_COUNT;
    if (!type) return MPI_ERR_TYPE;
    bool is_any = mode == RECEIVE && peer == MPI_ANY_SOURCE;
    if (!is_any && peer != MPI_PROC_NULL && (peer < 0 || peer >= (of->is_self ? 1 : me->count))) return MPI_ERR_RANK;
    if (!(mode == RECEIVE && tag == MPI_ANY_TAG) && (tag < 0 || tag > NM_MAX_TAG)) return MPI_ERR_TAG;
    return MPI_SUCCESS;
}

/* The request of these arguments, not started. A start sets the rest. */
static int prepare(struct nemesis_request *it, enum mode mode, const void *at, int count, MPI_Datatype type, int peer,
                   int tag, MPI_Comm comm) {
    const struct communicator *of = known(comm);
    int error = wrong(of, mode, count, type, peer, tag);
    if (error) return error;
    it->state = INACTIVE;
    it->mode = mode;
    it->is_persistent = it->is_freed = it->is_chore = false;
    it->is_copied = mode == BUFFERED;
    it->is_self = of->is_self;
    it->is_null = peer == MPI_PROC_NULL;
    it->comm = comm;
    it->context = context_of(comm);
    it->other = peer < 0 ? NM_ANY : of->is_self ? (uint32_t)me->number : (uint32_t)peer;
    it->tag = tag < 0 ? NM_ANY : (uint32_t)tag;
    it->at = at ? (uint8_t *)at : nothing;
    it->length = (size_t)count * type->size;
    it->own = NULL;
    it->spread = type->pieces ? type : NULL;
    it->elements = (uint8_t *)at;
    it->count = count;
    return !at && it->length && type->lower < LEAST_ADDRESS ? MPI_ERR_BUFFER : MPI_SUCCESS;
}

/* The type of a request that outlives a call lives as long, whether or not its caller frees it (4.1.9). */
static void keep_type(const struct nemesis_request *it) {
    if (it->spread) use_type(it->spread);
}

static struct nemesis_request *new_request(void) {
    struct nemesis_request *it = me->spare;
    if (it)
        me->spare = it->next;
    else
        it = malloc(sizeof *it);
    if (it) it->spread = NULL;
    return it;
}

static void drop_request(struct nemesis_request *it) {
    if (it->spread) leave_type(it->spread);
    it->next = me->spare;
    me->spare = it;
}

static void add_chore(struct nemesis_request *it) {
    if (it->is_chore) return;
    it->is_chore = true;
    it->next = me->chores;
    me->chores = it;
}

static void end_chore(struct nemesis_request *it) {
    if (!it->is_chore) return;
    struct nemesis_request **place = &me->chores;
    while (*place != it) place = &(*place)->next;
    *place = it->next;
    if (me->due == it) me->due = it->next;
    it->is_chore = false;
}

/* The bytes of a message with gaps are in one place while it is on its way. */
static bool take_place(struct nemesis_request *it) {
    if (!it->spread) return true;
    it->at = malloc(it->length ? it->length : 1);
    if (it->at && it->mode != RECEIVE) gather_bytes(it->spread, it->count, it->elements, it->at);
    return it->at;
}

static void leave_place(struct nemesis_request *it, int error) {
    if (!it->spread) return;
    bool has_come = it->mode == RECEIVE && (!error || error == MPI_ERR_TRUNCATE) && !it->status.nemesis_cancelled;
    if (has_come) scatter_bytes(it->spread, it->elements, it->at, least(it->whole, it->length));
    free(it->at);
    it->at = NULL;
}

/* The request has ended. One that was freed is gone. */
static void end(struct nemesis_request *it, int error) {
    end_chore(it);
    leave_place(it, error);
    give_number(&me->names, it->name);
    free(it->own);
    it->own = NULL;
    if (it->mode == BUFFERED) me->buffer_used -= it->length + MPI_BSEND_OVERHEAD;
    it->state = COMPLETE;
    it->error = error;
    if (it->is_freed) drop_request(it);
}

/* From now on the request goes on by itself, and is gone at its end. */
static void detach(struct nemesis_request *it) {
    it->is_freed = true;
    add_chore(it);
}

/* A message may be too long for its receive, or have a part of an element at its end. */
static int error_at_end(const struct nemesis_request *it) {
    if (it->mode != RECEIVE) return MPI_SUCCESS;
    if (it->whole > it->length) return MPI_ERR_TRUNCATE;
    return it->spread && it->spread->unit && it->whole % it->spread->unit ? MPI_ERR_TYPE : MPI_SUCCESS;
}

/* Starts the part that is due: of a send, it is sent; of a receive, it is awaited. */
static void go_on(struct nemesis_request *it) {
    if (it->done >= it->whole) {
        it->status.nemesis_length = least(it->whole, it->length);
        end(it, error_at_end(it));
        return;
    }
    uint32_t tag = (uint32_t)(it->serial % (NM_MAX_TAG + 1));
    nm_code code;
    it->part = least(it->whole - it->done, NM_MAX_LENGTH);
    if (it->mode == RECEIVE)
        code = nm_irecv(&me->core, it->name, it->from, tag, REST_CONTEXT, NM_MAX_LENGTH);
    else
        code = nm_isend(&me->core, it->name, it->other, tag, REST_CONTEXT, (it->own ? it->own : it->at) + it->done,
                        it->part);
    if (code) end(it, error_of(code));
}

/* What the head says of a long message; its bytes are in `own`, in the caller's memory, or still in the core. */
static int read_trailer(struct nemesis_request *it) {
    struct trailer trailer;
    if (!it->own && it->length < HEAD) {
        it->own = malloc(HEAD);
        if (!it->own) return MPI_ERR_NO_MEM;
        nm_body(&me->core, it->own, HEAD);
    }
    memcpy(&trailer, (it->own ? it->own : it->at) + HEAD - TRAILER, TRAILER);
    it->whole = trailer.length;
    it->serial = trailer.serial;
    it->done = HEAD - TRAILER;
    if (it->own) memcpy(it->at, it->own, least(it->done, it->length));
    free(it->own);
    it->own = NULL;
    add_chore(it);
    return MPI_SUCCESS;
}

/* The first part of a message came. */
static int take_first(struct nemesis_request *it, uint32_t from, uint32_t tag, size_t length) {
    it->has_head = true;
    it->from = from;
    it->status.MPI_SOURCE = it->is_self ? 0 : (int)from;
    it->status.MPI_TAG = (int)tag;
    it->whole = it->done = length;
    return length == HEAD ? read_trailer(it) : MPI_SUCCESS;
}

/* A part came, the first or another. */
static void take_part(struct nemesis_request *it, const nm_status *told) {
    int error = MPI_SUCCESS;
    if (it->has_head)
        it->done += told->length;
    else
        error = take_first(it, told->from, told->tag, told->length);
    if (error)
        end(it, error);
    else
        go_on(it);
}

/* A buffered send is complete for its program, and goes on by itself (3.4). */
static void hand_over(struct nemesis_request *it) {
    struct nemesis_request *other = new_request();
    if (!other) return;
    end_chore(it);
    *other = *it;
    keep_type(other);
    detach(other);
    it->own = NULL;
    it->state = COMPLETE;
}

/* Asks whether the part that is on its way is complete, and goes on with the next. */
static void advance(struct nemesis_request *it) {
    if (it->state != ACTIVE) return;
    nm_status told = {0};
    size_t done = least(it->done, it->length);
    bool is_head = it->mode == RECEIVE && it->own;
    nm_code code = nm_test(&me->core, it->name, &told, is_head ? it->own : it->at + done,
                           it->mode != RECEIVE ? 0 : is_head ? HEAD : it->length - done);
    switch (code) {
    case NM_PENDING:
        if (it->mode == BUFFERED && !it->is_asked && !it->is_freed) hand_over(it);
        return;
    case NM_SENT:
        it->done += it->part;
        go_on(it);
        return;
    case NM_RECEIVED:
        take_part(it, &told);
        return;
    case NM_CANCELLED:
        it->status.nemesis_cancelled = 1;
        end(it, MPI_SUCCESS);
        return;
    default:
        end(it, error_of(code));
    }
}

/* Goes on until the request has ended. */
static void finish(struct nemesis_request *it) {
    unsigned idle = 0;
    advance(it);
    while (it->state == ACTIVE) {
        rest(&idle, turn());
        advance(it);
    }
}

/* Sends a message, or the head of a long one. */
static nm_code send_first(struct nemesis_request *it, const uint8_t *at, size_t length) {
    nm_code (*send)(nm_rank *, uint32_t, uint32_t, uint32_t, uint32_t, const uint8_t *, size_t) = nm_isend;
    if (it->mode == SYNCHRONOUS) send = nm_issend;
    return send(&me->core, it->name, it->other, it->tag, it->context, at, length);
}

static nm_code send_head(struct nemesis_request *it) {
    struct trailer trailer = {it->length, me->longs++};
    uint8_t *head = malloc(HEAD);
    if (!head) return NM_MEMORY;
    if (it->is_copied && !(it->own = malloc(it->length))) {
        free(head);
        return NM_MEMORY;
    }
    if (it->own) memcpy(it->own, it->at, it->length);
    memcpy(head, it->at, HEAD - TRAILER);
    memcpy(head + HEAD - TRAILER, &trailer, TRAILER);
    nm_code code = send_first(it, head, HEAD);
    free(head);
    it->serial = trailer.serial;
    it->part = HEAD - TRAILER;
    add_chore(it);
    return code;
}

static nm_code send(struct nemesis_request *it) {
    it->has_head = true;
    it->whole = it->part = it->length;
    return is_long(it->length) ? send_head(it) : send_first(it, it->at, it->length);
}

/* Receives a message that a probe claimed. */
static nm_code receive_message(struct nemesis_request *it, struct nemesis_message *message) {
    nm_code code = NM_OK;
    if (message->state == CLAIMED) {
        code = nm_imrecv(&me->core, it->name, message->number, NM_MAX_LENGTH);
        if (code) return code;
        give_number(&me->handles, message->number);
    } else if (message->state == COMING) {
        give_number(&me->names, it->name);
        it->name = message->number;
        it->own = message->head;
    } else {
        it->own = message->head;
        take_first(it, message->from, message->tag, HEAD);
        go_on(it);
    }
    free(message);
    return code;
}

static nm_code receive(struct nemesis_request *it) {
    struct nemesis_message *held = me->held ? take_held(it->other, it->tag, it->context) : NULL;
    if (held) return receive_message(it, held);
    return nm_irecv(&me->core, it->name, it->other, it->tag, it->context, NM_MAX_LENGTH);
}

/* Room for a buffered send: its bytes and its overhead (3.6.1). */
static bool takes_room(struct nemesis_request *it) {
    size_t needs = it->length + MPI_BSEND_OVERHEAD;
    if (needs > me->buffer_size - me->buffer_used) {
        turn();
        ask_all();
    }
    if (needs > me->buffer_size - me->buffer_used) return false;
    me->buffer_used += needs;
    return true;
}

static void renew(struct nemesis_request *it) {
    it->error = MPI_SUCCESS;
    it->is_asked = it->has_head = false;
    it->whole = it->done = it->part = 0;
    it->status = (MPI_Status){MPI_ANY_SOURCE, MPI_ANY_TAG, MPI_SUCCESS, 0, 0};
}

/* What a start takes: a place, a name, and of a buffered send room. */
static int take_means(struct nemesis_request *it) {
    if (!take_place(it)) return MPI_ERR_NO_MEM;
    bool has_name = take_number(&me->names, &it->name);
    if (has_name && (it->mode != BUFFERED || takes_room(it))) return MPI_SUCCESS;
    leave_place(it, MPI_ERR_NO_MEM);
    if (!has_name) return MPI_ERR_NO_MEM;
    give_number(&me->names, it->name);
    return MPI_ERR_BUFFER;
}

/* Starts a request; of a claimed message, if there is one. */
static int start_of(struct nemesis_request *it, struct nemesis_message *message) {
    renew(it);
    if (it->is_null) {
        it->state = COMPLETE;
        it->status.MPI_SOURCE = MPI_PROC_NULL;
        return MPI_SUCCESS;
    }
    int error = take_means(it);
    it->state = error ? INACTIVE : ACTIVE;
    if (error) return error;
    nm_code code = message ? receive_message(it, message) : it->mode == RECEIVE ? receive(it) : send(it);
    if (code) {
        end(it, error_of(code));
        it->state = INACTIVE;
        return it->error;
    }
    if (it->state == ACTIVE && it->mode == RECEIVE && it->length >= HEAD) add_chore(it);
    return MPI_SUCCESS;
}

static int start(struct nemesis_request *it) { return start_of(it, NULL); }

static int start_matched(struct nemesis_request *it, struct nemesis_message *message) { return start_of(it, message); }
