/* probes.c: probes, and receives of the messages that they claimed.
 *
 * The head of a long message does not say how long the whole is. So a probe that sees one claims it, with what its
 * rank sent before it in that context, so that their order stays (3.5), and receives the head. From then on receives
 * and probes look at what is held before they ask the core. */
#include "parts.h"
#include <stdlib.h>
#include <string.h>

static struct nemesis_message no_process;
const MPI_Message nemesis_no_process = &no_process;

struct selection {
    uint32_t from, tag, context;
};

static bool selects(const struct selection *it, const struct nemesis_message *message) {
    return message->context == it->context && (it->from == NM_ANY || it->from == message->from) &&
           (it->tag == NM_ANY || it->tag == message->tag);
}

/* The place of the oldest held message that is selected; of none, the end of the list. */
static struct nemesis_message **place_of(const struct selection *it) {
    struct nemesis_message **place = &me->held;
    while (*place && !selects(it, *place)) place = &(*place)->next;
    return place;
}

static struct nemesis_message *take_held(uint32_t from, uint32_t tag, uint32_t context) {
    struct nemesis_message **place = place_of(&(struct selection){from, tag, context});
    struct nemesis_message *it = *place;
    if (it) *place = it->next;
    return it;
}

static void drop_message(struct nemesis_message *it) {
    free(it->head);
    free(it);
}

/* Claims the oldest message that is selected. */
static struct nemesis_message *claim(const struct selection *of, int *error) {
    struct nemesis_message *it = calloc(1, sizeof *it);
    nm_status told;
    if (!it || !take_number(&me->handles, &it->number)) {
        free(it);
        *error = MPI_ERR_NO_MEM;
        return NULL;
    }
    nm_code code = nm_improbe(&me->core, it->number, of->from, of->tag, of->context, &told);
    if (code == NM_SEEN) {
        it->context = of->context;
        it->from = told.from;
        it->tag = told.tag;
        it->length = told.length;
        return it;
    }
    give_number(&me->handles, it->number);
    free(it);
    *error = error_of(code);
    return NULL;
}

/* Asks for the head of a long message. */
static int ask_for_head(struct nemesis_message *it) {
    uint32_t name;
    it->head = malloc(HEAD);
    if (!it->head || !take_number(&me->names, &name)) return MPI_ERR_NO_MEM;
    nm_code code = nm_imrecv(&me->core, name, it->number, HEAD);
    if (code) return error_of(code);
    give_number(&me->handles, it->number);
    it->number = name;
    it->state = COMING;
    return MPI_SUCCESS;
}

/* Holds the long message that was seen, and what its rank sent before it. */
static int hold(const nm_status *seen, uint32_t context) {
    struct selection all = {seen->from, NM_ANY, context};
    struct nemesis_message **last = &me->held, *it;
    int error = MPI_SUCCESS;
    while (*last) last = &(*last)->next;
    do {
        it = claim(&all, &error);
        if (!it) return error;
        *last = it;
        last = &it->next;
    } while (it->tag != seen->tag);
    return ask_for_head(it);
}

/* Whether the length of a held message is known by now. */
static bool is_known(struct nemesis_message *it) {
    nm_status told;
    if (it->state != COMING) return true;
    if (nm_test(&me->core, it->number, &told, it->head, HEAD) != NM_RECEIVED) return false;
    struct trailer trailer;
    memcpy(&trailer, it->head + HEAD - TRAILER, TRAILER);
    give_number(&me->names, it->number);
    it->length = trailer.length;
    it->serial = trailer.serial;
    it->state = HERE;
    return true;
}

/* Whether a message is there that is selected, and its envelope; where it is held, its place too. */
static bool look(const struct selection *of, struct nemesis_message *seen, struct nemesis_message ***place,
                 int *error) {
    nm_status told;
    *place = place_of(of);
    if (**place) {
        bool is_seen = is_known(**place);
        *seen = ***place;
        return is_seen;
    }
    *place = NULL;
    nm_code code = nm_iprobe(&me->core, of->from, of->tag, of->context, &told);
    *error = code < NM_ERRORS ? MPI_SUCCESS : error_of(code);
    if (code == NM_SEEN && told.length == HEAD) *error = hold(&told, of->context);
    if (code != NM_SEEN || told.length == HEAD) return false;
    *seen = (struct nemesis_message){.from = told.from, .tag = told.tag, .length = told.length};
    return true;
}

/* What the source and the tag of a probe select: what a receive would. */
static int selection_of(struct selection *it, int from, int tag, MPI_Comm comm) {
    struct nemesis_request like;
    int error = prepare(&like, RECEIVE, NULL, 0, MPI_BYTE, from, tag, comm);
    if (!error) *it = (struct selection){like.other, like.tag, like.context};
    return error;
}

static void tell_seen(MPI_Status *status, const struct nemesis_message *seen, MPI_Comm comm) {
    int from = known(comm)->is_self ? 0 : (int)seen->from;
    tell(status, &(MPI_Status){from, (int)seen->tag, MPI_SUCCESS, 0, seen->length});
}

static void tell_none(MPI_Status *status) {
    tell(status, &(MPI_Status){MPI_PROC_NULL, MPI_ANY_TAG, MPI_SUCCESS, 0, 0});
}

/* One look; of the null process there is a message of no bytes (3.11). */
static int probe(int from, int tag, MPI_Comm comm, int *flag, MPI_Status *status) {
    struct selection of;
    struct nemesis_message seen, **place;
    int error = selection_of(&of, from, tag, comm);
    *flag = !error && from == MPI_PROC_NULL;
    if (*flag) tell_none(status);
    if (error || *flag) return error;
    *flag = look(&of, &seen, &place, &error);
    if (*flag) tell_seen(status, &seen, comm);
    return error;
}

/* One look; the message is the caller's from then on. */
static int matched_probe(int from, int tag, MPI_Comm comm, int *flag, MPI_Message *message, MPI_Status *status) {
    struct selection of;
    struct nemesis_message seen, **place;
    int error = selection_of(&of, from, tag, comm);
    *flag = !error && from == MPI_PROC_NULL;
    *message = *flag ? MPI_MESSAGE_NO_PROC : MPI_MESSAGE_NULL;
    if (*flag) tell_none(status);
    if (error || *flag || !look(&of, &seen, &place, &error)) return error;
    struct nemesis_message *it = place ? *place : claim(&of, &error);
    if (!it) return error;
    if (place) *place = it->next;
    it->comm = comm;
    tell_seen(status, it, comm);
    *message = it;
    *flag = 1;
    return MPI_SUCCESS;
}

int MPI_Iprobe(int from, int tag, MPI_Comm comm, int *flag, MPI_Status *status) {
    int error = probe(from, tag, comm, flag, status);
    if (error || *flag) return raised(comm, error, __func__);
    turn();
    return raised(comm, probe(from, tag, comm, flag, status), __func__);
}

int MPI_Probe(int from, int tag, MPI_Comm comm, MPI_Status *status) {
    unsigned idle = 0;
    int flag, error;
    while (!(error = probe(from, tag, comm, &flag, status)) && !flag) rest(&idle, turn());
    return raised(comm, error, __func__);
}

int MPI_Improbe(int from, int tag, MPI_Comm comm, int *flag, MPI_Message *message, MPI_Status *status) {
    int error = matched_probe(from, tag, comm, flag, message, status);
    if (error || *flag) return raised(comm, error, __func__);
    turn();
    return raised(comm, matched_probe(from, tag, comm, flag, message, status), __func__);
}

int MPI_Mprobe(int from, int tag, MPI_Comm comm, MPI_Message *message, MPI_Status *status) {
    unsigned idle = 0;
    int flag, error;
    while (!(error = matched_probe(from, tag, comm, &flag, message, status)) && !flag) rest(&idle, turn());
    return raised(comm, error, __func__);
}

/* Starts the receive of a message; of none, as from the null process. */
static int receive_of(struct nemesis_request *it, void *at, int count, MPI_Datatype type, MPI_Message *message) {
    struct nemesis_message *of = *message;
    if (!of) return MPI_ERR_REQUEST;
    bool is_none = of == MPI_MESSAGE_NO_PROC;
    int from = is_none ? MPI_PROC_NULL : MPI_ANY_SOURCE;
    int error = prepare(it, RECEIVE, at, count, type, from, MPI_ANY_TAG, is_none ? MPI_COMM_WORLD : of->comm);
    if (error) return error;
    *message = MPI_MESSAGE_NULL;
    return start_matched(it, of);
}

int MPI_Mrecv(void *at, int count, MPI_Datatype type, MPI_Message *message, MPI_Status *status) {
    struct nemesis_request it;
    int error = receive_of(&it, at, count, type, message);
    if (error) return raised(MPI_COMM_WORLD, error, __func__);
    finish(&it);
    tell(status, &it.status);
    return raised(it.comm, it.error, __func__);
}

int MPI_Imrecv(void *at, int count, MPI_Datatype type, MPI_Message *message, MPI_Request *made) {
    struct nemesis_request *it = new_request();
    *made = MPI_REQUEST_NULL;
    if (!it) return raised(MPI_COMM_WORLD, MPI_ERR_NO_MEM, __func__);
    int error = receive_of(it, at, count, type, message);
    keep_type(it);
    if (error)
        drop_request(it);
    else
        *made = it;
    return raised(MPI_COMM_WORLD, error, __func__);
}
