/* ends.c: how requests end: waits, tests and cancels. */
#include "parts.h"

/* A status is told but for its error, which is told only where a call has several (3.2.5). */
static void tell(MPI_Status *status, const MPI_Status *told) {
    if (!status) return;
    status->MPI_SOURCE = told->MPI_SOURCE;
    status->MPI_TAG = told->MPI_TAG;
    status->nemesis_cancelled = told->nemesis_cancelled;
    status->nemesis_length = told->nemesis_length;
}

/* What is told of no request, and of one that is not started (3.7.3). */
static void tell_empty(MPI_Status *status) {
    if (status) *status = (MPI_Status){MPI_ANY_SOURCE, MPI_ANY_TAG, MPI_SUCCESS, 0, 0};
}

static bool takes_part(MPI_Request it) { return it && it->state != INACTIVE; }

static bool is_over(MPI_Request it) {
    if (!takes_part(it)) return true;
    advance(it);
    return it->state == COMPLETE;
}

/* Tells of a request that is over, and lets it go. */
static int collect(MPI_Request *request, MPI_Status *status, MPI_Comm *comm) {
    struct nemesis_request *it = *request;
    if (!takes_part(it)) {
        tell_empty(status);
        return MPI_SUCCESS;
    }
    tell(status, &it->status);
    *comm = it->comm;
    it->state = INACTIVE;
    int error = it->error;
    if (it->is_persistent) return error;
    *request = MPI_REQUEST_NULL;
    drop_request(it);
    return error;
}

static int collect_one(MPI_Request *request, MPI_Status *status, const char *call) {
    MPI_Comm comm = MPI_COMM_WORLD;
    int error = collect(request, status, &comm);
    return raised(comm, error, call);
}

/* The first of these requests that has an error, by their places if they are not all. */
static MPI_Request failed(int count, MPI_Request all[], const int *places) {
    for (int k = 0; k < count; k++) {
        MPI_Request it = all[places ? places[k] : k];
        if (takes_part(it) && it->error) return it;
    }
    return MPI_REQUEST_NULL;
}

/* Collects them; where one has an error, each status tells its own (3.7.5). */
static int collect_all(int count, MPI_Request all[], const int *places, MPI_Status statuses[], const char *call) {
    MPI_Request first = failed(count, all, places);
    MPI_Comm of, comm = first ? first->comm : MPI_COMM_WORLD;
    int told = !first ? MPI_SUCCESS : statuses ? MPI_ERR_IN_STATUS : first->error;
    for (int k = 0; k < count; k++) {
        int error = collect(&all[places ? places[k] : k], statuses ? &statuses[k] : MPI_STATUS_IGNORE, &of);
        if (told == MPI_ERR_IN_STATUS) statuses[k].MPI_ERROR = error;
    }
    return raised(comm, told, call);
}

int MPI_Wait(MPI_Request *request, MPI_Status *status) {
    if (takes_part(*request)) finish(*request);
    return collect_one(request, status, __func__);
}

int MPI_Waitall(int count, MPI_Request all[], MPI_Status statuses[]) {
    for (int k = 0; k < count; k++)
        if (takes_part(all[k])) finish(all[k]);
    return collect_all(count, all, NULL, statuses, __func__);
}

int MPI_Test(MPI_Request *request, int *flag, MPI_Status *status) {
    if (!is_over(*request)) turn();
    *flag = is_over(*request);
    return *flag ? collect_one(request, status, __func__) : MPI_SUCCESS;
}

int MPI_Testall(int count, MPI_Request all[], int *flag, MPI_Status statuses[]) {
    *flag = 1;
    turn();
    for (int k = 0; k < count; k++) *flag &= is_over(all[k]);
    return *flag ? collect_all(count, all, NULL, statuses, __func__) : MPI_SUCCESS;
}

enum { NONE_YET = -1 };

/* The place of one that is over; MPI_UNDEFINED if none takes part. */
static int any_over(int count, MPI_Request all[]) {
    int found = MPI_UNDEFINED;
    for (int k = 0; k < count; k++) {
        if (!takes_part(all[k])) continue;
        if (is_over(all[k])) return k;
        found = NONE_YET;
    }
    return found;
}

static int collect_any(MPI_Request all[], int place, MPI_Status *status, const char *call) {
    MPI_Request none = MPI_REQUEST_NULL;
    return collect_one(place == MPI_UNDEFINED ? &none : &all[place], status, call);
}

int MPI_Waitany(int count, MPI_Request all[], int *index, MPI_Status *status) {
    unsigned idle = 0;
    while ((*index = any_over(count, all)) == NONE_YET) rest(&idle, turn());
    return collect_any(all, *index, status, __func__);
}

int MPI_Testany(int count, MPI_Request all[], int *index, int *flag, MPI_Status *status) {
    turn();
    int place = any_over(count, all);
    *flag = place != NONE_YET;
    *index = *flag ? place : MPI_UNDEFINED;
    return *flag ? collect_any(all, place, status, __func__) : MPI_SUCCESS;
}

/* The places of all that are over; how many, or MPI_UNDEFINED if none takes part. */
static int some_over(int count, MPI_Request all[], int places[]) {
    int found = 0, parts = 0;
    for (int k = 0; k < count; k++) {
        if (!takes_part(all[k])) continue;
        parts++;
        if (is_over(all[k])) places[found++] = k;
    }
    return parts ? found : MPI_UNDEFINED;
}

static int collect_some(int found, MPI_Request all[], int places[], MPI_Status statuses[], const char *call) {
    return found == MPI_UNDEFINED ? MPI_SUCCESS : collect_all(found, all, places, statuses, call);
}

int MPI_Waitsome(int count, MPI_Request all[], int *ended, int places[], MPI_Status statuses[]) {
    unsigned idle = 0;
    while ((*ended = some_over(count, all, places)) == 0) rest(&idle, turn());
    return collect_some(*ended, all, places, statuses, __func__);
}

int MPI_Testsome(int count, MPI_Request all[], int *ended, int places[], MPI_Status statuses[]) {
    turn();
    *ended = some_over(count, all, places);
    return collect_some(*ended, all, places, statuses, __func__);
}

int MPI_Request_get_status(MPI_Request request, int *flag, MPI_Status *status) {
    if (!is_over(request)) turn();
    *flag = is_over(request);
    if (*flag && takes_part(request))
        tell(status, &request->status);
    else if (*flag)
        tell_empty(status);
    return MPI_SUCCESS;
}

int MPI_Request_free(MPI_Request *request) {
    struct nemesis_request *it = *request;
    if (!it) return raised(MPI_COMM_WORLD, MPI_ERR_REQUEST, __func__);
    *request = MPI_REQUEST_NULL;
    if (it->state == ACTIVE)
        detach(it);
    else
        drop_request(it);
    return MPI_SUCCESS;
}

int MPI_Cancel(MPI_Request *request) {
    struct nemesis_request *it = *request;
    if (!takes_part(it)) return raised(MPI_COMM_WORLD, MPI_ERR_REQUEST, __func__);
    bool is_late = it->state == COMPLETE || (it->mode == RECEIVE ? it->has_head : it->done > 0);
    if (is_late) return MPI_SUCCESS;
    it->is_asked = true;
    nm_code code = nm_cancel(&me->core, it->name);
    return raised(it->comm, code < NM_ERRORS ? MPI_SUCCESS : error_of(code), __func__);
}

int MPI_Test_cancelled(const MPI_Status *status, int *flag) {
    *flag = status->nemesis_cancelled;
    return MPI_SUCCESS;
}
