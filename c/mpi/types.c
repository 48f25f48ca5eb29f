/* types.c: the types that have names, and how many of one a message has. */
#include "parts.h"
#include <limits.h>
#include <wchar.h>

#define OF(type) {sizeof(type), sizeof(type), 0, sizeof(type), _Alignof(type), 0, 0, NULL}
/* In the order of nemesis_mpi.h. */
const struct nemesis_type nemesis_types[] = {
    OF(char),     OF(char),    OF(char),          OF(char),      OF(short),             OF(short),
    OF(int),      OF(int),     OF(long),          OF(long),      OF(long long),         OF(long long),
    OF(float),    OF(double),  OF(long double),   OF(wchar_t),   OF(_Bool),             OF(int8_t),
    OF(int16_t),  OF(int32_t), OF(int64_t),       OF(uint8_t),   OF(uint16_t),          OF(uint32_t),
    OF(uint64_t), OF(MPI_Aint), OF(MPI_Count),   OF(float[2]),  OF(double[2]),          OF(long double[2]),
};

enum { NAMED = sizeof nemesis_types / sizeof *nemesis_types };

int MPI_Type_commit(MPI_Datatype *type) {
    return raised(MPI_COMM_WORLD, *type ? MPI_SUCCESS : MPI_ERR_TYPE, __func__);
}

int MPI_Type_free(MPI_Datatype *type) {
    bool is_named = *type >= nemesis_types && *type < nemesis_types + NAMED;
    if (!*type || is_named) return raised(MPI_COMM_WORLD, MPI_ERR_TYPE, __func__);
    leave_type(*type);
    *type = MPI_DATATYPE_NULL;
    return MPI_SUCCESS;
}

int MPI_Type_size(MPI_Datatype type, int *size) {
    if (!type) return raised(MPI_COMM_WORLD, MPI_ERR_TYPE, __func__);
    *size = type->size > INT_MAX ? MPI_UNDEFINED : (int)type->size;
    return MPI_SUCCESS;
}

int MPI_Type_get_extent(MPI_Datatype type, MPI_Aint *lower, MPI_Aint *extent) {
    if (!type) return raised(MPI_COMM_WORLD, MPI_ERR_TYPE, __func__);
    *lower = type->lower;
    *extent = type->extent;
    return MPI_SUCCESS;
}

/* The bounds of its bytes alone (4.1.8). */
int MPI_Type_get_true_extent(MPI_Datatype type, MPI_Aint *lower, MPI_Aint *extent) {
    if (!type) return raised(MPI_COMM_WORLD, MPI_ERR_TYPE, __func__);
    MPI_Aint least = type->count ? type->pieces[0].at : 0, end = type->count ? least : (MPI_Aint)type->size;
    for (size_t k = 0; k < type->count; k++) {
        MPI_Aint at = type->pieces[k].at, after = at + (MPI_Aint)type->pieces[k].length;
        if (at < least) least = at;
        if (after > end) end = after;
    }
    *lower = least;
    *extent = end - least;
    return MPI_SUCCESS;
}

/* Of how many bytes of a buffer a buffered send takes, with MPI_BSEND_OVERHEAD (3.6.1). */
int MPI_Pack_size(int count, MPI_Datatype type, MPI_Comm comm, int *size) {
    if (!type) return raised(comm, MPI_ERR_TYPE, __func__);
    if (count < 0 || (size_t)count * type->size > INT_MAX) return raised(comm, MPI_ERR_COUNT, __func__);
    *size = (int)((size_t)count * type->size);
    return MPI_SUCCESS;
}

/* How many things of a size the message has, if it has whole ones, and at most so many. */
static MPI_Count count_of(const MPI_Status *status, size_t size, MPI_Count most) {
    size_t length = status->nemesis_length;
    bool is_whole = size ? length % size == 0 && length / size <= (size_t)most : length == 0;
    return !is_whole ? MPI_UNDEFINED : size ? (MPI_Count)(length / size) : 0;
}

int MPI_Get_count(const MPI_Status *status, MPI_Datatype type, int *count) {
    if (!type) return raised(MPI_COMM_WORLD, MPI_ERR_TYPE, __func__);
    *count = (int)count_of(status, type->size, INT_MAX);
    return MPI_SUCCESS;
}

int MPI_Get_elements(const MPI_Status *status, MPI_Datatype type, int *count) {
    if (!type) return raised(MPI_COMM_WORLD, MPI_ERR_TYPE, __func__);
    *count = (int)count_of(status, type->unit, INT_MAX);
    return MPI_SUCCESS;
}

int MPI_Get_elements_x(const MPI_Status *status, MPI_Datatype type, MPI_Count *count) {
    if (!type) return raised(MPI_COMM_WORLD, MPI_ERR_TYPE, __func__);
    *count = count_of(status, type->unit, INT64_MAX);
    return MPI_SUCCESS;
}

int MPI_Status_set_elements_x(MPI_Status *status, MPI_Datatype type, MPI_Count count) {
    if (!type) return raised(MPI_COMM_WORLD, MPI_ERR_TYPE, __func__);
    if (count < 0) return raised(MPI_COMM_WORLD, MPI_ERR_COUNT, __func__);
    status->nemesis_length = (size_t)count * type->unit;
    return MPI_SUCCESS;
}

int MPI_Status_set_elements(MPI_Status *status, MPI_Datatype type, int count) {
    return MPI_Status_set_elements_x(status, type, count);
}

int MPI_Status_set_cancelled(MPI_Status *status, int flag) {
    status->nemesis_cancelled = flag;
    return MPI_SUCCESS;
}
