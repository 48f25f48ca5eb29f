/* layouts.c: types made of others (4.1), and messages of such a type, whose bytes are gathered in one place and
 * scattered from it. A type has its pieces in order; one whose copies follow each other without gaps has none. */
#include "parts.h"
#include <stdlib.h>
#include <string.h>

/* Blocks of elements, each at a place in bytes: where a list is there it has those of each block. */
struct layout {
    int count, length;
    const int *lengths, *indices;
    const MPI_Aint *places;
    MPI_Aint stride; /* from block to block, if there is no list; of an index, how many bytes it stands for */
    MPI_Datatype type;
    const MPI_Datatype *types;
};

static MPI_Aint extent_of(MPI_Datatype type) { return type ? type->extent : 0; }

static void use_type(MPI_Datatype type) { ((struct nemesis_type *)type)->users++; }

static void leave_type(MPI_Datatype type) {
    struct nemesis_type *it = (struct nemesis_type *)type;
    if (--it->users) return;
    free(it->pieces);
    free(it);
}

static struct nemesis_type *new_type(void) {
    struct nemesis_type *it = calloc(1, sizeof *it);
    if (it) it->users = 1;
    return it;
}

/* Adds bytes at the end of a type; false where memory is refused. Room doubles. */
static bool add_piece(struct nemesis_type *it, MPI_Aint at, size_t length) {
    struct nemesis_piece *last = it->count ? &it->pieces[it->count - 1] : NULL;
    it->size += length;
    if (!length) return true;
    if (last && last->at + (MPI_Aint)last->length == at) {
        last->length += length;
        return true;
    }
    if (!(it->count & (it->count - 1))) {
        struct nemesis_piece *more = realloc(it->pieces, (it->count ? 2 * it->count : 1) * sizeof *more);
        if (!more) return false;
        it->pieces = more;
    }
    it->pieces[it->count++] = (struct nemesis_piece){at, length};
    return true;
}

static bool add_element(struct nemesis_type *it, MPI_Aint at, MPI_Datatype of) {
    const struct nemesis_piece *piece = of->pieces;
    bool is_added = piece || add_piece(it, at, of->size);
    for (size_t k = 0; k < of->count && is_added; k++, piece++) is_added = add_piece(it, at + piece->at, piece->length);
    return is_added;
}

/* The bounds of a type reach from its lowest element to the end of its highest (4.1.6). */
static void widen(struct nemesis_type *it, bool is_first, MPI_Aint at, MPI_Datatype of) {
    MPI_Aint lower = at + of->lower, upper = lower + of->extent, end = is_first ? upper : it->lower + it->extent;
    if (is_first || lower < it->lower) it->lower = lower;
    it->extent = (upper > end ? upper : end) - it->lower;
    it->unit = is_first || it->unit == of->unit ? of->unit : 0;
    it->align = of->align > it->align ? of->align : it->align;
}

/* Adds a block; `is_first` says that none was added that has an element. */
static bool add_block(struct nemesis_type *it, bool *is_first, MPI_Aint at, int length, MPI_Datatype of) {
    bool is_added = true;
    for (int k = 0; k < length && is_added; k++, at += of->extent) {
        is_added = add_element(it, at, of);
        widen(it, *is_first, at, of);
        *is_first = false;
    }
    return is_added;
}

/* Rounds the extent up, so that copies are aligned (4.1.6). */
static void pad(struct nemesis_type *it) {
    MPI_Aint over = it->align ? it->extent % (MPI_Aint)it->align : 0;
    if (over) it->extent += (MPI_Aint)it->align - over;
}

/* A type whose copies leave no gap has no pieces. */
static void settle(struct nemesis_type *it) {
    bool is_plain = it->lower == 0 && it->extent == (MPI_Aint)it->size &&
                    (it->count == 0 || (it->count == 1 && it->pieces[0].at == 0));
    if (!is_plain) return;
    free(it->pieces);
    it->pieces = NULL;
    it->count = 0;
}

static MPI_Datatype type_of(const struct layout *of, int k) { return of->types ? of->types[k] : of->type; }

static int length_of(const struct layout *of, int k) { return of->lengths ? of->lengths[k] : of->length; }

static MPI_Aint place_of_block(const struct layout *of, int k) {
    return of->places ? of->places[k] : of->indices ? of->indices[k] * of->stride : k * of->stride;
}

static int wrong_layout(const struct layout *of) {
    int error = of->count < 0 ? MPI_ERR_COUNT : !of->types && !of->type ? MPI_ERR_TYPE : MPI_SUCCESS;
    for (int k = 0; k < of->count && !error; k++)
        error = length_of(of, k) < 0 ? MPI_ERR_COUNT : !type_of(of, k) ? MPI_ERR_TYPE : MPI_SUCCESS;
    return error;
}

static int assemble(const struct layout *of, MPI_Datatype *made, const char *call) {
    int error = wrong_layout(of);
    bool is_first = true, is_made = true;
    *made = MPI_DATATYPE_NULL;
    if (error) return raised(MPI_COMM_WORLD, error, call);
    struct nemesis_type *it = new_type();
    for (int k = 0; it && k < of->count && is_made; k++)
        is_made = add_block(it, &is_first, place_of_block(of, k), length_of(of, k), type_of(of, k));
    if (it && !is_made) leave_type(it);
    if (!it || !is_made) return raised(MPI_COMM_WORLD, MPI_ERR_NO_MEM, call);
    pad(it);
    settle(it);
    *made = it;
    return MPI_SUCCESS;
}

int MPI_Type_contiguous(int count, MPI_Datatype type, MPI_Datatype *made) {
    return assemble(&(struct layout){.count = 1, .length = count, .type = type}, made, __func__);
}

int MPI_Type_vector(int count, int length, int stride, MPI_Datatype type, MPI_Datatype *made) {
    return MPI_Type_create_hvector(count, length, stride * extent_of(type), type, made);
}

int MPI_Type_create_hvector(int count, int length, MPI_Aint stride, MPI_Datatype type, MPI_Datatype *made) {
    struct layout of = {.count = count, .length = length, .stride = stride, .type = type};
    return assemble(&of, made, __func__);
}

int MPI_Type_indexed(int count, const int lengths[], const int indices[], MPI_Datatype type, MPI_Datatype *made) {
    MPI_Aint each = extent_of(type);
    struct layout of = {.count = count, .lengths = lengths, .indices = indices, .stride = each, .type = type};
    return assemble(&of, made, __func__);
}

int MPI_Type_create_indexed_block(int count, int length, const int indices[], MPI_Datatype type, MPI_Datatype *made) {
    struct layout of = {.count = count, .length = length, .indices = indices, .stride = extent_of(type), .type = type};
    return assemble(&of, made, __func__);
}

int MPI_Type_create_hindexed(int count, const int lengths[], const MPI_Aint places[], MPI_Datatype type,
                             MPI_Datatype *made) {
    struct layout of = {.count = count, .lengths = lengths, .places = places, .type = type};
    return assemble(&of, made, __func__);
}

int MPI_Type_create_hindexed_block(int count, int length, const MPI_Aint places[], MPI_Datatype type,
                                   MPI_Datatype *made) {
    struct layout of = {.count = count, .length = length, .places = places, .type = type};
    return assemble(&of, made, __func__);
}

int MPI_Type_create_struct(int count, const int lengths[], const MPI_Aint places[], const MPI_Datatype types[],
                           MPI_Datatype *made) {
    struct layout of = {.count = count, .lengths = lengths, .places = places, .types = types};
    return assemble(&of, made, __func__);
}

/* A part of an array (4.1.3): from the dimension whose elements are next to each other to the one whose are farthest,
 * each a vector of the one before it; then its place in the whole. */
int MPI_Type_create_subarray(int dims, const int sizes[], const int parts[], const int starts[], int order,
                             MPI_Datatype type, MPI_Datatype *made) {
    MPI_Datatype inner, placed;
    MPI_Aint at = 0, each = extent_of(type);
    int error = dims < 1 ? MPI_ERR_DIMS : MPI_Type_dup(type, &inner);
    for (int k = 0; k < dims && !error; k++) {
        int dim = order == MPI_ORDER_C ? dims - 1 - k : k;
        MPI_Datatype last = inner;
        error = MPI_Type_create_hvector(parts[dim], 1, each, last, &inner);
        MPI_Type_free(&last);
        at += starts[dim] * each;
        each *= sizes[dim];
    }
    if (error) return raised(MPI_COMM_WORLD, error, __func__);
    error = MPI_Type_create_hindexed_block(1, 1, &at, inner, &placed);
    MPI_Type_free(&inner);
    if (!error) error = MPI_Type_create_resized(placed, 0, each, made);
    if (!error) MPI_Type_free(&placed);
    return error;
}

/* The same bytes, with other bounds (4.1.7). */
int MPI_Type_create_resized(MPI_Datatype type, MPI_Aint lower, MPI_Aint extent, MPI_Datatype *made) {
    *made = MPI_DATATYPE_NULL;
    if (!type) return raised(MPI_COMM_WORLD, MPI_ERR_TYPE, __func__);
    struct nemesis_type *it = new_type();
    bool is_made = it && add_element(it, 0, type);
    if (it && !is_made) leave_type(it);
    if (!is_made) return raised(MPI_COMM_WORLD, MPI_ERR_NO_MEM, __func__);
    it->lower = lower;
    it->extent = extent;
    it->unit = type->unit;
    it->align = type->align;
    settle(it);
    *made = it;
    return MPI_SUCCESS;
}

int MPI_Type_dup(MPI_Datatype type, MPI_Datatype *made) {
    return MPI_Type_create_resized(type, type ? type->lower : 0, extent_of(type), made);
}

/* Copies the bytes of an element to one place, and returns where those of the next one go. */
static uint8_t *gather_element(MPI_Datatype type, const uint8_t *at, uint8_t *out) {
    for (const struct nemesis_piece *it = type->pieces; it < type->pieces + type->count; it++) {
        memcpy(out, at + it->at, it->length);
        out += it->length;
    }
    return out;
}

static void gather_bytes(MPI_Datatype type, int count, const uint8_t *at, uint8_t *out) {
    for (int k = 0; k < count; k++, at += type->extent) out = gather_element(type, at, out);
}

/* Copies so many bytes from one place to where the type has them. */
static void scatter_bytes(MPI_Datatype type, uint8_t *at, const uint8_t *in, size_t left) {
    for (size_t i = 0; left > 0; i++) {
        const struct nemesis_piece *to = &type->pieces[i % type->count];
        size_t length = to->length < left ? to->length : left;
        memcpy(at + (MPI_Aint)(i / type->count) * type->extent + to->at, in, length);
        in += length;
        left -= length;
    }
}

int MPI_Get_address(const void *at, MPI_Aint *address) {
    *address = (MPI_Aint)at;
    return MPI_SUCCESS;
}

/* Whether so many elements have room in what is left of memory. */
static bool fits(int count, MPI_Datatype type, int room, int position) {
    return count >= 0 && position <= room && (size_t)count * type->size <= (size_t)(room - position);
}

/* Messages as bytes in one place (4.2). */
int MPI_Pack(const void *at, int count, MPI_Datatype type, void *out, int room, int *position, MPI_Comm comm) {
    if (!type) return raised(comm, MPI_ERR_TYPE, __func__);
    if (!fits(count, type, room, *position)) return raised(comm, MPI_ERR_COUNT, __func__);
    if (type->pieces)
        gather_bytes(type, count, at, (uint8_t *)out + *position);
    else
        memcpy((uint8_t *)out + *position, at, (size_t)count * type->size);
    *position += (int)((size_t)count * type->size);
    return MPI_SUCCESS;
}

int MPI_Unpack(const void *in, int room, int *position, void *at, int count, MPI_Datatype type, MPI_Comm comm) {
    if (!type) return raised(comm, MPI_ERR_TYPE, __func__);
    if (!fits(count, type, room, *position)) return raised(comm, MPI_ERR_COUNT, __func__);
    if (type->pieces)
        scatter_bytes(type, at, (const uint8_t *)in + *position, (size_t)count * type->size);
    else
        memcpy(at, (const uint8_t *)in + *position, (size_t)count * type->size);
    *position += (int)((size_t)count * type->size);
    return MPI_SUCCESS;
}
