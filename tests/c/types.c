/* types.c: messages of types that are made of others. Each rank sends them to the next, in each way to receive them, and
 * looks at each byte: those of the type came, and no other one was touched. */
#include "nemesis_mpi.h"
#include <stdio.h>
#include <stdlib.h>
#include <string.h>

enum { BYTES = 4 << 20, WAYS = 4, FILL = 0xee };

/* An element of a struct type, with gaps. */
struct element {
    double weight;
    char name[3];
    int numbers[2];
};

static int rank, ranks, rows, wrong;
static unsigned char *out, *in;

static void row(const char *what, int way, int got, int due) {
    rows++;
    if (got == due) return;
    wrong++;
    printf("rank %d: %s, way %d: %d, not %d\n", rank, what, way, got, due);
}

static void receive(int way, int count, MPI_Datatype type, int from, MPI_Status *status) {
    MPI_Request request;
    MPI_Message message;
    if (way == 0) {
        MPI_Recv(in, count, type, from, 1, MPI_COMM_WORLD, status);
    } else if (way == 1) {
        MPI_Irecv(in, count, type, from, 1, MPI_COMM_WORLD, &request);
        MPI_Type_free(&type);
        MPI_Wait(&request, status);
    } else if (way == 2) {
        MPI_Mprobe(from, 1, MPI_COMM_WORLD, &message, status);
        MPI_Mrecv(in, count, type, &message, status);
    } else {
        MPI_Recv_init(in, count, type, from, 1, MPI_COMM_WORLD, &request);
        MPI_Start(&request);
        MPI_Wait(&request, status);
        MPI_Request_free(&request);
    }
}

/* The first byte that is not as it was sent, of those that the type has, or is another one that was touched. */
static int differ(int (*has)(int)) {
    int k = 0;
    while (k < BYTES && in[k] == (has(k) ? out[k] : FILL)) k++;
    return k < BYTES ? k : -1;
}

static void pass(const char *what, int count, MPI_Datatype type, int elements, int (*has)(int)) {
    int before = (rank + ranks - 1) % ranks, next = (rank + 1) % ranks, got;
    for (int way = 0; way < WAYS; way++) {
        MPI_Datatype own;
        MPI_Request request;
        MPI_Status status;
        memset(in, FILL, BYTES);
        MPI_Type_dup(type, &own);
        MPI_Isend(out, count, type, next, 1, MPI_COMM_WORLD, &request);
        receive(way, count, own, before, &status);
        MPI_Wait(&request, MPI_STATUS_IGNORE);
        row(what, way, differ(has), -1);
        MPI_Get_count(&status, type, &got);
        row("its count", way, got, count);
        MPI_Get_elements(&status, type, &got);
        row("its elements", way, got, elements);
        if (way != 1) MPI_Type_free(&own);
    }
}

static int has_column(int k) { return k < 400 && k % 40 < 4; }

static int has_columns(int k) { return k < 400 && k % 40 < 12; }

/* A column of a matrix of 10 by 10; its copies are the columns that follow. */
static void columns(void) {
    MPI_Datatype column, next;
    MPI_Aint lower, extent;
    int position = 0;
    unsigned char packed[40];
    MPI_Type_vector(10, 1, 10, MPI_INT, &column);
    pass("a column", 1, column, 10, has_column);
    MPI_Type_create_resized(column, 0, sizeof(int), &next);
    pass("three columns", 3, next, 30, has_columns);
    MPI_Type_get_extent(next, &lower, &extent);
    row("an extent", 0, (int)extent, sizeof(int));
    MPI_Type_get_true_extent(next, &lower, &extent);
    row("a true extent", 0, (int)extent, 91 * sizeof(int));
    memset(in, FILL, BYTES);
    MPI_Pack(out, 1, column, packed, sizeof packed, &position, MPI_COMM_WORLD);
    position = 0;
    MPI_Unpack(packed, sizeof packed, &position, in, 1, column, MPI_COMM_WORLD);
    row("a packed column", 0, differ(has_column), -1);
    MPI_Type_free(&column);
    MPI_Type_free(&next);
}

static int has_part(int k) { return k / 48 >= 1 && k / 48 < 3 && k % 48 >= 8 && k % 48 < 40 && k % 8 < 4; }

/* Rows 1 and 2 of 3, and of each of their 6 pairs the first number of 1 to 4. */
static void parts(void) {
    int sizes[3] = {3, 6, 2}, ones[3] = {2, 4, 1}, starts[3] = {1, 1, 0};
    MPI_Datatype made;
    MPI_Type_create_subarray(3, sizes, ones, starts, MPI_ORDER_C, MPI_INT, &made);
    pass("a part of an array", 1, made, 8, has_part);
    MPI_Type_free(&made);
}

static int has_structs(int k) { return k < 7 * 24 && k % 24 < 20 && k % 24 != 11; }

static void structs(void) {
    int lengths[3] = {1, 3, 2};
    MPI_Aint lower, extent, places[3] = {offsetof(struct element, weight), offsetof(struct element, name),
                                         offsetof(struct element, numbers)};
    MPI_Datatype types[3] = {MPI_DOUBLE, MPI_CHAR, MPI_INT}, made;
    MPI_Type_create_struct(3, lengths, places, types, &made);
    MPI_Type_get_extent(made, &lower, &extent);
    row("a struct's extent", 0, (int)extent, sizeof(struct element));
    pass("structs", 7, made, MPI_UNDEFINED, has_structs);
    MPI_Type_free(&made);
}

/* Elements 8, 9, 1, 2, 3, so copies are 9 apart: the short k is of a copy, and of which one. */
static int is_listed(int k) { return k % 9 <= 3 || k % 9 == 8; }

static int copy_of(int k) { return k % 9 ? k / 9 : k / 9 - 1; }

static int has_list(int k) { return k / 2 >= 1 && k / 2 <= 45 && is_listed(k / 2); }

/* Of these copies 8, 9, 3, 4, 1, 2, and the same 9 on. */
static int has_lists(int k) {
    int copy = copy_of(k / 2);
    return k / 2 >= 1 && is_listed(k / 2) && copy >= 1 && copy <= 18 && (copy % 9 <= 4 || copy % 9 == 8);
}

static int has_all(int k) { return k < 96; }

static void lists(void) {
    int lengths[3] = {2, 0, 3}, indices[3] = {8, 3, 1};
    MPI_Datatype made, blocks, all;
    MPI_Type_indexed(3, lengths, indices, MPI_SHORT, &made);
    pass("indices that fall", 5, made, 25, has_list);
    MPI_Type_create_indexed_block(3, 2, indices, made, &blocks);
    pass("a type of a type", 2, blocks, 60, has_lists);
    MPI_Type_vector(4, 3, 3, MPI_INT, &all);
    pass("no gaps", 2, all, 24, has_all);
    MPI_Type_free(&made);
    MPI_Type_free(&blocks);
    MPI_Type_free(&all);
}

enum { BLOCKS = 3 << 17 };

static int has_blocks(int k) { return k < 8 * BLOCKS && k % 8 < 4; }

/* More bytes than the core takes, with gaps. */
static void long_ones(void) {
    MPI_Datatype made;
    MPI_Type_vector(BLOCKS, 4, 8, MPI_BYTE, &made);
    pass("a long one", 1, made, 4 * BLOCKS, has_blocks);
    MPI_Type_free(&made);
}

static void broadcast(void) {
    MPI_Datatype column;
    MPI_Type_vector(10, 1, 10, MPI_INT, &column);
    memset(in, FILL, BYTES);
    MPI_Bcast(rank == 1 ? out : in, 1, column, 1, MPI_COMM_WORLD);
    row("a broadcast", 0, rank == 1 ? -1 : differ(has_column), -1);
    MPI_Type_free(&column);
}

int main(int count, char **words) {
    int mine[2], all[2];
    MPI_Init(&count, &words);
    MPI_Comm_rank(MPI_COMM_WORLD, &rank);
    MPI_Comm_size(MPI_COMM_WORLD, &ranks);
    out = malloc(BYTES);
    in = malloc(BYTES);
    for (int k = 0; k < BYTES; k++) out[k] = (unsigned char)(k % 251);
    columns();
    parts();
    structs();
    lists();
    long_ones();
    broadcast();
    mine[0] = rows;
    mine[1] = wrong;
    if (rank > 0) MPI_Send(mine, 2, MPI_INT, 0, 3, MPI_COMM_WORLD);
    for (int from = 1; rank == 0 && from < ranks; from++) {
        MPI_Recv(all, 2, MPI_INT, from, 3, MPI_COMM_WORLD, MPI_STATUS_IGNORE);
        mine[0] += all[0];
        mine[1] += all[1];
    }
    if (rank == 0) printf("%d rows in %d ranks, %d wrong\n", mine[0], ranks, mine[1]);
    free(out);
    free(in);
    MPI_Finalize();
    return wrong != 0;
}
