/* Collective calls (MPI 3.1, chapter 5), and calls that make communicators, as the least messages that they need: who
 * gives bytes sends an empty message, who needs them receives it. A library may let ranks wait for more. Included by
 * calls.c. */

static bool is_followed(MPI_Comm comm)
{
    int inter = 0;
    PMPI_Comm_test_inter(comm, &inter);
    return file >= 0 && !inter;
}

static void send_empty(const void *caller, const Members *members, int to)
{
    int name = new_name();
    say(caller, "isend %d %d %d %d x", name, members->world[to], members->context, COLLECTIVE);
    say(caller, "wait %d", name);
    used[name] = false;
}

static void receive_empty(const void *caller, const Members *members, int from)
{
    int name = new_name();
    say(caller, "irecv %d %d %d %d 0", name, members->world[from], members->context, COLLECTIVE);
    say(caller, "wait %d", name);
    used[name] = false;
}

static void to_root(const void *caller, MPI_Comm comm, int root)
{
    if (!is_followed(comm)) return;
    const Members *members = members_of(comm);
    if (members->own != root) send_empty(caller, members, root);
    else for (int i = 0; i < members->size; i++)
        if (i != root) receive_empty(caller, members, i);
}

static void from_root(const void *caller, MPI_Comm comm, int root)
{
    if (!is_followed(comm)) return;
    const Members *members = members_of(comm);
    if (members->own != root) receive_empty(caller, members, root);
    else for (int i = 0; i < members->size; i++)
        if (i != root) send_empty(caller, members, i);
}

/* Each rank needs something of each other one. */
static void meet(const void *caller, MPI_Comm comm)
{
    to_root(caller, comm, 0);
    from_root(caller, comm, 0);
}

static void from_before(const void *caller, MPI_Comm comm)
{
    if (!is_followed(comm)) return;
    const Members *members = members_of(comm);
    if (members->own > 0) receive_empty(caller, members, members->own - 1);
    if (members->own + 1 < members->size) send_empty(caller, members, members->own + 1);
}

#define COLLECTIVE_CALL(KIND, SAID, PARAMETERS, ARGUMENTS)                                                             \
    int MPI_##KIND PARAMETERS                                                                                          \
    {                                                                                                                  \
        SAID;                                                                                                          \
        return PMPI_##KIND ARGUMENTS;                                                                                  \
    }

#define MEET meet(HERE, comm)

COLLECTIVE_CALL(Barrier, MEET, (MPI_Comm comm), (comm))
COLLECTIVE_CALL(Allreduce, MEET, (const void *of, void *to, int n, MPI_Datatype t, MPI_Op op, MPI_Comm comm),
                (of, to, n, t, op, comm))
COLLECTIVE_CALL(Reduce_scatter, MEET,
                (const void *of, void *to, const int n[], MPI_Datatype t, MPI_Op op, MPI_Comm comm),
                (of, to, n, t, op, comm))
COLLECTIVE_CALL(Reduce_scatter_block, MEET, (const void *of, void *to, int n, MPI_Datatype t, MPI_Op op, MPI_Comm comm),
                (of, to, n, t, op, comm))
COLLECTIVE_CALL(Allgather, MEET,
                (const void *of, int n, MPI_Datatype t, void *to, int m, MPI_Datatype u, MPI_Comm comm),
                (of, n, t, to, m, u, comm))
COLLECTIVE_CALL(Allgatherv, MEET,
                (const void *of, int n, MPI_Datatype t, void *to, const int m[], const int at[], MPI_Datatype u,
                 MPI_Comm comm),
                (of, n, t, to, m, at, u, comm))
COLLECTIVE_CALL(Alltoall, MEET,
                (const void *of, int n, MPI_Datatype t, void *to, int m, MPI_Datatype u, MPI_Comm comm),
                (of, n, t, to, m, u, comm))
COLLECTIVE_CALL(Alltoallv, MEET,
                (const void *of, const int n[], const int from[], MPI_Datatype t, void *to, const int m[],
                 const int at[], MPI_Datatype u, MPI_Comm comm),
                (of, n, from, t, to, m, at, u, comm))
COLLECTIVE_CALL(Bcast, from_root(HERE, comm, root), (void *of, int n, MPI_Datatype t, int root, MPI_Comm comm),
                (of, n, t, root, comm))
COLLECTIVE_CALL(Scatter, from_root(HERE, comm, root),
                (const void *of, int n, MPI_Datatype t, void *to, int m, MPI_Datatype u, int root, MPI_Comm comm),
                (of, n, t, to, m, u, root, comm))
COLLECTIVE_CALL(Scatterv, from_root(HERE, comm, root),
                (const void *of, const int n[], const int from[], MPI_Datatype t, void *to, int m, MPI_Datatype u,
                 int root, MPI_Comm comm),
                (of, n, from, t, to, m, u, root, comm))
COLLECTIVE_CALL(Gather, to_root(HERE, comm, root),
                (const void *of, int n, MPI_Datatype t, void *to, int m, MPI_Datatype u, int root, MPI_Comm comm),
                (of, n, t, to, m, u, root, comm))
COLLECTIVE_CALL(Gatherv, to_root(HERE, comm, root),
                (const void *of, int n, MPI_Datatype t, void *to, const int m[], const int at[], MPI_Datatype u,
                 int root, MPI_Comm comm),
                (of, n, t, to, m, at, u, root, comm))
COLLECTIVE_CALL(Reduce, to_root(HERE, comm, root),
                (const void *of, void *to, int n, MPI_Datatype t, MPI_Op op, int root, MPI_Comm comm),
                (of, to, n, t, op, root, comm))
COLLECTIVE_CALL(Scan, from_before(HERE, comm),
                (const void *of, void *to, int n, MPI_Datatype t, MPI_Op op, MPI_Comm comm), (of, to, n, t, op, comm))
COLLECTIVE_CALL(Exscan, from_before(HERE, comm),
                (const void *of, void *to, int n, MPI_Datatype t, MPI_Op op, MPI_Comm comm), (of, to, n, t, op, comm))

/* Communicators (6.4, 7.5): all ranks of the old one take part, and those of the new one agree on its context. */
#define MAKES(KIND, PARAMETERS, ARGUMENTS)                                                                             \
    int MPI_##KIND PARAMETERS                                                                                          \
    {                                                                                                                  \
        MEET;                                                                                                          \
        int code = PMPI_##KIND ARGUMENTS;                                                                              \
        agree(*made);                                                                                                  \
        return code;                                                                                                   \
    }

MAKES(Comm_dup, (MPI_Comm comm, MPI_Comm *made), (comm, made))
MAKES(Comm_split, (MPI_Comm comm, int color, int key, MPI_Comm *made), (comm, color, key, made))
MAKES(Comm_split_type, (MPI_Comm comm, int kind, int key, MPI_Info info, MPI_Comm *made), (comm, kind, key, info, made))
MAKES(Comm_create, (MPI_Comm comm, MPI_Group group, MPI_Comm *made), (comm, group, made))
MAKES(Cart_create,
      (MPI_Comm comm, int n, const int sides[], const int periods[], int reorder, MPI_Comm *made),
      (comm, n, sides, periods, reorder, made))
