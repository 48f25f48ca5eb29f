/* Mistakes planted between the script and the library, with -DBREAK=K: each is one that a library could make, and has to
 * be found. Without BREAK the calls are the library's. */
#ifndef BREAK
#define BREAK 0
#endif

enum {
    OVERTAKES = 1,          /* a send overtakes the one before it */
    NOT_SYNCHRONOUS = 2,    /* a synchronous send is a standard one */
    SHORT_TAGS = 3,         /* tags are cut to ten bits */
    LOSES_A_BYTE = 4,       /* the last byte of a body of more than eight */
    ONE_COMMUNICATOR = 5,   /* contexts are not told apart */
    TAKES_THE_LAST = 6,     /* an any-tag receive takes the last message that is here */
    SAYS_CANCELLED = 8,     /* a cancel of a receive is said to be done */
    CLAIMS_NOTHING = 9,     /* a matched probe takes nothing out of matching */
    LOSES_A_MESSAGE = 10,   /* those of each fifth line */
};

static MPI_Comm communicators[CONTEXTS];
static const struct script *the_script;

static MPI_Comm communicator(const struct command *c)
{
    int k = 0;
    if (BREAK != ONE_COMMUNICATOR) return communicators[c->context];
    while (!the_script->uses[k]) k++;
    return communicators[k];
}

static int send_now(const struct command *c, MPI_Request *request)
{
    int is_synchronous = c->word == ISSEND && BREAK != NOT_SYNCHRONOUS;
    int tag = BREAK == SHORT_TAGS ? (int) c->tag & 1023 : (int) c->tag;
    int length = (int) c->length - (BREAK == LOSES_A_BYTE && c->length > 8);
    if (BREAK == LOSES_A_MESSAGE && c->line % 5 == 0) {
        *request = MPI_REQUEST_NULL;
        return MPI_SUCCESS;
    }
    return (is_synchronous ? MPI_Issend : MPI_Isend)(c->body, length, MPI_BYTE, (int) c->peer, tag, communicator(c), request);
}

static const struct command *held;
static MPI_Request *held_request;

/* A send that was held back goes out; run before each command that is no send, and behind the next send. */
static void let_go(void)
{
    const struct command *c = held;
    held = NULL;
    if (c) send_now(c, held_request);
}

static int start_send(const struct command *c, MPI_Request *request)
{
    int error;
    if (BREAK == OVERTAKES && !held) {
        held = c;
        held_request = request;
        return MPI_SUCCESS;
    }
    error = send_now(c, request);
    let_go();
    return error;
}

/* The tag that an irecv names. */
static int tag_of_receive(const struct command *c, int source, int tag)
{
    MPI_Status status;
    int k, is_there = 0, last = tag;
    if (BREAK != TAKES_THE_LAST || tag != MPI_ANY_TAG) return tag;
    for (k = 0; k < 60; k++) {
        MPI_Iprobe(source, k, communicator(c), &is_there, &status);
        if (is_there) last = k;
    }
    return last;
}
