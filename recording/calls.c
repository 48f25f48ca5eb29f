/* Writes the point-to-point calls of an MPI program down as commands of a script (docs/use/record.md).
 *
 * Loaded before the MPI library, it takes each call by the profiling interface (MPI 3.1, 14.2), writes what it
 * starts or waits for to the file of its rank in the folder NEMESIS_RECORD, and calls the library. A line is written
 * before its call can block, so where the program hangs, the last lines are those of the calls that wait.
 *
 *     COMMAND ARGUMENTS <tab> OBJECT+OFFSET        the call came from there
 *     ! WORDS                                      what a script cannot say
 */
#define _GNU_SOURCE
#include <dlfcn.h>
#include <fcntl.h>
#include <mpi.h>
#include <stdarg.h>
#include <stdbool.h>
#include <stdio.h>
#include <stdlib.h>
#include <string.h>
#include <unistd.h>

enum { MOST_RANKS = 64, MOST_LENGTH = 1048576, MOST_TAG = 32767, COLLECTIVE = 255, NAMES = 65536, LINE = 512 };

#define HERE __builtin_return_address(0)

/* The file of this rank: lines that stand, and behind them lines that stand only until the next call. */
static int file = -1;
static off_t standing;
static bool holds;
static int own_rank;

static void write_at(off_t place, const char *text, size_t length)
{
    while (length > 0) {
        ssize_t written = pwrite(file, text, length, place);
        if (written <= 0) return;
        text += written, place += written, length -= (size_t)written;
    }
}

static size_t line_of(char *line, const void *caller, const char *format, va_list arguments)
{
    Dl_info from;
    int length = vsnprintf(line, LINE, format, arguments);
    if (caller && dladdr(caller, &from) && from.dli_fname) {
        size_t offset = (size_t)((const char *)caller - (const char *)from.dli_fbase) - 1;
        length += snprintf(line + length, LINE - (size_t)length, "\t%.300s+%zx", from.dli_fname, offset);
    }
    length = length > LINE - 2 ? LINE - 2 : length;
    line[length++] = '\n';
    return (size_t)length;
}

/* Writes a line down. */
static void say(const void *caller, const char *format, ...)
{
    char line[LINE];
    va_list arguments;
    if (file < 0) return;
    va_start(arguments, format);
    size_t length = line_of(line, caller, format, arguments);
    va_end(arguments);
    write_at(standing, line, length);
    standing += (off_t)length;
    if (holds) holds = ftruncate(file, standing) != 0;
}

/* Writes down a line that the next one takes the place of: what the rank waits for as long as it makes no other call. */
static void hold(const void *caller, const char *format, ...)
{
    char line[LINE];
    va_list arguments;
    if (file < 0) return;
    va_start(arguments, format);
    size_t length = line_of(line, caller, format, arguments);
    va_end(arguments);
    write_at(standing, line, length);
    holds = ftruncate(file, standing + (off_t)length) == 0;
}

static void forget_held(void)
{
    if (holds) holds = ftruncate(file, standing) != 0;
}

/* Says once what a script cannot say. */
static void warn(int *said, const char *what)
{
    if (!(*said)++) say(NULL, "! rank %d: %s", own_rank, what);
}

/* Communicators: each has a context, the same at all of its ranks, and its ranks are ranks of the world. */
typedef struct {
    int context;
    int size;
    int own;
    int *world;
} Members;

static int members_key = MPI_KEYVAL_INVALID;
static int next_context = 2;

static Members *add_members(MPI_Comm comm, int context)
{
    MPI_Group group, world;
    Members *members = malloc(sizeof *members);
    int inter = 0;
    PMPI_Comm_test_inter(comm, &inter);
    PMPI_Comm_rank(comm, &members->own);
    if (inter) PMPI_Comm_remote_size(comm, &members->size), PMPI_Comm_remote_group(comm, &group);
    else PMPI_Comm_size(comm, &members->size), PMPI_Comm_group(comm, &group);
    PMPI_Comm_group(MPI_COMM_WORLD, &world);
    int *places = malloc(sizeof *places * (size_t)members->size);
    members->world = malloc(sizeof *places * (size_t)members->size);
    for (int i = 0; i < members->size; i++) places[i] = i;
    PMPI_Group_translate_ranks(group, members->size, places, world, members->world);
    free(places);
    PMPI_Group_free(&group);
    PMPI_Group_free(&world);
    members->context = context;
    PMPI_Comm_set_attr(comm, members_key, members);
    return members;
}

static Members *members_of(MPI_Comm comm)
{
    static int unknown;
    Members *members;
    int found = 0;
    PMPI_Comm_get_attr(comm, members_key, &members, &found);
    if (found) return members;
    warn(&unknown, "a communicator of a kind that is not followed shares a context with others");
    return add_members(comm, COLLECTIVE - 1);
}

/* A communicator that its ranks made together: they agree on the next context that none of them uses. */
static void agree(MPI_Comm made)
{
    static int many;
    if (made == MPI_COMM_NULL) return;
    int own = next_context, most = own;
    PMPI_Allreduce(&own, &most, 1, MPI_INT, MPI_MAX, made);
    if (most >= COLLECTIVE - 1) warn(&many, "more than 252 communicators: the last ones share a context");
    next_context = most + 1;
    add_members(made, most < COLLECTIVE - 1 ? most : COLLECTIVE - 1);
}

/* Requests and messages: what the script calls those that the program has. */
typedef struct {
    MPI_Request request;
    int name;
    bool persistent, buffered;
    char start[80];
} Live;

static Live *live;
static size_t lives, room;
static bool used[NAMES];

/* A name that was free for longest: so commands of two requests can change places. */
static int new_name(void)
{
    static int none, next;
    for (int tried = 0; tried < NAMES; tried++) {
        int name = next++ % NAMES;
        if (!used[name]) return used[name] = true, name;
    }
    warn(&none, "more than 65,536 live requests: a name stands for two");
    return NAMES - 1;
}

static Live *new_live(MPI_Request request, int name)
{
    if (lives == room) live = realloc(live, sizeof *live * (room = room ? 2 * room : 64));
    live[lives] = (Live){.request = request, .name = name};
    return &live[lives++];
}

static Live *live_of(MPI_Request request)
{
    if (request != MPI_REQUEST_NULL)
        for (size_t i = 0; i < lives; i++)
            if (live[i].request == request && live[i].name >= 0) return &live[i];
    return NULL;
}

/* Its request has ended. */
static void end(Live *it)
{
    if (!it->buffered) used[it->name] = false;
    it->name = -1;
    if (!it->persistent) memmove(it, it + 1, sizeof *it * (size_t)(&live[--lives] - it));
}

/* What a call asks for, in a script's words. */
static int length_of(int count, MPI_Datatype type)
{
    static int long_one;
    int size = 0;
    PMPI_Type_size(type, &size);
    long long length = (long long)count * size;
    if (length > MOST_LENGTH) warn(&long_one, "a message of more than 1,048,576 bytes is written as one of so many");
    return length > MOST_LENGTH ? MOST_LENGTH : (int)length;
}

static int tag_of(int tag)
{
    static int high;
    if (tag > MOST_TAG) warn(&high, "a tag above 32,767 is written as its remainder by 32,768");
    return tag & MOST_TAG;
}

static const char *pick(char *text, int number)
{
    if (number < 0) return "any";
    sprintf(text, "%d", number);
    return text;
}

static const char *source_of(char *text, const Members *members, int from)
{
    return pick(text, from == MPI_ANY_SOURCE ? -1 : members->world[from]);
}

static const char *tag_pick(char *text, int tag)
{
    return pick(text, tag == MPI_ANY_TAG ? -1 : tag_of(tag));
}

static void send_words(char *words, int count, MPI_Datatype type, int to, int tag, MPI_Comm comm)
{
    const Members *members = members_of(comm);
    sprintf(words, "%d %d %d g%d", members->world[to], tag_of(tag), members->context, length_of(count, type));
}

static void receive_words(char *words, int count, MPI_Datatype type, int from, int tag, MPI_Comm comm)
{
    char source[16], mark[16];
    const Members *members = members_of(comm);
    sprintf(words, "%s %s %d %d", source_of(source, members, from), tag_pick(mark, tag), members->context,
            length_of(count, type));
}

static void probe_words(char *words, int from, int tag, MPI_Comm comm)
{
    char source[16], mark[16];
    const Members *members = members_of(comm);
    sprintf(words, "%s %s %d", source_of(source, members, from), tag_pick(mark, tag), members->context);
}

/* Starting and ending */
static int no_copy(MPI_Comm comm, int key, void *extra, void *value, void *copy, int *is_copied)
{
    (void)comm, (void)key, (void)extra, (void)value, (void)copy;
    *is_copied = 0;
    return MPI_SUCCESS;
}

static int let_go(MPI_Comm comm, int key, void *value, void *extra)
{
    (void)comm, (void)key, (void)extra;
    free(((Members *)value)->world);
    free(value);
    return MPI_SUCCESS;
}

static void begin(void)
{
    char path[4096];
    int size;
    const char *folder = getenv("NEMESIS_RECORD");
    PMPI_Comm_rank(MPI_COMM_WORLD, &own_rank);
    PMPI_Comm_size(MPI_COMM_WORLD, &size);
    PMPI_Comm_create_keyval(no_copy, let_go, &members_key, NULL);
    add_members(MPI_COMM_WORLD, 0);
    add_members(MPI_COMM_SELF, 1);
    if (!folder) return;
    snprintf(path, sizeof path, "%s/%d.of.%d", folder, own_rank, size);
    file = open(path, O_WRONLY | O_CREAT | O_TRUNC | O_CLOEXEC, 0666);
}

int MPI_Init(int *count, char ***words)
{
    int code = PMPI_Init(count, words);
    begin();
    return code;
}

int MPI_Init_thread(int *count, char ***words, int asked, int *given)
{
    static int threads;
    int code = PMPI_Init_thread(count, words, asked, given);
    begin();
    if (asked == MPI_THREAD_MULTIPLE) warn(&threads, "calls of several threads are written as those of one");
    return code;
}

int MPI_Finalize(void)
{
    forget_held();
    return PMPI_Finalize();
}

/* Sends and receives that are started */
#define START(NAME, WORD, PEER, WORDS, CALL, ...)                                                                      \
    {                                                                                                                  \
        char words[LINE];                                                                                              \
        if ((PEER) == MPI_PROC_NULL) return CALL;                                                                      \
        WORDS;                                                                                                         \
        int name = new_name();                                                                                         \
        say(HERE, WORD " %d %s", name, words);                                                                         \
        int code = CALL;                                                                                               \
        new_live(*request, name) __VA_ARGS__;                                                                          \
        return code;                                                                                                   \
    }

#define START_SEND(KIND, WORD, ...)                                                                                    \
    int MPI_##KIND(const void *body, int count, MPI_Datatype type, int to, int tag, MPI_Comm comm,                     \
                   MPI_Request *request)                                                                               \
    START(KIND, WORD, to, send_words(words, count, type, to, tag, comm),                                               \
          PMPI_##KIND(body, count, type, to, tag, comm, request), __VA_ARGS__)

START_SEND(Isend, "isend")
START_SEND(Irsend, "isend")
START_SEND(Issend, "issend")
START_SEND(Ibsend, "isend", ->buffered = true)

int MPI_Irecv(void *body, int count, MPI_Datatype type, int from, int tag, MPI_Comm comm, MPI_Request *request)
START(Irecv, "irecv", from, receive_words(words, count, type, from, tag, comm),
      PMPI_Irecv(body, count, type, from, tag, comm, request))

/* Blocking ones: the start and its wait */
#define BLOCK(WORD, PEER, WORDS, CALL)                                                                                 \
    {                                                                                                                  \
        char words[LINE];                                                                                              \
        if ((PEER) == MPI_PROC_NULL) return CALL;                                                                      \
        WORDS;                                                                                                         \
        int name = new_name();                                                                                         \
        say(HERE, WORD " %d %s", name, words);                                                                         \
        say(HERE, "wait %d", name);                                                                                    \
        used[name] = false;                                                                                            \
        return CALL;                                                                                                   \
    }

#define BLOCK_SEND(KIND, WORD)                                                                                         \
    int MPI_##KIND(const void *body, int count, MPI_Datatype type, int to, int tag, MPI_Comm comm)                     \
    BLOCK(WORD, to, send_words(words, count, type, to, tag, comm), PMPI_##KIND(body, count, type, to, tag, comm))

BLOCK_SEND(Send, "isend")
BLOCK_SEND(Rsend, "isend")
BLOCK_SEND(Ssend, "issend")

int MPI_Recv(void *body, int count, MPI_Datatype type, int from, int tag, MPI_Comm comm, MPI_Status *status)
BLOCK("irecv", from, receive_words(words, count, type, from, tag, comm),
      PMPI_Recv(body, count, type, from, tag, comm, status))

/* A buffered send never waits (3.4): it is a standard one whose end nobody waits for. */
int MPI_Bsend(const void *body, int count, MPI_Datatype type, int to, int tag, MPI_Comm comm)
{
    char words[LINE];
    if (to != MPI_PROC_NULL) {
        send_words(words, count, type, to, tag, comm);
        say(HERE, "isend %d %s", new_name(), words);
    }
    return PMPI_Bsend(body, count, type, to, tag, comm);
}

static void send_and_receive(const void *caller, const char *sent, const char *received)
{
    int out = sent ? new_name() : -1, in = received ? new_name() : -1;
    if (received) say(caller, "irecv %d %s", in, received);
    if (sent) say(caller, "isend %d %s", out, sent);
    if (sent) say(caller, "wait %d", out), used[out] = false;
    if (received) say(caller, "wait %d", in), used[in] = false;
}

int MPI_Sendrecv(const void *out, int count, MPI_Datatype type, int to, int tag, void *in, int most, MPI_Datatype kind,
                 int from, int mark, MPI_Comm comm, MPI_Status *status)
{
    char sent[LINE], received[LINE];
    if (to != MPI_PROC_NULL) send_words(sent, count, type, to, tag, comm);
    if (from != MPI_PROC_NULL) receive_words(received, most, kind, from, mark, comm);
    send_and_receive(HERE, to != MPI_PROC_NULL ? sent : NULL, from != MPI_PROC_NULL ? received : NULL);
    return PMPI_Sendrecv(out, count, type, to, tag, in, most, kind, from, mark, comm, status);
}

int MPI_Sendrecv_replace(void *body, int count, MPI_Datatype type, int to, int tag, int from, int mark, MPI_Comm comm,
                         MPI_Status *status)
{
    char sent[LINE], received[LINE];
    if (to != MPI_PROC_NULL) send_words(sent, count, type, to, tag, comm);
    if (from != MPI_PROC_NULL) receive_words(received, count, type, from, mark, comm);
    send_and_receive(HERE, to != MPI_PROC_NULL ? sent : NULL, from != MPI_PROC_NULL ? received : NULL);
    return PMPI_Sendrecv_replace(body, count, type, to, tag, from, mark, comm, status);
}

/* Persistent requests (3.9) */
#define INIT(PEER, WORD, WORDS, CALL)                                                                                  \
    {                                                                                                                  \
        char words[LINE];                                                                                              \
        int code = CALL;                                                                                               \
        if ((PEER) == MPI_PROC_NULL) return code;                                                                      \
        WORDS;                                                                                                         \
        Live *it = new_live(*request, -1);                                                                             \
        it->persistent = true;                                                                                         \
        sprintf(it->start, WORD " %%d %.60s", words);                                                          \
        return code;                                                                                                   \
    }

#define INIT_SEND(KIND, WORD)                                                                                          \
    int MPI_##KIND(const void *body, int count, MPI_Datatype type, int to, int tag, MPI_Comm comm,                     \
                   MPI_Request *request)                                                                               \
    INIT(to, WORD, send_words(words, count, type, to, tag, comm),                                                      \
         PMPI_##KIND(body, count, type, to, tag, comm, request))

INIT_SEND(Send_init, "isend")
INIT_SEND(Rsend_init, "isend")
INIT_SEND(Ssend_init, "issend")

int MPI_Recv_init(void *body, int count, MPI_Datatype type, int from, int tag, MPI_Comm comm, MPI_Request *request)
INIT(from, "irecv", receive_words(words, count, type, from, tag, comm),
     PMPI_Recv_init(body, count, type, from, tag, comm, request))

static void start(const void *caller, MPI_Request request)
{
    for (size_t i = 0; i < lives; i++)
        if (live[i].request == request && live[i].persistent && live[i].name < 0) {
            live[i].name = new_name();
            say(caller, live[i].start, live[i].name);
            return;
        }
}

int MPI_Start(MPI_Request *request)
{
    start(HERE, *request);
    return PMPI_Start(request);
}

int MPI_Startall(int count, MPI_Request *requests)
{
    for (int i = 0; i < count; i++) start(HERE, requests[i]);
    return PMPI_Startall(count, requests);
}

int MPI_Request_free(MPI_Request *request)
{
    Live *it = live_of(*request);
    if (it) {
        it->persistent = false;
        it->buffered = true;
        end(it);
    }
    return PMPI_Request_free(request);
}

int MPI_Cancel(MPI_Request *request)
{
    Live *it = live_of(*request);
    if (it) say(HERE, "cancel %d", it->name);
    return PMPI_Cancel(request);
}

/* Waits and tests: a request whose end was seen was waited for. */
static void ended(const void *caller, MPI_Request request)
{
    Live *it = live_of(request);
    if (!it) return;
    if (!it->buffered) say(caller, "wait %d", it->name);
    end(it);
}

/* A line for the first of them that is live, as long as the rank does nothing else. */
static void wait_for_one(const void *caller, int count, const MPI_Request *requests)
{
    for (int i = 0; i < count; i++) {
        Live *it = live_of(requests[i]);
        if (it && !it->buffered) {
            hold(caller, "wait %d", it->name);
            return;
        }
    }
}

static MPI_Request *copies(int count, const MPI_Request *requests)
{
    MPI_Request *copy = malloc(sizeof *copy * (size_t)(count > 0 ? count : 1));
    return count > 0 ? memcpy(copy, requests, sizeof *copy * (size_t)count) : copy;
}

int MPI_Wait(MPI_Request *request, MPI_Status *status)
{
    ended(HERE, *request);
    return PMPI_Wait(request, status);
}

int MPI_Waitall(int count, MPI_Request *requests, MPI_Status *statuses)
{
    for (int i = 0; i < count; i++) ended(HERE, requests[i]);
    return PMPI_Waitall(count, requests, statuses);
}

int MPI_Waitany(int count, MPI_Request *requests, int *index, MPI_Status *status)
{
    MPI_Request *before = copies(count, requests);
    wait_for_one(HERE, count, requests);
    int code = PMPI_Waitany(count, requests, index, status);
    forget_held();
    if (*index != MPI_UNDEFINED) ended(HERE, before[*index]);
    free(before);
    return code;
}

int MPI_Waitsome(int count, MPI_Request *requests, int *done, int *places, MPI_Status *statuses)
{
    MPI_Request *before = copies(count, requests);
    wait_for_one(HERE, count, requests);
    int code = PMPI_Waitsome(count, requests, done, places, statuses);
    forget_held();
    for (int i = 0; *done != MPI_UNDEFINED && i < *done; i++) ended(HERE, before[places[i]]);
    free(before);
    return code;
}

int MPI_Test(MPI_Request *request, int *flag, MPI_Status *status)
{
    MPI_Request before = *request;
    int code = PMPI_Test(request, flag, status);
    if (*flag) ended(HERE, before);
    else wait_for_one(HERE, 1, &before);
    return code;
}

int MPI_Testall(int count, MPI_Request *requests, int *flag, MPI_Status *statuses)
{
    MPI_Request *before = copies(count, requests);
    int code = PMPI_Testall(count, requests, flag, statuses);
    for (int i = 0; *flag && i < count; i++) ended(HERE, before[i]);
    if (!*flag) wait_for_one(HERE, count, before);
    free(before);
    return code;
}

int MPI_Testany(int count, MPI_Request *requests, int *index, int *flag, MPI_Status *status)
{
    MPI_Request *before = copies(count, requests);
    int code = PMPI_Testany(count, requests, index, flag, status);
    if (*flag && *index != MPI_UNDEFINED) ended(HERE, before[*index]);
    else if (!*flag) wait_for_one(HERE, count, before);
    free(before);
    return code;
}

int MPI_Testsome(int count, MPI_Request *requests, int *done, int *places, MPI_Status *statuses)
{
    MPI_Request *before = copies(count, requests);
    int code = PMPI_Testsome(count, requests, done, places, statuses);
    for (int i = 0; *done != MPI_UNDEFINED && i < *done; i++) ended(HERE, before[places[i]]);
    if (*done == 0) wait_for_one(HERE, count, before);
    free(before);
    return code;
}

/* Probes (3.8.1): one that saw nothing is looked for again, so it is one that waits as long as the rank does nothing
 * else. */
int MPI_Probe(int from, int tag, MPI_Comm comm, MPI_Status *status)
{
    char words[LINE];
    if (from != MPI_PROC_NULL) {
        probe_words(words, from, tag, comm);
        say(HERE, "await %s", words);
    }
    return PMPI_Probe(from, tag, comm, status);
}

int MPI_Iprobe(int from, int tag, MPI_Comm comm, int *flag, MPI_Status *status)
{
    char words[LINE];
    int code = PMPI_Iprobe(from, tag, comm, flag, status);
    if (from != MPI_PROC_NULL) {
        probe_words(words, from, tag, comm);
        if (*flag) say(HERE, "await %s", words);
        else hold(HERE, "await %s", words);
    }
    return code;
}

/* Matched probes (3.8.2): a probe that waits, and then takes what it saw. */
typedef struct {
    MPI_Message message;
    int handle;
} Claimed;

static Claimed claims[1024];
static int claimed;

static void claim(const void *caller, const char *words, MPI_Message message)
{
    static int many;
    if (claimed == 1024) {
        warn(&many, "more than 1,024 matched messages that no receive took");
        return;
    }
    int handle = 0;
    for (int i = 0; i < claimed; i++)
        if (claims[i].handle == handle) handle++, i = -1;
    claims[claimed++] = (Claimed){message, handle};
    say(caller, "mprobe %d %s", handle, words);
}

int MPI_Mprobe(int from, int tag, MPI_Comm comm, MPI_Message *message, MPI_Status *status)
{
    char words[LINE];
    if (from == MPI_PROC_NULL) return PMPI_Mprobe(from, tag, comm, message, status);
    probe_words(words, from, tag, comm);
    say(HERE, "await %s", words);
    int code = PMPI_Mprobe(from, tag, comm, message, status);
    claim(HERE, words, *message);
    return code;
}

int MPI_Improbe(int from, int tag, MPI_Comm comm, int *flag, MPI_Message *message, MPI_Status *status)
{
    char words[LINE];
    int code = PMPI_Improbe(from, tag, comm, flag, message, status);
    if (from == MPI_PROC_NULL) return code;
    probe_words(words, from, tag, comm);
    if (!*flag) hold(HERE, "await %s", words);
    else say(HERE, "await %s", words), claim(HERE, words, *message);
    return code;
}

/* The handle of a matched message, which its receive frees; -1 where there is none. */
static int taken(MPI_Message message)
{
    for (int i = 0; i < claimed; i++)
        if (claims[i].message == message) {
            int handle = claims[i].handle;
            claims[i] = claims[--claimed];
            return handle;
        }
    return -1;
}

int MPI_Mrecv(void *body, int count, MPI_Datatype type, MPI_Message *message, MPI_Status *status)
{
    int handle = taken(*message);
    if (handle >= 0) {
        int name = new_name();
        say(HERE, "mrecv %d %d %d", name, handle, length_of(count, type));
        say(HERE, "wait %d", name);
        used[name] = false;
    }
    return PMPI_Mrecv(body, count, type, message, status);
}

int MPI_Imrecv(void *body, int count, MPI_Datatype type, MPI_Message *message, MPI_Request *request)
{
    int handle = taken(*message), name = handle >= 0 ? new_name() : -1;
    if (handle >= 0) say(HERE, "mrecv %d %d %d", name, handle, length_of(count, type));
    int code = PMPI_Imrecv(body, count, type, message, request);
    if (handle >= 0) new_live(*request, name);
    return code;
}

#include "collectives.h"
