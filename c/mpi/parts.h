/* parts.h: what the files of this folder share: a rank, its requests, and the steps of a call. They are compiled as
 * one (../nemesis_mpi.c), so that no name but MPI's reaches a program. */
#ifndef NEMESIS_PARTS_H
#define NEMESIS_PARTS_H

#include "../../include/nemesis.h"
#include "../../include/nemesis_mpi.h"
#include <stdbool.h>

enum {
    HEAD = NM_MAX_LENGTH - 1,      /* the length of a long message's first part, which no other message has */
    REST_CONTEXT = NM_MAX_CONTEXT, /* the context of its other parts */
    TRAILER = 16,                  /* the bytes at the end of the first part that say what follows */
    COMMUNICATORS = 127            /* each has a context for messages and one for its own use */
};

/* Numbers for names: those given back, and the least one that was never given. */
struct numbers {
    uint16_t back[NM_MAX_NAME + 1];
    uint32_t kept, fresh;
};

struct communicator {
    bool is_used, is_self;
    MPI_Errhandler handler;
};

/* What a thread keeps of its rank. */
struct rank {
    nm_rank core;
    int number, count;
    struct numbers names, handles;
    struct nemesis_request *chores; /* requests that go on whether or not the program asks for them */
    struct nemesis_request *due;    /* the next of them that a turn asks, or none: then the first */
    struct nemesis_request *spare;  /* memory of requests to use again */
    struct nemesis_message *held;   /* messages that were claimed since a long one was probed, oldest first */
    struct communicator comms[COMMUNICATORS];
    uint8_t *buffer;
    size_t buffer_size, buffer_used;
    uint64_t longs; /* long messages that it sent */
    bool is_begun, is_over;
};
static _Thread_local struct rank *me;

enum mode { RECEIVE, STANDARD, SYNCHRONOUS, BUFFERED };
enum state { INACTIVE, ACTIVE, COMPLETE };

/* A send or a receive. A message that is longer than the core takes is sent in parts: a head, whose trailer says
 * how long the whole is, and the rest in a context of its own, one after another. */
struct nemesis_request {
    enum state state;
    enum mode mode;
    bool is_persistent, is_freed, is_chore;
    bool is_asked;  /* to be cancelled */
    bool is_copied; /* the rest of a long message is, by its start */
    bool has_head;  /* the first part is there, or gone */
    bool is_self, is_null; /* its communicator is a rank's own; the other rank is the null process */
    MPI_Comm comm;
    uint32_t name, context, other, tag; /* as the core has them */
    uint8_t *at; /* the message, or the memory for it */
    size_t length;
    MPI_Datatype spread; /* the type of the message, if it has gaps: then `at` has its bytes while it is active */
    uint8_t *elements;   /* where the caller has them, `count` of this type */
    int count;
    uint8_t *own;             /* memory of this request: a copy of the message, or a head on its way */
    size_t whole, done, part; /* bytes of the message, of its parts so far, of the part that is on its way */
    uint64_t serial;
    uint32_t from; /* where a message came from */
    int error;
    MPI_Status status;
    struct nemesis_request *next;
};

/* A message that a probe claimed. */
struct nemesis_message {
    enum { CLAIMED, COMING, HERE } state; /* by a handle; its head comes to a request of this name; its head is here */
    uint32_t number;
    uint32_t from, tag, context;
    size_t length;
    uint64_t serial;
    uint8_t *head;
    MPI_Comm comm;
    struct nemesis_message *next;
};

/* The last bytes of a head. */
struct trailer {
    uint64_t length, serial;
};

/* ranks.c */
static bool take_number(struct numbers *numbers, uint32_t *number);
static void give_number(struct numbers *numbers, uint32_t number);
static bool turn(void);
static void ask_all(void);
static void rest(unsigned *idle, bool moved);
static _Noreturn void stop(int status);

/* requests.c */
static int prepare(struct nemesis_request *it, enum mode mode, const void *at, int count, MPI_Datatype type, int peer,
            int tag, MPI_Comm comm);
static void keep_type(const struct nemesis_request *it);
static int start(struct nemesis_request *it);
static int start_matched(struct nemesis_request *it, struct nemesis_message *message);
static void advance(struct nemesis_request *it);
static void finish(struct nemesis_request *it);
static struct nemesis_request *new_request(void);
static void drop_request(struct nemesis_request *it);
static void detach(struct nemesis_request *it);
static void end(struct nemesis_request *it, int error);

/* ends.c */
static void tell(MPI_Status *status, const MPI_Status *told);

/* probes.c */
static struct nemesis_message *take_held(uint32_t from, uint32_t tag, uint32_t context);
static void drop_message(struct nemesis_message *message);

/* layouts.c */
static void use_type(MPI_Datatype type);
static void leave_type(MPI_Datatype type);
static void gather_bytes(MPI_Datatype type, int count, const uint8_t *at, uint8_t *out);
static void scatter_bytes(MPI_Datatype type, uint8_t *at, const uint8_t *in, size_t left);

/* communicators.c */
static struct communicator *known(MPI_Comm comm);
static uint32_t context_of(MPI_Comm comm);
static int error_of(nm_code code);
static int raised(MPI_Comm comm, int error, const char *call);

#endif
