/* nemesis.h: MPI's point-to-point messages between threads of one process.
 *
 * A world has ranks, each driven by the thread that owns its handle. A call runs at once and never waits. It
 * only looks at what came already: `nm_progress` sends what is to be sent and takes what came. So a blocking
 * call is a loop:
 *
 *     while ((code = nm_test(rank, name, &status, body, room)) == NM_PENDING) nm_progress(rank);
 *
 * Each call answers a code. One below NM_ERRORS is an answer. Another one is an error: nothing was done, but
 * where it is said otherwise. What a caller can get wrong in a number is asked and answered; memory is not:
 *
 * - A handle is one that `nm_world_new` wrote, not freed, and used by one call at a time. Threads hand it on by
 *   a thread's start or join, a lock, or an atomic that is sequentially consistent.
 * - A pointer is not NULL, also where it has a length of 0, and the memory behind it is the call's alone while
 *   it runs. No call keeps it: a body may be written over as soon as the call that sends it is back.
 * - No call is made in a signal handler, or in a forked child of a process with threads.
 *
 * A request has a name, a number that the caller chooses. So has a message that a matched probe claimed (its
 * handle). Bodies are bytes. The numbers in brackets are sections of MPI 3.1.
 */
#ifndef NEMESIS_H
#define NEMESIS_H

#include <stddef.h>
#include <stdint.h>

#ifdef __cplusplus
extern "C" {
#endif

/* A rank: what its thread calls. */
typedef struct nm_rank {
    void *at;
} nm_rank;

/* The envelope of a message (3.2.3), and the length of its body in bytes. */
typedef struct nm_status {
    uint32_t from;
    uint32_t tag;
    uint32_t length;
} nm_status;

/* What a rank has left. */
typedef struct nm_left {
    uint32_t requests; /* live requests: started, and not ended by `nm_test` */
    uint32_t to_send;  /* 1 if packets or bytes of its messages are still to be sent, else 0 */
} nm_left;

enum {
    NM_MAX_RANKS = 64,        /* ranks of a world */
    NM_MAX_CELLS = 64,        /* cells of a rank, at least 1 */
    NM_MAX_EAGER = 4096,      /* bytes of the eager limit */
    NM_MAX_NAME = 65535,      /* name of a request, and of a claimed message */
    NM_MAX_TAG = 32767,       /* tag */
    NM_MAX_CONTEXT = 255,     /* context (a communicator's messages: 3.2.3) */
    NM_MAX_LENGTH = 1048576,  /* bytes of a body, and of the capacity of a receive */
    NM_WORLD_CELLS = 8,       /* cells and eager limit where there is no reason for others */
    NM_WORLD_EAGER = 1024
};

/* MPI_ANY_SOURCE and MPI_ANY_TAG (3.2.4), in the place of a source and of a tag. */
#define NM_ANY UINT32_MAX

/* What a call answers. */
typedef uint32_t nm_code;
enum {
    NM_OK = 0,         /* done: started, given, made, told, closed */
    NM_PENDING = 1,    /* the request is not complete */
    NM_SENT = 2,       /* the send is complete, and its request has ended */
    NM_RECEIVED = 3,   /* the receive is complete, and its request has ended */
    NM_CUT = 4,        /* so it is, and the message was longer than its capacity (3.2.2): no byte is given */
    NM_CANCELLED = 5,  /* the request was cancelled (3.8.4), and has ended */
    NM_SEEN = 6,       /* there is a message */
    NM_NOTHING = 7,    /* there is none */
    NM_WITHDRAWN = 8,  /* the receive is cancelled, as `nm_test` will tell */
    NM_LATE = 9,       /* the receive has its message, and is not cancelled */
    NM_ASKED = 10,     /* the receiver is asked to let the send go: `nm_test` tells whether it did */
    NM_MOVED = 11,     /* something was sent or taken */
    NM_IDLE = 12,      /* nothing was, since nothing could be */
    NM_ERRORS = 100,   /* from here on: errors */
    NM_BUSY = 100,         /* the name has a live request, or the handle a message */
    NM_NO_SUCH = 101,      /* the name has no live request, or the handle no message */
    NM_BAD_NAME = 102,     /* above NM_MAX_NAME */
    NM_BAD_RANK = 103,     /* no rank of the world, nor NM_ANY where that is allowed */
    NM_BAD_TAG = 104,      /* above NM_MAX_TAG, and not NM_ANY where that is allowed */
    NM_BAD_CONTEXT = 105,  /* above NM_MAX_CONTEXT */
    NM_BAD_LENGTH = 106,   /* above NM_MAX_LENGTH */
    NM_BAD_WORLD = 107,    /* ranks, cells or eager limit out of range */
    NM_SHORT = 108,        /* the memory is shorter than the body */
    NM_MEMORY = 109,       /* memory was refused: if that was within the core, the rank has failed */
    NM_FAILED = 110,       /* the rank failed before, and does nothing any more */
    NM_CLOSED = 111,       /* the rank is closed */
    NM_WORN = 112,         /* the rank has used up its numbers: 2^60 packets, 2^62 events or 2^64 - 6 calls */
    NM_WAITS = 113         /* a wait that was given has not ended: the rank takes no other command */
};

/* Makes a world of `count` ranks, 1 to 64, and writes their handles into `ranks`, that of rank k at place k.
 * Each rank owns `cells` cells (1 to 64), and a standard send of up to `eager` bytes (at most 4096) completes
 * without a receive (3.4). NM_OK, NM_BAD_WORLD, or NM_MEMORY: then no handle is written. */
nm_code nm_world_new(nm_rank *ranks, size_t count, uint32_t cells, uint32_t eager);

/* The number of the rank, and how many there are (6.4.1). */
uint32_t nm_number(nm_rank *rank);
uint32_t nm_count(nm_rank *rank);

/* Starts a standard send (3.7.2) of the `length` bytes at `body`, at most 1,048,576, to the rank `to`, which may
 * be this one. They are copied. NM_OK, NM_BUSY, NM_BAD_NAME, NM_BAD_RANK, NM_BAD_TAG, NM_BAD_CONTEXT,
 * NM_BAD_LENGTH, NM_WAITS, NM_WORN, NM_MEMORY, NM_FAILED, NM_CLOSED. */
nm_code nm_isend(nm_rank *rank, uint32_t name, uint32_t to, uint32_t tag, uint32_t context, const uint8_t *body,
                 size_t length);

/* Starts a synchronous send: it completes only when a receive has matched it (3.4). */
nm_code nm_issend(nm_rank *rank, uint32_t name, uint32_t to, uint32_t tag, uint32_t context, const uint8_t *body,
                  size_t length);

/* Starts a receive (3.7.2) of a message of at most `capacity` bytes. `from` and `tag` may be NM_ANY. The bytes
 * are given by `nm_test`. Errors as of `nm_isend`. */
nm_code nm_irecv(nm_rank *rank, uint32_t name, uint32_t from, uint32_t tag, uint32_t context, uint32_t capacity);

/* Whether the request is complete (MPI_Test, 3.7.3): NM_PENDING; or, and then the request has ended, NM_SENT,
 * NM_RECEIVED, NM_CUT or NM_CANCELLED. NM_NO_SUCH, NM_BAD_NAME, NM_WAITS, NM_WORN, NM_MEMORY, NM_FAILED,
 * NM_CLOSED.
 *
 * At NM_RECEIVED and NM_CUT `status` tells the message, else it is left as it was. At NM_RECEIVED the first
 * bytes of the body, as many as `room`, are written to `body`. Where `room` is less than `status->length`,
 * `nm_body` gives all. */
nm_code nm_test(nm_rank *rank, uint32_t name, nm_status *status, uint8_t *body, size_t room);

/* Gives a wait for the request (MPI_Wait, 3.7.3): the turns of `nm_progress` run it as soon as the request is
 * complete, in the turn in which it comes to be. Until then the rank takes no other command (NM_WAITS). So a
 * blocking call is also this loop, with fewer steps for each turn:
 *
 *     code = nm_wait(rank, name);
 *     while (code == NM_OK || code == NM_PENDING) { nm_progress(rank); code = nm_answer(rank, &status, body, room); }
 *
 * NM_OK, NM_WAITS, NM_BAD_NAME, NM_WORN, NM_FAILED, NM_CLOSED. */
nm_code nm_wait(nm_rank *rank, uint32_t name);

/* What the last command of the rank came to, to be asked for after each turn: NM_PENDING while a wait that was
 * given has not ended, else as the command's own call answers, with `status` and `body` as of `nm_test`. NM_NO_SUCH
 * if something was sent or taken since, or no command was run; NM_FAILED. */
nm_code nm_answer(nm_rank *rank, nm_status *status, uint8_t *body, size_t room);

/* Writes the body that the last command was answered with, as NM_RECEIVED tells, if no call of this rank but this
 * one was made since. NM_OK, NM_SHORT if it is longer than `room`, NM_NO_SUCH, NM_FAILED. */
nm_code nm_body(nm_rank *rank, uint8_t *body, size_t room);

/* Whether there is a message that such a receive would match (MPI_Iprobe, 3.8.1): NM_SEEN, with its `status`, or
 * NM_NOTHING. Errors as of `nm_irecv`. */
nm_code nm_iprobe(nm_rank *rank, uint32_t from, uint32_t tag, uint32_t context, nm_status *status);

/* The same, and the message is this handle's from then on (MPI_Improbe, 3.8.2). NM_BUSY where the handle has a
 * message. */
nm_code nm_improbe(nm_rank *rank, uint32_t handle, uint32_t from, uint32_t tag, uint32_t context,
                   nm_status *status);

/* Starts a receive of a handle's message (MPI_Imrecv, 3.8.3), and the handle is free again. NM_OK, NM_BUSY (the
 * name), NM_NO_SUCH (the handle), NM_BAD_NAME (either), NM_BAD_LENGTH, and so on. */
nm_code nm_imrecv(nm_rank *rank, uint32_t name, uint32_t handle, uint32_t capacity);

/* Asks to cancel the request (3.8.4): NM_WITHDRAWN or NM_LATE of a receive, NM_ASKED of a send. The request stays
 * live until `nm_test` ends it. NM_NO_SUCH, and so on. */
nm_code nm_cancel(nm_rank *rank, uint32_t name);

/* One turn of this rank: it sends and takes what it can, at most 64 packets each way and 64 pieces of long messages
 * (4 of each rank). It never waits: at most 140 steps on shared words for each rank of the world, and 2,048.
 * NM_MOVED, NM_IDLE, NM_MEMORY, NM_FAILED. A rank that makes no turns gets no message, and sends none that it was
 * given. */
nm_code nm_progress(nm_rank *rank);

/* What is left: NM_OK, NM_FAILED. */
nm_code nm_left_of(nm_rank *rank, nm_left *left);

/* Closes the rank, and tells what it had left. From then on it takes no call (NM_CLOSED) but `nm_progress`,
 * `nm_number`, `nm_count`, `nm_answer`, `nm_body`, `nm_left_of` and `nm_rank_free`. Turns still send what is left to
 * send, and take what comes, so that the cells of other ranks go home: a rank that others send to goes on making turns
 * until these are closed, too. NM_OK, NM_FAILED, NM_CLOSED. */
nm_code nm_close(nm_rank *rank, nm_left *left);

/* Ends a world whose threads are done with it: `ranks` has all its `count` ranks, that of rank k at place k. Each makes
 * a turn, and if none did anything, and nothing is under way, that was the world:
 *
 *     while ((code = nm_world_end(ranks, count)) == NM_MOVED) {}
 *     for (size_t k = 0; k < count; k++) nm_rank_free(ranks[k]);
 *
 * NM_OK; or NM_PENDING where a wait that was given has not ended, and never will. What the ranks were asked and have
 * answered was then a lawful run of all of them (3.5), and all cells are home. From then on the handles are those of
 * closed ranks, with nothing left. NM_MOVED: a turn did something, so ask again. NM_FAILED, of one of them.
 * NM_BAD_WORLD: they are not all ranks of one world, or not in order. At these three the ranks stay what they are.
 * NM_MEMORY: the world may be lost, and then its handles are those of closed ranks. */
nm_code nm_world_end(nm_rank *ranks, size_t count);

/* Frees the handle, closed or not. No call takes it any more. The last handle of a world frees the world. What was
 * sent to the rank and not received is lost, and where its cells are those of a sender, that one may be left with
 * fewer: so free a rank once all have closed. */
void nm_rank_free(nm_rank rank);

#ifdef __cplusplus
}
#endif

#endif
