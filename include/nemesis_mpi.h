/* nemesis_mpi.h: the part of MPI 3.1 that the core has, for C and C++ programs whose ranks are threads of one process.
 *
 *     c/mpicc program.c -o program
 *     c/mpiexec -n 4 ./program
 *
 * or, where no global variable matters:
 *
 *     cc -Iinclude -Iinclude/mpi program.c c/nemesis_mpi.c libnemesis.a -pthread -Wl,--wrap=main -o program
 *     NEMESIS_RANKS=4 ./program
 *
 * It is plain C over nemesis.h (c/nemesis_mpi.c), and none of it is proved. NEMESIS_RANKS says how many threads run
 * the program's `main`, each as one rank: 1 to 64, or 2 if it is not set. NEMESIS_CELLS and NEMESIS_EAGER set the
 * cells of a rank and the bytes of the eager limit (nemesis.h). What is not declared here fails to compile.
 *
 * Its own rules:
 * - What mpicc links has a copy of its global and static variables for each rank; else all ranks share them.
 * - Only the thread of a rank calls MPI. A rank whose `main` is back without MPI_Finalize ends the process.
 * - All communicators have all ranks, but for MPI_COMM_SELF and its duplicates: 125 at a time.
 * - The elements of a type that is made of several named ones are not counted (MPI_Get_elements).
 * - Errors end the process, or are returned (MPI_ERRORS_RETURN).
 * - A ready send is a standard send. The core copies what is sent, so a buffered send only counts its buffer's bytes.
 *
 * The numbers in brackets are sections of MPI 3.1.
 */
#ifndef NEMESIS_MPI_H
#define NEMESIS_MPI_H

#include <stddef.h>
#include <stdint.h>

#ifdef __cplusplus
extern "C" {
#elif defined __GNUC__
#pragma GCC diagnostic error "-Wimplicit-function-declaration"
#endif

#define MPI_VERSION 3
#define MPI_SUBVERSION 1

enum { MPI_PROC_NULL = -1, MPI_ANY_SOURCE = -2, MPI_ANY_TAG = -1, MPI_UNDEFINED = -32766 };
enum { MPI_MAX_PROCESSOR_NAME = 256, MPI_MAX_ERROR_STRING = 128, MPI_MAX_LIBRARY_VERSION_STRING = 64 };
enum { MPI_BSEND_OVERHEAD = 32 };
enum { MPI_THREAD_SINGLE, MPI_THREAD_FUNNELED, MPI_THREAD_SERIALIZED, MPI_THREAD_MULTIPLE };
#define MPI_BOTTOM ((void *)0)

typedef ptrdiff_t MPI_Aint;
typedef int64_t MPI_Count;

/* Errors (8.4); each is its own class. */
enum {
    MPI_SUCCESS,
    MPI_ERR_BUFFER,
    MPI_ERR_COUNT,
    MPI_ERR_TYPE,
    MPI_ERR_TAG,
    MPI_ERR_COMM,
    MPI_ERR_RANK,
    MPI_ERR_REQUEST,
    MPI_ERR_ARG,
    MPI_ERR_TRUNCATE,
    MPI_ERR_OTHER,
    MPI_ERR_INTERN,
    MPI_ERR_IN_STATUS,
    MPI_ERR_PENDING,
    MPI_ERR_NO_MEM,
    MPI_ERR_ROOT,
    MPI_ERR_GROUP,
    MPI_ERR_OP,
    MPI_ERR_TOPOLOGY,
    MPI_ERR_DIMS,
    MPI_ERR_UNKNOWN,
    MPI_ERR_LASTCODE = MPI_ERR_UNKNOWN
};
typedef enum { MPI_ERRORS_ARE_FATAL, MPI_ERRORS_RETURN } MPI_Errhandler;

/* What a receive got (3.2.5): the last two are for MPI_Get_count and MPI_Test_cancelled. */
typedef struct MPI_Status {
    int MPI_SOURCE, MPI_TAG, MPI_ERROR;
    int nemesis_cancelled;
    size_t nemesis_length;
} MPI_Status;
#define MPI_STATUS_IGNORE ((MPI_Status *)0)
#define MPI_STATUSES_IGNORE ((MPI_Status *)0)

typedef struct nemesis_request *MPI_Request;
#define MPI_REQUEST_NULL ((MPI_Request)0)

typedef struct nemesis_message *MPI_Message;
extern const MPI_Message nemesis_no_process;
#define MPI_MESSAGE_NULL ((MPI_Message)0)
#define MPI_MESSAGE_NO_PROC nemesis_no_process

typedef struct nemesis_comm {
    char none;
} *MPI_Comm;
extern struct nemesis_comm nemesis_comms[];
#define MPI_COMM_NULL ((MPI_Comm)0)
#define MPI_COMM_WORLD (&nemesis_comms[0])
#define MPI_COMM_SELF (&nemesis_comms[1])

/* A type (4.1). Its pieces are runs of bytes, none if copies of it leave no gap. */
struct nemesis_piece {
    MPI_Aint at;
    size_t length;
};
typedef const struct nemesis_type {
    size_t size, unit; /* in bytes: of the type, and of the named one that it repeats, or 0 */
    MPI_Aint lower, extent;
    size_t align, count, users;
    struct nemesis_piece *pieces;
} *MPI_Datatype;
extern const struct nemesis_type nemesis_types[];
#define MPI_DATATYPE_NULL ((MPI_Datatype)0)
#define MPI_CHAR (&nemesis_types[0])
#define MPI_SIGNED_CHAR (&nemesis_types[1])
#define MPI_UNSIGNED_CHAR (&nemesis_types[2])
#define MPI_BYTE (&nemesis_types[3])
#define MPI_SHORT (&nemesis_types[4])
#define MPI_UNSIGNED_SHORT (&nemesis_types[5])
#define MPI_INT (&nemesis_types[6])
#define MPI_UNSIGNED (&nemesis_types[7])
#define MPI_LONG (&nemesis_types[8])
#define MPI_UNSIGNED_LONG (&nemesis_types[9])
#define MPI_LONG_LONG (&nemesis_types[10])
#define MPI_LONG_LONG_INT MPI_LONG_LONG
#define MPI_UNSIGNED_LONG_LONG (&nemesis_types[11])
#define MPI_FLOAT (&nemesis_types[12])
#define MPI_DOUBLE (&nemesis_types[13])
#define MPI_LONG_DOUBLE (&nemesis_types[14])
#define MPI_WCHAR (&nemesis_types[15])
#define MPI_C_BOOL (&nemesis_types[16])
#define MPI_INT8_T (&nemesis_types[17])
#define MPI_INT16_T (&nemesis_types[18])
#define MPI_INT32_T (&nemesis_types[19])
#define MPI_INT64_T (&nemesis_types[20])
#define MPI_UINT8_T (&nemesis_types[21])
#define MPI_UINT16_T (&nemesis_types[22])
#define MPI_UINT32_T (&nemesis_types[23])
#define MPI_UINT64_T (&nemesis_types[24])
#define MPI_AINT (&nemesis_types[25])
#define MPI_COUNT (&nemesis_types[26])
#define MPI_C_FLOAT_COMPLEX (&nemesis_types[27])
#define MPI_C_COMPLEX MPI_C_FLOAT_COMPLEX
#define MPI_C_DOUBLE_COMPLEX (&nemesis_types[28])
#define MPI_C_LONG_DOUBLE_COMPLEX (&nemesis_types[29])
#define MPI_PACKED MPI_BYTE

/* Memory (8.2) */
typedef struct nemesis_info *MPI_Info;
#define MPI_INFO_NULL ((MPI_Info)0)
int MPI_Alloc_mem(MPI_Aint size, MPI_Info info, void *at);
int MPI_Free_mem(void *at);

/* Ranks and errors (8.3, 8.4, 8.6, 8.7, 12.4.3) */
int MPI_Init(int *count, char ***words);
int MPI_Init_thread(int *count, char ***words, int required, int *provided);
int MPI_Initialized(int *flag);
int MPI_Finalize(void);
int MPI_Finalized(int *flag);
int MPI_Abort(MPI_Comm comm, int status);
double MPI_Wtime(void);
double MPI_Wtick(void);
int MPI_Get_version(int *version, int *subversion);
int MPI_Get_library_version(char *text, int *length);
int MPI_Get_processor_name(char *name, int *length);
int MPI_Error_class(int error, int *class_of);
int MPI_Error_string(int error, char *text, int *length);

/* Communicators (6.4), of whose attributes there is MPI_TAG_UB (8.1.2); a barrier and a broadcast (5.3, 5.4) */
enum { MPI_TAG_UB = 1 };
int MPI_Comm_rank(MPI_Comm comm, int *rank);
int MPI_Comm_size(MPI_Comm comm, int *size);
int MPI_Comm_dup(MPI_Comm comm, MPI_Comm *made);
int MPI_Comm_free(MPI_Comm *comm);
int MPI_Comm_set_errhandler(MPI_Comm comm, MPI_Errhandler handler);
int MPI_Comm_get_errhandler(MPI_Comm comm, MPI_Errhandler *handler);
int MPI_Comm_get_attr(MPI_Comm comm, int key, void *value, int *flag);
int MPI_Barrier(MPI_Comm comm);
int MPI_Bcast(void *at, int count, MPI_Datatype type, int root, MPI_Comm comm);

/* Types (4.1), how many of one a message has (3.2.5), and statuses by hand (12.3) */
int MPI_Type_contiguous(int count, MPI_Datatype type, MPI_Datatype *made);
int MPI_Type_vector(int count, int length, int stride, MPI_Datatype type, MPI_Datatype *made);
int MPI_Type_create_hvector(int count, int length, MPI_Aint stride, MPI_Datatype type, MPI_Datatype *made);
int MPI_Type_indexed(int count, const int lengths[], const int indices[], MPI_Datatype type, MPI_Datatype *made);
int MPI_Type_create_indexed_block(int count, int length, const int indices[], MPI_Datatype type, MPI_Datatype *made);
int MPI_Type_create_hindexed(int count, const int lengths[], const MPI_Aint places[], MPI_Datatype type,
                             MPI_Datatype *made);
int MPI_Type_create_hindexed_block(int count, int length, const MPI_Aint places[], MPI_Datatype type,
                                   MPI_Datatype *made);
int MPI_Type_create_struct(int count, const int lengths[], const MPI_Aint places[], const MPI_Datatype types[],
                           MPI_Datatype *made);
enum { MPI_ORDER_C, MPI_ORDER_FORTRAN };
int MPI_Type_create_subarray(int dims, const int sizes[], const int parts[], const int starts[], int order,
                             MPI_Datatype type, MPI_Datatype *made);
int MPI_Type_create_resized(MPI_Datatype type, MPI_Aint lower, MPI_Aint extent, MPI_Datatype *made);
int MPI_Type_dup(MPI_Datatype type, MPI_Datatype *made);
int MPI_Type_commit(MPI_Datatype *type);
int MPI_Type_free(MPI_Datatype *type);
int MPI_Type_size(MPI_Datatype type, int *size);
int MPI_Type_get_extent(MPI_Datatype type, MPI_Aint *lower, MPI_Aint *extent);
int MPI_Type_get_true_extent(MPI_Datatype type, MPI_Aint *lower, MPI_Aint *extent);
int MPI_Get_address(const void *at, MPI_Aint *address);
int MPI_Pack(const void *at, int count, MPI_Datatype type, void *out, int room, int *position, MPI_Comm comm);
int MPI_Unpack(const void *in, int room, int *position, void *at, int count, MPI_Datatype type, MPI_Comm comm);
int MPI_Pack_size(int count, MPI_Datatype type, MPI_Comm comm, int *size);
int MPI_Get_count(const MPI_Status *status, MPI_Datatype type, int *count);
int MPI_Get_elements(const MPI_Status *status, MPI_Datatype type, int *count);
int MPI_Get_elements_x(const MPI_Status *status, MPI_Datatype type, MPI_Count *count);
int MPI_Status_set_elements(MPI_Status *status, MPI_Datatype type, int count);
int MPI_Status_set_elements_x(MPI_Status *status, MPI_Datatype type, MPI_Count count);
int MPI_Status_set_cancelled(MPI_Status *status, int flag);

/* Blocking calls (3.2, 3.4, 3.10) and buffers (3.6) */
int MPI_Send(const void *at, int count, MPI_Datatype type, int to, int tag, MPI_Comm comm);
int MPI_Bsend(const void *at, int count, MPI_Datatype type, int to, int tag, MPI_Comm comm);
int MPI_Ssend(const void *at, int count, MPI_Datatype type, int to, int tag, MPI_Comm comm);
int MPI_Rsend(const void *at, int count, MPI_Datatype type, int to, int tag, MPI_Comm comm);
int MPI_Recv(void *at, int count, MPI_Datatype type, int from, int tag, MPI_Comm comm, MPI_Status *status);
int MPI_Sendrecv(const void *out, int outs, MPI_Datatype out_type, int to, int out_tag, void *in, int ins,
                 MPI_Datatype in_type, int from, int in_tag, MPI_Comm comm, MPI_Status *status);
int MPI_Sendrecv_replace(void *at, int count, MPI_Datatype type, int to, int out_tag, int from, int in_tag,
                         MPI_Comm comm, MPI_Status *status);
int MPI_Buffer_attach(void *at, int size);
int MPI_Buffer_detach(void *at, int *size);

/* Starts (3.7.2), and requests that are started again (3.9) */
int MPI_Isend(const void *at, int count, MPI_Datatype type, int to, int tag, MPI_Comm comm, MPI_Request *made);
int MPI_Ibsend(const void *at, int count, MPI_Datatype type, int to, int tag, MPI_Comm comm, MPI_Request *made);
int MPI_Issend(const void *at, int count, MPI_Datatype type, int to, int tag, MPI_Comm comm, MPI_Request *made);
int MPI_Irsend(const void *at, int count, MPI_Datatype type, int to, int tag, MPI_Comm comm, MPI_Request *made);
int MPI_Irecv(void *at, int count, MPI_Datatype type, int from, int tag, MPI_Comm comm, MPI_Request *made);
int MPI_Send_init(const void *at, int count, MPI_Datatype type, int to, int tag, MPI_Comm comm, MPI_Request *made);
int MPI_Bsend_init(const void *at, int count, MPI_Datatype type, int to, int tag, MPI_Comm comm, MPI_Request *made);
int MPI_Ssend_init(const void *at, int count, MPI_Datatype type, int to, int tag, MPI_Comm comm, MPI_Request *made);
int MPI_Rsend_init(const void *at, int count, MPI_Datatype type, int to, int tag, MPI_Comm comm, MPI_Request *made);
int MPI_Recv_init(void *at, int count, MPI_Datatype type, int from, int tag, MPI_Comm comm, MPI_Request *made);
int MPI_Start(MPI_Request *request);
int MPI_Startall(int count, MPI_Request requests[]);

/* Ends (3.7.3, 3.7.5, 3.7.6) and cancels (3.8.4) */
int MPI_Wait(MPI_Request *request, MPI_Status *status);
int MPI_Waitall(int count, MPI_Request requests[], MPI_Status statuses[]);
int MPI_Waitany(int count, MPI_Request requests[], int *index, MPI_Status *status);
int MPI_Waitsome(int count, MPI_Request requests[], int *ended, int indices[], MPI_Status statuses[]);
int MPI_Test(MPI_Request *request, int *flag, MPI_Status *status);
int MPI_Testall(int count, MPI_Request requests[], int *flag, MPI_Status statuses[]);
int MPI_Testany(int count, MPI_Request requests[], int *index, int *flag, MPI_Status *status);
int MPI_Testsome(int count, MPI_Request requests[], int *ended, int indices[], MPI_Status statuses[]);
int MPI_Request_get_status(MPI_Request request, int *flag, MPI_Status *status);
int MPI_Request_free(MPI_Request *request);
int MPI_Cancel(MPI_Request *request);
int MPI_Test_cancelled(const MPI_Status *status, int *flag);

/* Probes (3.8.1, 3.8.2), and receives of what they matched (3.8.3) */
int MPI_Probe(int from, int tag, MPI_Comm comm, MPI_Status *status);
int MPI_Iprobe(int from, int tag, MPI_Comm comm, int *flag, MPI_Status *status);
int MPI_Mprobe(int from, int tag, MPI_Comm comm, MPI_Message *message, MPI_Status *status);
int MPI_Improbe(int from, int tag, MPI_Comm comm, int *flag, MPI_Message *message, MPI_Status *status);
int MPI_Mrecv(void *at, int count, MPI_Datatype type, MPI_Message *message, MPI_Status *status);
int MPI_Imrecv(void *at, int count, MPI_Datatype type, MPI_Message *message, MPI_Request *made);

#ifdef __cplusplus
}
#endif

#endif
