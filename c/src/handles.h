/* What the C files of this folder share: handles, allocators, and the causes of errors. */
#ifndef RTHEAP_HANDLES_H
#define RTHEAP_HANDLES_H

#include "exports.h"

/* The marks of open handles, one for each kind. */
#define RTHEAP_MARK_HEAP UINT64_C(0x7274686561704831)
#define RTHEAP_MARK_GROUP UINT64_C(0x7274686561704732)
#define RTHEAP_MARK_WORKER UINT64_C(0x7274686561705733)

#define RTHEAP_MOST_UNITS (UINT64_C(1) << 45)
#define RTHEAP_MOST_OBJECTS ((UINT64_C(1) << 43) - 1)
#define RTHEAP_MOST_COMMANDS (UINT64_C(1) << 60)

/* Where a heap has its memory from. Of malloc all is zero; lent memory has no allocator. */
typedef struct rtheap_source {
    uint64_t is_lent;
    rtheap_memory memory; /* allocate is NULL: malloc, or lent */
} rtheap_source;

/* What the words of an rtheap, rtheap_group or rtheap_worker are. */
typedef struct __attribute__((may_alias)) rtheap_handle {
    uint64_t mark;    /* one of the three, or the handle is closed */
    const void *self; /* where the handle is */
    uint32_t busy;    /* 1 while a call uses it */
    uint32_t pending; /* 1 while a worker's command is not done */
    rtheap_owned owned;
    rtheap_source source;
    rtheap_config config;
    uint32_t thread;
    uint64_t group; /* the number of the group, or of the worker's group */
    rtheap_error error;
    uint64_t fulls, full_cycle;
    rtheap_command command; /* of a worker: the one that was started last */
    void (*put)(void *context, const char *line); /* NULL: no job is recorded */
    void *put_context;
    uint64_t put_commands; /* of the job so far */
} rtheap_handle;

_Static_assert(sizeof(rtheap_handle) <= sizeof(rtheap), "an rtheap has too few words");
_Static_assert(sizeof(rtheap_group) == sizeof(rtheap), "groups and heaps differ in size");
_Static_assert(sizeof(rtheap_worker) == sizeof(rtheap), "workers and heaps differ in size");

/* A call takes an open handle of this kind, or a closed one to open it, and gives it back. Another
   thread may close the handle between the two looks at its mark. */
rtheap_status rtheap_in_refused(rtheap_handle *handle, uint64_t mark);
rtheap_status rtheap_in_take_closed(rtheap_handle *handle, uint64_t mark);

static inline void rtheap_in_give(rtheap_handle *handle) {
    __atomic_store_n(&handle->busy, 0, __ATOMIC_RELEASE);
}

static inline rtheap_status rtheap_in_take(rtheap_handle *handle, uint64_t mark) {
    if (!handle || __atomic_load_n(&handle->mark, __ATOMIC_RELAXED) != mark ||
        __atomic_load_n(&handle->self, __ATOMIC_RELAXED) != handle)
        return rtheap_in_refused(handle, mark);
    if (__atomic_exchange_n(&handle->busy, 1, __ATOMIC_ACQUIRE)) return RTHEAP_ERR_IN_USE;
    if (__atomic_load_n(&handle->mark, __ATOMIC_RELAXED) == mark) return RTHEAP_OK;
    rtheap_in_give(handle);
    return rtheap_in_refused(handle, mark);
}

/* Whether a gauge may read a handle, which it does not take. */
rtheap_status rtheap_in_look(const rtheap_handle *handle, uint64_t mark);

/* A handle that was taken becomes open, or closed. An error that was noted stays. */
void rtheap_in_open(rtheap_handle *handle, uint64_t mark, const rtheap_config *config,
                    const rtheap_source *source);
void rtheap_in_close(rtheap_handle *handle);

/* Moves a handle of this kind to a closed one. */
rtheap_status rtheap_in_move(rtheap_handle *to, rtheap_handle *from, uint64_t mark);

/* The configuration that a program gave, as this version knows it. */
rtheap_status rtheap_in_config(rtheap_config *known, const rtheap_config *given);

/* The version of a width, for the exports; 0 for any other. */
uint32_t rtheap_in_version(uint32_t width);

/* The rate of a heap that is open. */
uint64_t rtheap_in_rate(const rtheap_config *config);

/* Copies the first `size` bytes of something of `own` bytes, and zeros for those that it lacks. */
void rtheap_in_copy(void *to, size_t size, const void *from, size_t own);

/* The status of a command, from that of its export and its reply. */
static inline rtheap_status rtheap_in_outcome(uint32_t status, const rtheap_reply *reply) {
    if (status != 0) return (rtheap_status)status;
    switch (reply->kind) {
    case RTHEAP_REPLY_FULL: return RTHEAP_ERR_FULL;
    case RTHEAP_REPLY_NIL_REGISTER: return RTHEAP_ERR_NIL;
    case RTHEAP_REPLY_NOT_OBJECT: return RTHEAP_ERR_NOT_OBJECT;
    case RTHEAP_REPLY_RANGE: return RTHEAP_ERR_RANGE;
    default: return RTHEAP_OK;
    }
}

/* The value that a reply carries. */
static inline rtheap_value rtheap_in_value(const rtheap_reply *reply) {
    rtheap_value value = {RTHEAP_NIL, reply->thread, reply->value};
    if (reply->kind == RTHEAP_REPLY_INT) value.kind = RTHEAP_INT;
    if (reply->kind == RTHEAP_REPLY_REF) value.kind = RTHEAP_REF;
    return value;
}

static inline rtheap_command rtheap_in_command(rtheap_command_kind kind, uint32_t a, uint32_t b,
                                               uint32_t v, uint64_t n) {
    rtheap_command command = {(uint32_t)kind, a, b, v, n};
    return command;
}

/* Where this thread's calls have memory from: a source, or malloc if that is NULL, and what is left
   of lent memory. */
typedef struct rtheap_using {
    const rtheap_source *source;
    unsigned char *at;
    size_t bytes;
} rtheap_using;

/* From now on this thread has memory from a source, of which lent memory has these bytes. Returns
   what was in use before, which has to be used again: an allocator of the program, or a signal
   handler, may open another heap meanwhile. */
rtheap_using rtheap_in_use(const rtheap_source *source, void *lent, size_t bytes);
void rtheap_in_use_again(rtheap_using before);

/* For a call that allocates for its work alone: memory from where the heap has its own. Of lent
   memory nothing is left, so such a call has it from malloc. The handle is taken. */
rtheap_using rtheap_in_use_for_work(const rtheap_handle *handle);

/* Note what was wrong, and return the status. */
rtheap_status rtheap_in_blame(rtheap_handle *handle, rtheap_status status, const char *argument,
                              uint64_t value, uint64_t least, uint64_t most);
rtheap_status rtheap_in_blame_config(rtheap_handle *handle, rtheap_status status,
                                     const rtheap_config *config);
rtheap_status rtheap_in_blame_command(rtheap_handle *handle, rtheap_status status,
                                      const rtheap_command *command, const rtheap_reply *reply);

/* What an operand of a command is, and which field of rtheap_command has it. */
typedef enum rtheap_role {
    RTHEAP_IS_NONE,
    RTHEAP_IS_REGISTER,
    RTHEAP_IS_NUMBER,
    RTHEAP_IS_FIELDS,
    RTHEAP_IS_ELEMENTS,
    RTHEAP_IS_UNITS
} rtheap_role;

typedef struct rtheap_operand {
    const char *name;
    char from;
    rtheap_role is;
} rtheap_operand;

extern const rtheap_operand rtheap_in_operands[13][4];
uint64_t rtheap_in_number(const rtheap_command *command, char from);

/* Tells a command that was carried out as a line of the job, or the job's last line. */
void rtheap_in_tell(rtheap_handle *handle, const rtheap_command *command);
void rtheap_in_end(rtheap_handle *handle);

/* The counts of a handle that is open. */
typedef struct rtheap_counts {
    uint64_t units_left, objects_left, asked;
} rtheap_counts;

rtheap_counts rtheap_in_counts(const rtheap_handle *handle);
rtheap_status rtheap_in_statistics(const rtheap_handle *handle, rtheap_statistics *statistics,
                                   size_t size);
rtheap_status rtheap_in_last_error(const rtheap_handle *handle, rtheap_error *error, size_t size);

#endif
