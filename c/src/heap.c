/* The calls of rtheap.h on a heap of one thread. */
#include "handles.h"

static rtheap_handle *of(rtheap *heap) { return (rtheap_handle *)heap; }

static const rtheap_handle *seen(const rtheap *heap) { return (const rtheap_handle *)heap; }

/* ---- Opening and closing ---- */

/* Opens a heap with memory of a source, whose lent bytes are `bytes`. */
static rtheap_status opened(rtheap_handle *handle, const rtheap_config *c,
                            const rtheap_source *source, void *lent, size_t bytes) {
    uint32_t version = rtheap_in_version(c->width), status;
    rtheap_using before;
    if (c->threads != 1)
        return rtheap_in_blame(handle, RTHEAP_ERR_BOUNDS, "threads", c->threads, 1, 1);
    before = rtheap_in_use(source, lent, bytes);
    if (source->is_lent)
        status = rtheap_raw_open_in(&handle->owned, bytes / 8, version, c->blocks, c->live,
                                    c->object, c->shared);
    else
        status = rtheap_raw_open(&handle->owned, version, c->blocks, c->live, c->object, c->shared);
    rtheap_in_use_again(before);
    if (status == RTHEAP_OK) rtheap_in_open(handle, RTHEAP_MARK_HEAP, c, source);
    if (status == RTHEAP_ERR_TOO_SMALL)
        return rtheap_in_blame(handle, RTHEAP_ERR_TOO_SMALL, "bytes", bytes, rtheap_bytes(c),
                               UINT64_MAX);
    return rtheap_in_blame_config(handle, (rtheap_status)status, c);
}

static rtheap_status open_from(rtheap *heap, const rtheap_config *config,
                               const rtheap_source *source, void *lent, size_t bytes) {
    rtheap_config known;
    rtheap_status status = rtheap_in_take_closed(of(heap), RTHEAP_MARK_HEAP);
    if (status != RTHEAP_OK) return status;
    status = rtheap_in_config(&known, config);
    if (status == RTHEAP_OK) status = opened(of(heap), &known, source, lent, bytes);
    else rtheap_in_blame(of(heap), status, "config", config ? config->size : 0, sizeof known,
                         UINT64_MAX);
    rtheap_in_give(of(heap));
    return status;
}

rtheap_status rtheap_open(rtheap *heap, const rtheap_config *config) {
    static const rtheap_source from_malloc;
    return open_from(heap, config, &from_malloc, NULL, 0);
}

rtheap_status rtheap_open_with(rtheap *heap, const rtheap_config *config,
                               const rtheap_memory *memory) {
    rtheap_source source = {0, {NULL, NULL, NULL}};
    if (!heap) return RTHEAP_ERR_NULL_HANDLE;
    if (!memory || !memory->allocate || !memory->release) return RTHEAP_ERR_NULL_POINTER;
    source.memory = *memory;
    return open_from(heap, config, &source, NULL, 0);
}

rtheap_status rtheap_open_in(rtheap *heap, const rtheap_config *config, void *memory,
                             size_t bytes) {
    static const rtheap_source lent = {1, {NULL, NULL, NULL}};
    return open_from(heap, config, &lent, memory, memory ? bytes : 0);
}

size_t rtheap_bytes(const rtheap_config *config) {
    rtheap_config known;
    if (rtheap_in_config(&known, config) != RTHEAP_OK) return 0;
    return 8 * rtheap_raw_words(rtheap_in_version(known.width), known.blocks, known.object);
}

rtheap_status rtheap_close(rtheap *heap) {
    rtheap_source source;
    rtheap_using before;
    rtheap_status status = rtheap_in_take(of(heap), RTHEAP_MARK_HEAP);
    if (status != RTHEAP_OK) return status;
    rtheap_in_end(of(heap));
    source = of(heap)->source;
    before = rtheap_in_use(&source, NULL, 0);
    status = (rtheap_status)rtheap_raw_close(&of(heap)->owned);
    rtheap_in_use_again(before);
    if (status == RTHEAP_OK) rtheap_in_close(of(heap));
    rtheap_in_give(of(heap));
    return status;
}

rtheap_status rtheap_move(rtheap *to, rtheap *from) {
    return rtheap_in_move(of(to), of(from), RTHEAP_MARK_HEAP);
}

/* ---- Commands ---- */

/* In each call of one command this is inlined, and of the switch one case is left. */
static inline uint32_t asked(rtheap_owned *heap, const rtheap_command *k, rtheap_reply *r) {
    switch (k->kind) {
    case RTHEAP_COMMAND_RECORD: return rtheap_raw_new(heap, k->a, k->b, r);
    case RTHEAP_COMMAND_ARRAY: return rtheap_raw_arr(heap, k->a, k->b, r);
    case RTHEAP_COMMAND_SET: return rtheap_raw_set(heap, k->a, k->n, r);
    case RTHEAP_COMMAND_NIL: return rtheap_raw_nil(heap, k->a, r);
    case RTHEAP_COMMAND_MOV: return rtheap_raw_mov(heap, k->a, k->b, r);
    case RTHEAP_COMMAND_GET: return rtheap_raw_get(heap, k->a, k->b, k->n, r);
    case RTHEAP_COMMAND_PUT: return rtheap_raw_put(heap, k->a, k->n, k->v, r);
    case RTHEAP_COMMAND_LEN: return rtheap_raw_len(heap, k->a, r);
    case RTHEAP_COMMAND_SAME: return rtheap_raw_same(heap, k->a, k->b, r);
    case RTHEAP_COMMAND_SAY: return rtheap_raw_say(heap, k->a, r);
    case RTHEAP_COMMAND_SWAP: return rtheap_raw_swap(heap, k->a, k->n, k->v, r);
    case RTHEAP_COMMAND_CAS: return rtheap_raw_cas(heap, k->a, k->n, k->b, k->v, r);
    case RTHEAP_COMMAND_IDLE: return rtheap_raw_idle(heap, k->n, r);
    default: return RTHEAP_ERR_NO_SUCH_COMMAND;
    }
}

/* Carries out a command on a handle that was taken. `reply` is written if the heap replied. */
static inline __attribute__((always_inline)) rtheap_status done(rtheap_handle *handle,
                                                                rtheap_command command,
                                                                rtheap_reply *reply) {
    rtheap_reply told = {0, 0, 0};
    uint32_t status = asked(&handle->owned, &command, &told);
    rtheap_status outcome = rtheap_in_outcome(status, &told);
    if (status == 0 && reply) *reply = told;
    if (status == 0 && handle->put) rtheap_in_tell(handle, &command);
    if (outcome == RTHEAP_OK) return outcome;
    return rtheap_in_blame_command(handle, outcome, &command, &told);
}

static inline __attribute__((always_inline)) rtheap_status ask(rtheap *heap, rtheap_command command,
                                                               rtheap_reply *reply) {
    rtheap_status status = rtheap_in_take(of(heap), RTHEAP_MARK_HEAP);
    if (status != RTHEAP_OK) return status;
    status = done(of(heap), command, reply);
    rtheap_in_give(of(heap));
    return status;
}

rtheap_status rtheap_ask(rtheap *heap, rtheap_command command, rtheap_reply *reply) {
    return ask(heap, command, reply);
}

rtheap_status rtheap_ask_all(rtheap *heap, const rtheap_command *commands, size_t count,
                             rtheap_reply *replies, size_t *done_so_far) {
    size_t i = 0;
    rtheap_status status = rtheap_in_take(of(heap), RTHEAP_MARK_HEAP);
    if (status == RTHEAP_OK) {
        if (!commands && count > 0)
            status = rtheap_in_blame(of(heap), RTHEAP_ERR_NULL_POINTER, "commands", 0, 1,
                                     UINT64_MAX);
        for (; status == RTHEAP_OK && i < count; i += status == RTHEAP_OK)
            status = done(of(heap), commands[i], replies ? &replies[i] : NULL);
        rtheap_in_give(of(heap));
    }
    if (done_so_far) *done_so_far = i;
    return status;
}

/* A command that returns a value. */
static inline rtheap_status valued(rtheap *heap, rtheap_command command, rtheap_value *value) {
    rtheap_reply reply = {0, 0, 0};
    rtheap_status status = ask(heap, command, &reply);
    if (status == RTHEAP_OK && value) *value = rtheap_in_value(&reply);
    return status;
}

/* A command that returns yes or no. */
static inline rtheap_status decided(rtheap *heap, rtheap_command command, bool *yes) {
    rtheap_reply reply = {0, 0, 0};
    rtheap_status status = ask(heap, command, &reply);
    if (status == RTHEAP_OK && yes) *yes = reply.kind == RTHEAP_REPLY_YES;
    return status;
}

rtheap_status rtheap_record(rtheap *heap, uint32_t d, uint32_t fields) {
    return ask(heap, rtheap_in_command(RTHEAP_COMMAND_RECORD, d, fields, 0, 0), NULL);
}

rtheap_status rtheap_array(rtheap *heap, uint32_t d, uint32_t elements) {
    return ask(heap, rtheap_in_command(RTHEAP_COMMAND_ARRAY, d, elements, 0, 0), NULL);
}

rtheap_status rtheap_set(rtheap *heap, uint32_t d, uint64_t value) {
    return ask(heap, rtheap_in_command(RTHEAP_COMMAND_SET, d, 0, 0, value), NULL);
}

rtheap_status rtheap_nil(rtheap *heap, uint32_t d) {
    return ask(heap, rtheap_in_command(RTHEAP_COMMAND_NIL, d, 0, 0, 0), NULL);
}

rtheap_status rtheap_mov(rtheap *heap, uint32_t d, uint32_t s) {
    return ask(heap, rtheap_in_command(RTHEAP_COMMAND_MOV, d, s, 0, 0), NULL);
}

rtheap_status rtheap_get(rtheap *heap, uint32_t d, uint32_t s, uint64_t i, rtheap_value *value) {
    return valued(heap, rtheap_in_command(RTHEAP_COMMAND_GET, d, s, 0, i), value);
}

rtheap_status rtheap_put(rtheap *heap, uint32_t s, uint64_t i, uint32_t v) {
    return ask(heap, rtheap_in_command(RTHEAP_COMMAND_PUT, s, 0, v, i), NULL);
}

rtheap_status rtheap_len(rtheap *heap, uint32_t s, uint64_t *length) {
    rtheap_reply reply = {0, 0, 0};
    rtheap_status status = ask(heap, rtheap_in_command(RTHEAP_COMMAND_LEN, s, 0, 0, 0), &reply);
    if (status == RTHEAP_OK && length) *length = reply.value;
    return status;
}

rtheap_status rtheap_same(rtheap *heap, uint32_t a, uint32_t b, bool *same) {
    return decided(heap, rtheap_in_command(RTHEAP_COMMAND_SAME, a, b, 0, 0), same);
}

rtheap_status rtheap_say(rtheap *heap, uint32_t s, rtheap_value *value) {
    return valued(heap, rtheap_in_command(RTHEAP_COMMAND_SAY, s, 0, 0, 0), value);
}

rtheap_status rtheap_swap(rtheap *heap, uint32_t s, uint64_t i, uint32_t v, rtheap_value *old) {
    return valued(heap, rtheap_in_command(RTHEAP_COMMAND_SWAP, s, 0, v, i), old);
}

rtheap_status rtheap_cas(rtheap *heap, uint32_t s, uint64_t i, uint32_t a, uint32_t v,
                         bool *stored) {
    return decided(heap, rtheap_in_command(RTHEAP_COMMAND_CAS, s, a, v, i), stored);
}

rtheap_status rtheap_idle(rtheap *heap, uint64_t units) {
    return ask(heap, rtheap_in_command(RTHEAP_COMMAND_IDLE, 0, 0, 0, units), NULL);
}

/* ---- Several fields ---- */

typedef struct fields {
    uint32_t scratch, object;
    uint64_t first;
    size_t count;
    rtheap_value *values;
    uint64_t *numbers;
    const uint64_t *stored;
} fields;

/* Reads or stores field number `at` of those that are wanted. */
static rtheap_status one_field(rtheap_handle *handle, const fields *f, size_t at) {
    uint64_t i = f->first + at;
    rtheap_reply reply = {0, 0, 0};
    rtheap_status status;
    if (f->stored) {
        status = done(handle, rtheap_cmd_set(f->scratch, f->stored[at]), NULL);
        if (status != RTHEAP_OK) return status;
        return done(handle, rtheap_cmd_put(f->object, i, f->scratch), NULL);
    }
    status = done(handle, rtheap_cmd_get(f->scratch, f->object, i), &reply);
    if (status != RTHEAP_OK) return status;
    if (f->values) f->values[at] = rtheap_in_value(&reply);
    if (!f->numbers) return status;
    if (reply.kind != RTHEAP_REPLY_INT)
        return rtheap_in_blame(handle, RTHEAP_ERR_NOT_NUMBER, "i", i, 0, UINT64_MAX);
    f->numbers[at] = reply.value;
    return status;
}

static rtheap_status each_field(rtheap *heap, const fields *f, const char *register_name,
                                size_t *done_so_far) {
    size_t at = 0;
    rtheap_status status = rtheap_in_take(of(heap), RTHEAP_MARK_HEAP);
    if (status == RTHEAP_OK) {
        bool clash = f->scratch == f->object && (f->count > 1 || f->stored);
        if (f->count > 0 && !f->values && !f->numbers && !f->stored)
            status = rtheap_in_blame(of(heap), RTHEAP_ERR_NULL_POINTER, "values", 0, 1, UINT64_MAX);
        else if (clash)
            status = rtheap_in_blame(of(heap), RTHEAP_ERR_BOUNDS, register_name, f->scratch, 0,
                                     UINT64_MAX);
        for (; status == RTHEAP_OK && at < f->count; at += status == RTHEAP_OK)
            status = one_field(of(heap), f, at);
        rtheap_in_give(of(heap));
    }
    if (done_so_far) *done_so_far = at;
    return status;
}

rtheap_status rtheap_get_values(rtheap *heap, uint32_t d, uint32_t s, uint64_t first,
                                rtheap_value *values, size_t count, size_t *done_so_far) {
    fields f = {d, s, first, count, values, NULL, NULL};
    return each_field(heap, &f, "d", done_so_far);
}

rtheap_status rtheap_get_numbers(rtheap *heap, uint32_t d, uint32_t s, uint64_t first,
                                 uint64_t *numbers, size_t count, size_t *done_so_far) {
    fields f = {d, s, first, count, NULL, numbers, NULL};
    return each_field(heap, &f, "d", done_so_far);
}

rtheap_status rtheap_put_numbers(rtheap *heap, uint32_t s, uint64_t first, uint32_t v,
                                 const uint64_t *numbers, size_t count, size_t *done_so_far) {
    fields f = {v, s, first, count, NULL, NULL, numbers};
    return each_field(heap, &f, "v", done_so_far);
}

/* ---- Gauges ---- */

/* One of the counts of a heap. */
static rtheap_status gauged(const rtheap *heap, uint64_t *result, int which) {
    rtheap_counts counts;
    rtheap_status status = rtheap_in_look(seen(heap), RTHEAP_MARK_HEAP);
    if (status != RTHEAP_OK || !result) return status;
    counts = rtheap_in_counts(seen(heap));
    *result = which == 0 ? counts.units_left : which == 1 ? counts.objects_left : counts.asked;
    return status;
}

rtheap_status rtheap_units_left(const rtheap *heap, uint64_t *units) {
    return gauged(heap, units, 0);
}

rtheap_status rtheap_objects_left(const rtheap *heap, uint64_t *objects) {
    return gauged(heap, objects, 1);
}

rtheap_status rtheap_asked(const rtheap *heap, uint64_t *commands) {
    return gauged(heap, commands, 2);
}

rtheap_status rtheap_read_statistics(const rtheap *heap, rtheap_statistics *statistics,
                                     size_t size) {
    rtheap_status status = rtheap_in_look(seen(heap), RTHEAP_MARK_HEAP);
    if (status != RTHEAP_OK) return status;
    return rtheap_in_statistics(seen(heap), statistics, size);
}

rtheap_status rtheap_read_config(const rtheap *heap, rtheap_config *config, size_t size) {
    rtheap_status status = rtheap_in_look(seen(heap), RTHEAP_MARK_HEAP);
    if (status == RTHEAP_OK && config)
        rtheap_in_copy(config, size, &seen(heap)->config, sizeof *config);
    return status;
}
