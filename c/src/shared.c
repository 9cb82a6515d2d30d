/* The calls of rtheap_shared.h on a heap that threads share. */
#include "handles.h"

static rtheap_handle *of_group(rtheap_group *group) { return (rtheap_handle *)group; }

static rtheap_handle *of_worker(rtheap_worker *worker) { return (rtheap_handle *)worker; }

static const rtheap_handle *seen(const rtheap_worker *worker) {
    return (const rtheap_handle *)worker;
}

/* ---- Groups ---- */

/* Groups have numbers, by which a worker knows its own. */
static uint64_t groups;

static rtheap_status opened(rtheap_handle *handle, const rtheap_config *c,
                            const rtheap_source *source) {
    rtheap_using before;
    uint32_t status;
    before = rtheap_in_use(source, NULL, 0);
    status = rtheap_group_raw_open(&handle->owned, rtheap_in_version(c->width), c->threads,
                                   c->blocks, c->live, c->object, c->shared);
    rtheap_in_use_again(before);
    if (status != RTHEAP_OK) return rtheap_in_blame_config(handle, (rtheap_status)status, c);
    rtheap_in_open(handle, RTHEAP_MARK_GROUP, c, source);
    handle->group = __atomic_add_fetch(&groups, 1, __ATOMIC_RELAXED);
    return RTHEAP_OK;
}

static rtheap_status open_from(rtheap_group *group, const rtheap_config *config,
                               const rtheap_source *source) {
    rtheap_config known;
    rtheap_status status = rtheap_in_take_closed(of_group(group), RTHEAP_MARK_GROUP);
    if (status != RTHEAP_OK) return status;
    status = rtheap_in_config(&known, config);
    if (status == RTHEAP_OK) status = opened(of_group(group), &known, source);
    else rtheap_in_blame(of_group(group), status, "config", config ? config->size : 0, sizeof known,
                         UINT64_MAX);
    rtheap_in_give(of_group(group));
    return status;
}

rtheap_status rtheap_group_open(rtheap_group *group, const rtheap_config *config) {
    static const rtheap_source from_malloc;
    return open_from(group, config, &from_malloc);
}

rtheap_status rtheap_group_open_with(rtheap_group *group, const rtheap_config *config,
                                     const rtheap_memory *memory) {
    rtheap_source source = {0, {NULL, NULL, NULL}};
    if (!group) return RTHEAP_ERR_NULL_HANDLE;
    if (!memory || !memory->allocate || !memory->release) return RTHEAP_ERR_NULL_POINTER;
    source.memory = *memory;
    return open_from(group, config, &source);
}

static rtheap_status blamed(rtheap_handle *handle, uint32_t status) {
    if (status == RTHEAP_OK) return RTHEAP_OK;
    return rtheap_in_blame(handle, (rtheap_status)status, NULL, 0, 0, UINT64_MAX);
}

/* Both handles are taken. */
static rtheap_status attached(rtheap_handle *group, rtheap_handle *worker) {
    rtheap_owned owned;
    rtheap_using before;
    uint32_t status;
    before = rtheap_in_use(&group->source, NULL, 0);
    status = rtheap_group_raw_attach(&group->owned, &worker->owned);
    rtheap_in_use_again(before);
    if (status != RTHEAP_OK) return blamed(group, status);
    rtheap_in_open(worker, RTHEAP_MARK_WORKER, &group->config, &group->source);
    owned = worker->owned;
    worker->thread = rtheap_worker_raw_thread(&owned);
    worker->group = group->group;
    return RTHEAP_OK;
}

rtheap_status rtheap_group_attach(rtheap_group *group, rtheap_worker *worker) {
    rtheap_status status;
    if (!worker) return RTHEAP_ERR_NULL_HANDLE;
    status = rtheap_in_take(of_group(group), RTHEAP_MARK_GROUP);
    if (status != RTHEAP_OK) return status;
    status = rtheap_in_take_closed(of_worker(worker), RTHEAP_MARK_WORKER);
    if (status == RTHEAP_OK) {
        status = attached(of_group(group), of_worker(worker));
        rtheap_in_give(of_worker(worker));
    }
    rtheap_in_give(of_group(group));
    return status;
}

/* Both handles are taken. The export may be called only with a worker of the group. */
static rtheap_status returned(rtheap_handle *group, rtheap_handle *worker) {
    rtheap_using before;
    uint32_t status;
    if (group->group != worker->group) return blamed(group, RTHEAP_ERR_WRONG_GROUP);
    before = rtheap_in_use(&group->source, NULL, 0);
    status = rtheap_group_raw_return(&group->owned, &worker->owned);
    rtheap_in_use_again(before);
    if (status != RTHEAP_OK) return blamed(group, status);
    rtheap_in_close(worker);
    return RTHEAP_OK;
}

rtheap_status rtheap_group_return(rtheap_group *group, rtheap_worker *worker) {
    rtheap_status status;
    if (!worker) return RTHEAP_ERR_NULL_HANDLE;
    status = rtheap_in_take(of_group(group), RTHEAP_MARK_GROUP);
    if (status != RTHEAP_OK) return status;
    status = rtheap_in_take(of_worker(worker), RTHEAP_MARK_WORKER);
    if (status == RTHEAP_OK) {
        status = returned(of_group(group), of_worker(worker));
        rtheap_in_give(of_worker(worker));
    }
    rtheap_in_give(of_group(group));
    return status;
}

/* Closes a handle of this kind by its export, which `cycles` may be a result of. */
static rtheap_status shut(rtheap_handle *handle, uint64_t mark, uint64_t *cycles) {
    rtheap_source source;
    rtheap_using before;
    uint32_t told;
    rtheap_status status = rtheap_in_take(handle, mark);
    if (status != RTHEAP_OK) return status;
    source = handle->source;
    before = rtheap_in_use(&source, NULL, 0);
    if (cycles) told = rtheap_group_raw_finish(&handle->owned, cycles);
    else if (mark == RTHEAP_MARK_GROUP) told = rtheap_group_raw_close(&handle->owned);
    else told = rtheap_worker_raw_close(&handle->owned);
    rtheap_in_use_again(before);
    status = blamed(handle, told);
    if (status == RTHEAP_OK) rtheap_in_close(handle);
    rtheap_in_give(handle);
    return status;
}

rtheap_status rtheap_group_finish(rtheap_group *group, uint64_t *cycles) {
    uint64_t told = 0;
    rtheap_status status = shut(of_group(group), RTHEAP_MARK_GROUP, &told);
    if (status == RTHEAP_OK && cycles) *cycles = told;
    return status;
}

rtheap_status rtheap_group_close(rtheap_group *group) {
    return shut(of_group(group), RTHEAP_MARK_GROUP, NULL);
}

rtheap_status rtheap_worker_close(rtheap_worker *worker) {
    return shut(of_worker(worker), RTHEAP_MARK_WORKER, NULL);
}

rtheap_status rtheap_group_move(rtheap_group *to, rtheap_group *from) {
    return rtheap_in_move(of_group(to), of_group(from), RTHEAP_MARK_GROUP);
}

rtheap_status rtheap_worker_move(rtheap_worker *to, rtheap_worker *from) {
    return rtheap_in_move(of_worker(to), of_worker(from), RTHEAP_MARK_WORKER);
}

/* ---- Gauges ---- */

rtheap_status rtheap_worker_thread(const rtheap_worker *worker, uint32_t *thread) {
    rtheap_status status = rtheap_in_look(seen(worker), RTHEAP_MARK_WORKER);
    if (status == RTHEAP_OK && thread) *thread = seen(worker)->thread;
    return status;
}

/* Whether the worker is between two commands. */
static rtheap_status look_at_rest(const rtheap_worker *worker) {
    rtheap_status status = rtheap_in_look(seen(worker), RTHEAP_MARK_WORKER);
    return status == RTHEAP_OK && seen(worker)->pending ? RTHEAP_ERR_BUSY : status;
}

static rtheap_status gauged(const rtheap_worker *worker, uint64_t *result, int which) {
    rtheap_counts counts;
    rtheap_status status = look_at_rest(worker);
    if (status != RTHEAP_OK || !result) return status;
    counts = rtheap_in_counts(seen(worker));
    *result = which == 0 ? counts.units_left : which == 1 ? counts.objects_left : counts.asked;
    return status;
}

rtheap_status rtheap_worker_units_left(const rtheap_worker *worker, uint64_t *units) {
    return gauged(worker, units, 0);
}

rtheap_status rtheap_worker_objects_left(const rtheap_worker *worker, uint64_t *objects) {
    return gauged(worker, objects, 1);
}

rtheap_status rtheap_worker_asked(const rtheap_worker *worker, uint64_t *commands) {
    return gauged(worker, commands, 2);
}

rtheap_status rtheap_worker_read_statistics(const rtheap_worker *worker,
                                            rtheap_statistics *statistics, size_t size) {
    rtheap_status status = look_at_rest(worker);
    if (status != RTHEAP_OK) return status;
    return rtheap_in_statistics(seen(worker), statistics, size);
}

/* ---- Commands ---- */

rtheap_status rtheap_worker_start(rtheap_worker *worker, rtheap_command command) {
    rtheap_handle *handle = of_worker(worker);
    rtheap_status status = rtheap_in_take(handle, RTHEAP_MARK_WORKER);
    if (status != RTHEAP_OK) return status;
    status = (rtheap_status)rtheap_worker_raw_start(&handle->owned, command.kind, command.a,
                                                    command.b, command.v, command.n);
    if (status == RTHEAP_OK) {
        handle->pending = 1;
        handle->command = command;
    }
    status = rtheap_in_blame_command(handle, status, &command, NULL);
    rtheap_in_give(handle);
    return status;
}

rtheap_status rtheap_worker_poll(rtheap_worker *worker, uint64_t most, rtheap_reply *reply) {
    rtheap_handle *handle = of_worker(worker);
    rtheap_reply told = {0, 0, 0};
    uint32_t outcome;
    rtheap_status status = rtheap_in_take(handle, RTHEAP_MARK_WORKER);
    if (status != RTHEAP_OK) return status;
    outcome = rtheap_worker_raw_poll(&handle->owned, most, &told);
    if (outcome == 0) {
        handle->pending = 0;
        if (reply) *reply = told;
    }
    status = rtheap_in_outcome(outcome, &told);
    if (status != RTHEAP_NOT_DONE)
        status = rtheap_in_blame_command(handle, status, &handle->command, &told);
    rtheap_in_give(handle);
    return status;
}

rtheap_status rtheap_worker_ask(rtheap_worker *worker, rtheap_command command,
                                void (*wait)(void *context), void *context, rtheap_reply *reply) {
    rtheap_status status = rtheap_worker_start(worker, command);
    if (status != RTHEAP_OK) return status;
    while ((status = rtheap_worker_poll(worker, 64, reply)) == RTHEAP_NOT_DONE)
        if (wait) wait(context);
    return status;
}

/* ---- Stamps ---- */

rtheap_status rtheap_worker_stamp(rtheap_worker *worker, uint64_t *stamp) {
    uint64_t told = 0;
    rtheap_status status = rtheap_in_take(of_worker(worker), RTHEAP_MARK_WORKER);
    if (status != RTHEAP_OK) return status;
    status = blamed(of_worker(worker), rtheap_worker_raw_stamp(&of_worker(worker)->owned, &told));
    if (status == RTHEAP_OK && stamp) *stamp = told;
    rtheap_in_give(of_worker(worker));
    return status;
}

rtheap_status rtheap_worker_follow(rtheap_worker *worker, uint64_t stamp) {
    rtheap_status status = rtheap_in_take(of_worker(worker), RTHEAP_MARK_WORKER);
    if (status != RTHEAP_OK) return status;
    status = blamed(of_worker(worker), rtheap_worker_raw_follow(&of_worker(worker)->owned, stamp));
    rtheap_in_give(of_worker(worker));
    return status;
}

/* ---- What was wrong ---- */

rtheap_status rtheap_group_last_error(const rtheap_group *group, rtheap_error *error,
                                      size_t size) {
    return rtheap_in_last_error((const rtheap_handle *)group, error, size);
}

rtheap_status rtheap_worker_last_error(const rtheap_worker *worker, rtheap_error *error,
                                       size_t size) {
    return rtheap_in_last_error((const rtheap_handle *)worker, error, size);
}
