/* Handles: each call takes one, which it refuses where it is closed, a copy, of another kind, or in
   use by another call. */
#include "handles.h"

#include <string.h>

static bool is_mark(uint64_t mark) {
    return mark == RTHEAP_MARK_HEAP || mark == RTHEAP_MARK_GROUP || mark == RTHEAP_MARK_WORKER;
}

/* What can be said of a handle without taking it. */
static rtheap_status seen(const rtheap_handle *handle, uint64_t mark) {
    uint64_t found = __atomic_load_n(&handle->mark, __ATOMIC_RELAXED);
    if (!is_mark(found)) return RTHEAP_ERR_CLOSED;
    if (found != mark) return RTHEAP_ERR_WRONG_HANDLE;
    if (__atomic_load_n(&handle->self, __ATOMIC_RELAXED) != handle) return RTHEAP_ERR_MOVED;
    return RTHEAP_OK;
}

rtheap_status rtheap_in_look(const rtheap_handle *handle, uint64_t mark) {
    rtheap_status status;
    if (!handle) return RTHEAP_ERR_NULL_HANDLE;
    status = seen(handle, mark);
    if (status == RTHEAP_OK && __atomic_load_n(&handle->busy, __ATOMIC_ACQUIRE))
        return RTHEAP_ERR_IN_USE;
    return status;
}

/* Why a handle cannot be taken. One that has become open since is in use. */
rtheap_status rtheap_in_refused(rtheap_handle *handle, uint64_t mark) {
    rtheap_status status = handle ? seen(handle, mark) : RTHEAP_ERR_NULL_HANDLE;
    return status == RTHEAP_OK ? RTHEAP_ERR_IN_USE : status;
}

static rtheap_status not_closed(const rtheap_handle *handle, uint64_t mark) {
    rtheap_status status = seen(handle, mark);
    return status == RTHEAP_OK ? RTHEAP_ERR_OPEN : status;
}

rtheap_status rtheap_in_take_closed(rtheap_handle *handle, uint64_t mark) {
    rtheap_status status;
    if (!handle) return RTHEAP_ERR_NULL_HANDLE;
    status = not_closed(handle, mark);
    if (status != RTHEAP_ERR_CLOSED) return status;
    if (__atomic_exchange_n(&handle->busy, 1, __ATOMIC_ACQUIRE)) return RTHEAP_ERR_IN_USE;
    status = not_closed(handle, mark); /* another thread may have opened it */
    if (status == RTHEAP_ERR_CLOSED) {
        handle->owned.mark = 0;
        return RTHEAP_OK;
    }
    rtheap_in_give(handle);
    return status;
}

static void set_mark(rtheap_handle *handle, uint64_t mark, const void *self) {
    __atomic_store_n(&handle->self, self, __ATOMIC_RELAXED);
    __atomic_store_n(&handle->mark, mark, __ATOMIC_RELAXED);
}

void rtheap_in_open(rtheap_handle *handle, uint64_t mark, const rtheap_config *config,
                    const rtheap_source *source) {
    handle->config = *config;
    handle->source = *source;
    handle->pending = 0;
    handle->thread = 0;
    handle->group = 0;
    handle->fulls = 0;
    handle->full_cycle = 0;
    memset(&handle->command, 0, sizeof handle->command);
    handle->put = NULL;
    set_mark(handle, mark, handle);
}

void rtheap_in_close(rtheap_handle *handle) {
    handle->owned.mark = 0;
    handle->owned.at = NULL;
    set_mark(handle, 0, NULL);
}

rtheap_status rtheap_in_move(rtheap_handle *to, rtheap_handle *from, uint64_t mark) {
    rtheap_status status = rtheap_in_take_closed(to, mark);
    if (status != RTHEAP_OK) return status;
    status = rtheap_in_take(from, mark);
    if (status == RTHEAP_OK) {
        const size_t kept = offsetof(rtheap_handle, pending); /* not mark, self and busy */
        memcpy((char *)to + kept, (const char *)from + kept, sizeof *to - kept);
        set_mark(to, mark, to);
        rtheap_in_close(from);
        rtheap_in_give(from);
    }
    rtheap_in_give(to);
    return status;
}

rtheap_status rtheap_in_config(rtheap_config *known, const rtheap_config *given) {
    const unsigned char *bytes = (const unsigned char *)given;
    size_t at;
    if (!given) return RTHEAP_ERR_NULL_POINTER;
    if (given->size < sizeof *known || given->size > 4096) return RTHEAP_ERR_CONFIG_SIZE;
    for (at = sizeof *known; at < given->size; at++) /* numbers of a later version */
        if (bytes[at] != 0) return RTHEAP_ERR_CONFIG_SIZE;
    *known = *given;
    known->size = sizeof *known;
    return RTHEAP_OK;
}

uint32_t rtheap_in_version(uint32_t width) { return width == 4 ? 1 : width == 8 ? 2 : 0; }

uint64_t rtheap_in_rate(const rtheap_config *config) {
    uint32_t spare = (config->blocks - config->live - 2 * config->threads * config->object) / 2;
    return (2 * config->blocks + spare - 1) / spare;
}

void rtheap_in_copy(void *to, size_t size, const void *from, size_t own) {
    memset(to, 0, size);
    memcpy(to, from, size < own ? size : own);
}

rtheap_counts rtheap_in_counts(const rtheap_handle *handle) {
    rtheap_owned owned = handle->owned; /* the exports write to what they read */
    rtheap_counts counts;
    if (handle->mark == RTHEAP_MARK_WORKER) {
        counts.units_left = rtheap_worker_raw_units_left(&owned);
        counts.objects_left = rtheap_worker_raw_objects_left(&owned);
        counts.asked = rtheap_worker_raw_asked(&owned);
    } else {
        counts.units_left = rtheap_raw_units_left(&owned);
        counts.objects_left = rtheap_raw_objects_left(&owned);
        counts.asked = rtheap_raw_asked(&owned);
    }
    return counts;
}

rtheap_status rtheap_in_statistics(const rtheap_handle *handle, rtheap_statistics *statistics,
                                   size_t size) {
    rtheap_counts counts = rtheap_in_counts(handle);
    rtheap_statistics s;
    if (!statistics) return RTHEAP_OK;
    s.commands = counts.asked;
    s.commands_left = RTHEAP_MOST_COMMANDS - counts.asked;
    s.units = RTHEAP_MOST_UNITS - counts.units_left;
    s.units_left = counts.units_left;
    s.objects = RTHEAP_MOST_OBJECTS - counts.objects_left;
    s.objects_left = counts.objects_left;
    s.fulls = handle->fulls;
    s.full_cycle = handle->full_cycle;
    s.rate = rtheap_in_rate(&handle->config);
    rtheap_in_copy(statistics, size, &s, sizeof s);
    return RTHEAP_OK;
}
