/* The calls of rtheap.h that save a heap as bytes, and load one. */
#include "handles.h"

static rtheap_handle *of(const rtheap *heap) { return (rtheap_handle *)heap; }

/* ---- Saving ---- */

static rtheap_status saved(rtheap_handle *handle, void *bytes, size_t size, size_t *length) {
    uint8_t nothing = 0; /* the export takes no NULL */
    const size_t room = bytes ? size : 0;
    uint64_t count = 0;
    rtheap_using before = rtheap_in_use_for_work(handle);
    rtheap_status status = (rtheap_status)rtheap_raw_save(
        &handle->owned, room > 0 ? (uint8_t *)bytes : &nothing, room, &count);
    rtheap_in_use_again(before);
    if (length && (status == RTHEAP_OK || status == RTHEAP_ERR_TOO_SMALL)) *length = count;
    switch (status) {
    case RTHEAP_OK: return status;
    case RTHEAP_ERR_TOO_SMALL:
        return rtheap_in_blame(handle, status, "size", size, count, UINT64_MAX);
    case RTHEAP_ERR_TOO_LARGE:
        return rtheap_in_blame(handle, status, "objects", count, 0, UINT64_MAX);
    default: return rtheap_in_blame(handle, status, NULL, 0, 0, UINT64_MAX);
    }
}

rtheap_status rtheap_save(const rtheap *heap, void *bytes, size_t size, size_t *length) {
    rtheap_status status = rtheap_in_take(of(heap), RTHEAP_MARK_HEAP);
    if (status != RTHEAP_OK) return status;
    status = saved(of(heap), bytes, size, length);
    rtheap_in_give(of(heap));
    return status;
}

/* ---- Loading ---- */

/* `number` is that of a refusal that has one. */
static rtheap_status blame_load(rtheap_handle *handle, rtheap_status status,
                                const rtheap_config *c, uint64_t number) {
    switch (status) {
    case RTHEAP_ERR_TOO_LARGE:
        return rtheap_in_blame(handle, status, "objects", number, 0, 65534);
    case RTHEAP_ERR_SAVED_VERSION:
        return rtheap_in_blame(handle, status, "version", number, 1, 1);
    case RTHEAP_ERR_OBJECT:
        return rtheap_in_blame(handle, status, "object", c->object, number, 1024);
    case RTHEAP_ERR_NO_ROOM:
        return rtheap_in_blame(handle, status, "live", c->live, number, 65535);
    default: return rtheap_in_blame_config(handle, status, c);
    }
}

static rtheap_status loaded(rtheap_handle *handle, const rtheap_config *c, const void *bytes,
                            size_t size, const rtheap_source *source) {
    static const uint8_t none; /* the export takes no NULL */
    uint64_t number = 0;
    rtheap_status status;
    rtheap_using before;
    if (c->threads != 1)
        return rtheap_in_blame(handle, RTHEAP_ERR_BOUNDS, "threads", c->threads, 1, 1);
    if (!bytes && size > 0)
        return rtheap_in_blame(handle, RTHEAP_ERR_NULL_POINTER, "bytes", 0, 1, UINT64_MAX);
    before = rtheap_in_use(source, NULL, 0);
    status = (rtheap_status)rtheap_raw_load(
        &handle->owned, bytes ? (const uint8_t *)bytes : &none, size, rtheap_in_version(c->width),
        c->blocks, c->live, c->object, c->shared, &number);
    rtheap_in_use_again(before);
    if (status != RTHEAP_OK) return blame_load(handle, status, c, number);
    rtheap_in_open(handle, RTHEAP_MARK_HEAP, c, source);
    return RTHEAP_OK;
}

static rtheap_status load_from(rtheap *heap, const rtheap_config *config, const void *bytes,
                               size_t size, const rtheap_source *source) {
    rtheap_config known;
    rtheap_status status = rtheap_in_take_closed(of(heap), RTHEAP_MARK_HEAP);
    if (status != RTHEAP_OK) return status;
    status = rtheap_in_config(&known, config);
    if (status == RTHEAP_OK) status = loaded(of(heap), &known, bytes, size, source);
    else rtheap_in_blame(of(heap), status, "config", config ? config->size : 0, sizeof known,
                         UINT64_MAX);
    rtheap_in_give(of(heap));
    return status;
}

rtheap_status rtheap_raise_config(rtheap_config *config, const void *bytes, size_t size) {
    static const uint8_t none; /* the export takes no NULL */
    rtheap_config known;
    rtheap_limits limits;
    rtheap_using before;
    rtheap_status status = rtheap_in_config(&known, config);
    if (status != RTHEAP_OK) return status;
    if (!bytes && size > 0) return RTHEAP_ERR_NULL_POINTER;
    limits.blocks = known.blocks;
    limits.live = known.live;
    limits.object = known.object;
    before = rtheap_in_use(NULL, NULL, 0);
    status = (rtheap_status)rtheap_raw_raise(bytes ? (const uint8_t *)bytes : &none, size,
                                             rtheap_in_version(known.width), known.shared, &limits);
    rtheap_in_use_again(before);
    if (status != RTHEAP_OK) return status;
    config->blocks = limits.blocks;
    config->live = limits.live;
    config->object = limits.object;
    return RTHEAP_OK;
}

rtheap_status rtheap_load(rtheap *heap, const rtheap_config *config, const void *bytes,
                          size_t size) {
    static const rtheap_source from_malloc;
    return load_from(heap, config, bytes, size, &from_malloc);
}

rtheap_status rtheap_load_with(rtheap *heap, const rtheap_config *config, const void *bytes,
                               size_t size, const rtheap_memory *memory) {
    rtheap_source source = {0, {NULL, NULL, NULL}};
    if (!heap) return RTHEAP_ERR_NULL_HANDLE;
    if (!memory || !memory->allocate || !memory->release) return RTHEAP_ERR_NULL_POINTER;
    source.memory = *memory;
    return load_from(heap, config, bytes, size, &source);
}
