/* The calls of rtheap.h that read a heap without a command. */
#include "handles.h"

/* The program sees a heap that does not change; the handle is marked as in use, and has errors. */
static rtheap_handle *of(const rtheap *heap) { return (rtheap_handle *)heap; }

/* A path from a register. */
typedef struct path {
    uint32_t s;
    const uint64_t *indices;
    size_t count;
} path;

static uint32_t peeked(rtheap_handle *handle, const path *p, rtheap_reply *reply) {
    static const uint64_t none; /* the export takes no NULL */
    return rtheap_raw_peek_path(&handle->owned, p->s, p->indices ? p->indices : &none, p->count,
                                reply);
}

/* How many indices of a path that cannot be followed can be. */
static size_t followed(rtheap_handle *handle, const path *p) {
    size_t least = 0, most = p->count - 1;
    while (least < most) {
        path part = {p->s, p->indices, least + (most - least + 1) / 2};
        rtheap_reply reply;
        if (peeked(handle, &part, &reply) == RTHEAP_OK) least = part.count;
        else most = part.count - 1;
    }
    return least;
}

/* The first index that cannot be followed, of a single one by its name. */
static rtheap_status blame_index(rtheap_handle *handle, rtheap_status status, const path *p) {
    size_t at = followed(handle, p);
    if (p->count > 1)
        return rtheap_in_blame(handle, status, "place in indices", at, 0, UINT64_MAX);
    if (status == RTHEAP_ERR_BOUNDS)
        return rtheap_in_blame(handle, status, "i", *p->indices, 0, (UINT64_C(1) << 62) - 1);
    if (status == RTHEAP_ERR_RANGE)
        return rtheap_in_blame(handle, status, "i", *p->indices, 0, UINT64_MAX);
    return rtheap_in_blame(handle, status, "s", p->s, 0, UINT64_MAX);
}

static rtheap_status blame_path(rtheap_handle *handle, rtheap_status status, const path *p) {
    if (p->s > 15) return rtheap_in_blame(handle, status, "s", p->s, 0, 15);
    return blame_index(handle, status, p);
}

rtheap_status rtheap_peek(const rtheap *heap, uint32_t s, uint64_t i, rtheap_value *value) {
    rtheap_reply reply = {0, 0, 0};
    rtheap_status status = rtheap_in_take(of(heap), RTHEAP_MARK_HEAP);
    if (status != RTHEAP_OK) return status;
    status = (rtheap_status)rtheap_raw_peek(&of(heap)->owned, s, i, &reply);
    if (status == RTHEAP_OK) {
        if (value) *value = rtheap_in_value(&reply);
    } else {
        path p = {s, &i, 1};
        status = blame_path(of(heap), status, &p);
    }
    rtheap_in_give(of(heap));
    return status;
}

rtheap_status rtheap_peek_path(const rtheap *heap, uint32_t s, const uint64_t *indices,
                               size_t count, rtheap_value *value) {
    const path p = {s, indices, count};
    rtheap_reply reply = {0, 0, 0};
    rtheap_status status = rtheap_in_take(of(heap), RTHEAP_MARK_HEAP);
    if (status != RTHEAP_OK) return status;
    if (!indices && count > 0) {
        status = rtheap_in_blame(of(heap), RTHEAP_ERR_NULL_POINTER, "indices", 0, 1, UINT64_MAX);
    } else {
        status = (rtheap_status)peeked(of(heap), &p, &reply);
        if (status == RTHEAP_OK && value) *value = rtheap_in_value(&reply);
        if (status != RTHEAP_OK) status = blame_path(of(heap), status, &p);
    }
    rtheap_in_give(of(heap));
    return status;
}

/* ---- Texts ---- */

/* Writes a text that ends with a zero byte, if it fits. */
static rtheap_status shown(rtheap_handle *handle, bool as_dot, char *text, size_t size,
                           size_t *length) {
    uint8_t nothing = 0; /* the exports take no NULL */
    const size_t room = text && size > 0 ? size - 1 : 0;
    uint8_t *out = room > 0 ? (uint8_t *)text : &nothing;
    uint64_t count = 0;
    rtheap_status status;
    rtheap_using before = rtheap_in_use_for_work(handle);
    if (as_dot) status = (rtheap_status)rtheap_raw_dot(&handle->owned, out, room, &count);
    else status = (rtheap_status)rtheap_raw_text(&handle->owned, out, room, &count);
    rtheap_in_use_again(before);
    if (length && (status == RTHEAP_OK || status == RTHEAP_ERR_TOO_SMALL)) *length = count;
    if (status == RTHEAP_OK && text && size > 0) text[count] = 0;
    if (status == RTHEAP_OK) return status;
    if (status == RTHEAP_ERR_TOO_SMALL)
        return rtheap_in_blame(handle, status, "size", size, count + 1, UINT64_MAX);
    return rtheap_in_blame(handle, status, NULL, 0, 0, UINT64_MAX);
}

static rtheap_status show(const rtheap *heap, bool as_dot, char *text, size_t size,
                          size_t *length) {
    rtheap_status status = rtheap_in_take(of(heap), RTHEAP_MARK_HEAP);
    if (status != RTHEAP_OK) return status;
    status = shown(of(heap), as_dot, text, size, length);
    rtheap_in_give(of(heap));
    return status;
}

rtheap_status rtheap_graph_text(const rtheap *heap, char *text, size_t size, size_t *length) {
    return show(heap, false, text, size, length);
}

rtheap_status rtheap_graph_dot(const rtheap *heap, char *text, size_t size, size_t *length) {
    return show(heap, true, text, size, length);
}
