/* Tests what is refused or fails, and that nothing changes then. Prints nothing if all is well. */
#include <stdio.h>
#include <string.h>

#include "rtheap.h"

static int wrong;

static void is(const char *what, unsigned long long found, unsigned long long wanted) {
    if (found != wanted) {
        printf("%s: %llu, wanted %llu\n", what, found, wanted);
        wrong = 1;
    }
}

static rtheap_status open_heap(rtheap *heap, uint32_t width, uint32_t blocks, uint32_t live,
                               uint32_t object, uint32_t shared) {
    const rtheap_config config = {sizeof config, width, 1, blocks, live, object, shared};
    return rtheap_open(heap, &config);
}

/* What a gauge says, or 0 where it says nothing. */
static uint64_t told(rtheap_status (*gauge)(const rtheap *, uint64_t *), const rtheap *heap) {
    uint64_t number = 0;
    return gauge(heap, &number) == RTHEAP_OK ? number : 0;
}

/* Results that a call must leave as they are. */
static rtheap_value value = {RTHEAP_INT, 77, 77};
static uint64_t length = 77;
static bool yes = true;

static void results_are_unchanged(const char *who) {
    is(who, value.kind == RTHEAP_INT && value.thread == 77 && value.number == 77, true);
    is(who, length, 77);
    is(who, yes, true);
}

/* Each command is refused with this status, and leaves result and heap unchanged. */
static void all_refused(const char *who, rtheap *heap, rtheap_status wanted) {
    uint64_t asked = told(rtheap_asked, heap);
    is(who, rtheap_record(heap, 16, 1), wanted);
    is(who, rtheap_array(heap, 16, 1), wanted);
    is(who, rtheap_set(heap, 16, 1), wanted);
    is(who, rtheap_set(heap, 1, UINT64_C(1) << 62), wanted);
    is(who, rtheap_nil(heap, 272), wanted); /* 16 modulo 256 */
    is(who, rtheap_mov(heap, 1, UINT32_MAX), wanted);
    is(who, rtheap_get(heap, 1, 0, UINT64_C(1) << 62, &value), wanted);
    is(who, rtheap_put(heap, 256, 0, 0), wanted); /* 0 modulo 256 */
    is(who, rtheap_len(heap, 16, &length), wanted);
    is(who, rtheap_same(heap, 0, 16, &yes), wanted);
    is(who, rtheap_say(heap, 16, &value), wanted);
    is(who, rtheap_swap(heap, 0, 0, 16, &value), wanted);
    is(who, rtheap_cas(heap, 0, 0, 16, 0, &yes), wanted);
    is(who, rtheap_idle(heap, 131071), wanted);
    is("asked", told(rtheap_asked, heap), asked);
    results_are_unchanged(who);
}

/* A refused command leaves the reply unchanged too. */
static void reply_is_unchanged(rtheap *heap, rtheap_status wanted) {
    rtheap_reply r, before;
    memset(&r, 0x5a, sizeof r);
    before = r;
    is("ask", rtheap_ask(heap, rtheap_cmd_get(16, 0, 0), &r), wanted);
    is("ask", rtheap_ask(heap, rtheap_cmd_record(1, UINT32_MAX), &r), wanted);
    is("reply unchanged", (unsigned long long)memcmp(&r, &before, sizeof r), 0);
}

/* Each command that needs an object in register s fails with this status. */
static void all_fail(const char *who, rtheap *heap, uint32_t s, uint64_t i, rtheap_status wanted) {
    uint64_t asked = told(rtheap_asked, heap);
    is(who, rtheap_get(heap, 9, s, i, &value), wanted);
    is(who, rtheap_put(heap, s, i, 9), wanted);
    is(who, rtheap_swap(heap, s, i, 9, &value), wanted);
    is(who, rtheap_cas(heap, s, i, 9, 9, &yes), wanted);
    if (wanted != RTHEAP_ERR_RANGE) is(who, rtheap_len(heap, s, &length), wanted);
    is(who, told(rtheap_asked, heap) - asked, wanted != RTHEAP_ERR_RANGE ? 5 : 4);
    results_are_unchanged(who);
}

/* Results of a heap whose register 0 has four elements, with register 5 nil and register 6 the
   number 7. */
static void results(rtheap *heap) {
    rtheap_value v = {RTHEAP_INT, 9, 9};
    uint64_t n = 0;
    bool holds = false;
    is("len", rtheap_len(heap, 0, &n), RTHEAP_OK);
    is("length", n, 4);
    is("say", rtheap_say(heap, 5, &v), RTHEAP_OK);
    is("nil", v.kind == RTHEAP_NIL && v.thread == 0 && v.number == 0, true);
    is("say", rtheap_say(heap, 6, &v), RTHEAP_OK);
    is("int", v.kind == RTHEAP_INT && v.thread == 0 && v.number == 7, true);
    is("say", rtheap_say(heap, 0, &v), RTHEAP_OK);
    is("ref", v.kind == RTHEAP_REF && v.thread == 1, true);
    is("same", rtheap_same(heap, 6, 6, &holds), RTHEAP_OK);
    is("same", holds, true);
    is("same", rtheap_same(heap, 5, 6, &holds), RTHEAP_OK);
    is("not the same", holds, false);
    is("cas", rtheap_cas(heap, 0, 3, 5, 6, &holds), RTHEAP_OK);
    is("cas stored", holds, true);
    is("cas", rtheap_cas(heap, 0, 3, 5, 6, &holds), RTHEAP_OK);
    is("cas did not", holds, false);
    is("swap", rtheap_swap(heap, 0, 3, 5, &v), RTHEAP_OK);
    is("swapped", v.kind == RTHEAP_INT && v.number == 7, true);
    is("get", rtheap_get(heap, 6, 0, 3, &v), RTHEAP_OK);
    is("got", v.kind, RTHEAP_NIL);
    is("swap back", rtheap_swap(heap, 0, 3, 5, NULL), RTHEAP_OK);
    is("set back", rtheap_set(heap, 6, 7), RTHEAP_OK);
}

/* A list that grows until it is full, which more than `live` blocks alone can be. */
static void fills(rtheap *heap) {
    uint64_t made = 0;
    rtheap_status status = RTHEAP_OK;
    while (!status && made < 1000) {
        status = rtheap_record(heap, 3, 2);
        if (!status) status = rtheap_put(heap, 3, 0, 4);
        if (!status) status = rtheap_mov(heap, 4, 3);
        if (!status) made++;
    }
    is("full", status, RTHEAP_ERR_FULL);
    is("made", made > 16 && made < 64, true);
    is("full leaves the register", rtheap_put(heap, 3, 1, 6), RTHEAP_OK);
    is("drop", rtheap_nil(heap, 3), RTHEAP_OK);
    is("drop", rtheap_nil(heap, 4), RTHEAP_OK);
    is("idle", rtheap_idle(heap, 4 * 64 + 1), RTHEAP_OK);
    is("full no more", rtheap_record(heap, 3, 2), RTHEAP_OK);
}

static void try_closed(rtheap *heap) {
    rtheap junk;
    uint64_t units = 77;
    all_refused("NULL", NULL, RTHEAP_ERR_NULL_HANDLE);
    is("NULL open", open_heap(NULL, 8, 64, 20, 1, 0), RTHEAP_ERR_NULL_HANDLE);
    is("NULL close", rtheap_close(NULL), RTHEAP_ERR_NULL_HANDLE);
    all_refused("closed", heap, RTHEAP_ERR_CLOSED);
    reply_is_unchanged(heap, RTHEAP_ERR_CLOSED);
    is("closed close", rtheap_close(heap), RTHEAP_ERR_CLOSED);
    is("closed units", rtheap_units_left(heap, &units), RTHEAP_ERR_CLOSED);
    is("NULL units", rtheap_units_left(NULL, &units), RTHEAP_ERR_NULL_HANDLE);
    is("untold", units, 77);
    memset(&junk, 0xa5, sizeof junk); /* an open handle begins otherwise */
    all_refused("junk", &junk, RTHEAP_ERR_CLOSED);
    is("junk close", rtheap_close(&junk), RTHEAP_ERR_CLOSED);
}

static void try_configs(rtheap *heap) {
    is("width 0", open_heap(heap, 0, 64, 20, 1, 0), RTHEAP_ERR_WIDTH);
    is("width 2", open_heap(heap, 2, 64, 20, 1, 0), RTHEAP_ERR_WIDTH);
    is("no blocks", open_heap(heap, 8, 0, 20, 1, 0), RTHEAP_ERR_BOUNDS);
    is("many blocks", open_heap(heap, 8, 65536, 20, 1, 0), RTHEAP_ERR_BOUNDS);
    is("object 0", open_heap(heap, 8, 64, 20, 0, 0), RTHEAP_ERR_BOUNDS);
    is("live 2", open_heap(heap, 8, 64, 2, 1, 0), RTHEAP_ERR_LIVE);
    is("no rate", open_heap(heap, 8, 25, 20, 2, 0), RTHEAP_ERR_RATE);
    all_refused("not opened", heap, RTHEAP_ERR_CLOSED);
}

static void try_open(rtheap *heap) {
    is("open", open_heap(heap, 8, 64, 20, 1, 4), RTHEAP_OK);
    is("open again", open_heap(heap, 8, 64, 20, 1, 4), RTHEAP_ERR_OPEN);
    is("units at first", told(rtheap_units_left, heap), UINT64_C(1) << 45);
    is("objects at first", told(rtheap_objects_left, heap), (UINT64_C(1) << 43) - 1);
    all_refused("open handle", heap, RTHEAP_ERR_BOUNDS);
    reply_is_unchanged(heap, RTHEAP_ERR_BOUNDS);
    is("new of two blocks", rtheap_record(heap, 1, 100), RTHEAP_ERR_BOUNDS);
    is("set 6", rtheap_set(heap, 6, 7), RTHEAP_OK);
    all_fail("nil", heap, 5, 0, RTHEAP_ERR_NIL);
    all_fail("number", heap, 6, 0, RTHEAP_ERR_NOT_OBJECT);
    all_fail("range", heap, 0, 4, RTHEAP_ERR_RANGE);
    results(heap);
    fills(heap);
}

/* Another heap, of the other width: neither changes the other. */
static void try_other(rtheap *heap, rtheap *other) {
    uint64_t objects = told(rtheap_objects_left, heap);
    rtheap_reply r = {99, 99, 99};
    int i;
    memset(other, 0, sizeof *other);
    is("open other", open_heap(other, 4, 64, 20, 1, 0), RTHEAP_OK);
    is("width 4 idles", rtheap_idle(other, 1), RTHEAP_ERR_BOUNDS);
    is("width 4 swaps", rtheap_swap(other, 1, 0, 2, NULL), RTHEAP_ERR_BOUNDS);
    is("width 4 compares", rtheap_cas(other, 1, 0, 2, 2, NULL), RTHEAP_ERR_BOUNDS);
    is("other set", rtheap_set(other, 5, 8), RTHEAP_OK);
    is("own say", rtheap_say(heap, 5, &value), RTHEAP_OK);
    is("own kind", value.kind, RTHEAP_NIL);
    for (i = 0; i < 100000; i++) {
        if (rtheap_record(heap, 1, 2) != RTHEAP_OK) {
            is("object", (unsigned long long)i, ~0ull);
            break;
        }
    }
    is("objects", told(rtheap_objects_left, heap), objects - 100000);
    is("first object of other", rtheap_ask(other, rtheap_cmd_record(1, 2), &r), RTHEAP_OK);
    is("its kind", r.kind, RTHEAP_REPLY_NEW);
    is("its name", r.value, 1);
}

int main(void) {
    rtheap heap = RTHEAP_CLOSED, other;
    try_closed(&heap);
    try_configs(&heap);
    try_open(&heap);
    try_other(&heap, &other);
    is("close", rtheap_close(&heap), RTHEAP_OK);
    value.kind = RTHEAP_INT, value.thread = 77, value.number = 77;
    all_refused("closed again", &heap, RTHEAP_ERR_CLOSED);
    is("close again", rtheap_close(&heap), RTHEAP_ERR_CLOSED);
    is("open anew", open_heap(&heap, 4, 64, 20, 1, 0), RTHEAP_OK);
    is("close anew", rtheap_close(&heap), RTHEAP_OK);
    is("close other", rtheap_close(&other), RTHEAP_OK);
    return wrong;
}
