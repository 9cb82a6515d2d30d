/* Tests reads without a command: that they return what commands do, on a heap with drawn objects;
   that they change nothing; what they refuse, and what is said of it; and the graph as a text.
   Prints nothing if all is well. */
#include <stdio.h>
#include <string.h>

#include "rtheap.h"

static int wrong;

static void is(const char *what, unsigned long long found, unsigned long long wanted) {
    if (found != wanted) {
        printf("reads: %s: %llu, wanted %llu\n", what, found, wanted);
        wrong = 1;
    }
}

static uint32_t drawn_from = 1;

/* A drawn number below n. */
static uint32_t drawn(uint32_t n) {
    drawn_from = drawn_from * 1664525u + 1013904223u;
    return (drawn_from >> 8) % n;
}

static bool same_values(const rtheap_value *a, const rtheap_value *b) {
    return a->kind == b->kind && a->thread == b->thread && a->number == b->number;
}

/* Registers 0 to 13 have the objects; these two are for the tests. */
enum { REGISTERS = 14, SCRATCH = 14, OBJECTS = 40 };

/* Records and arrays of one block and of several, with drawn fields. */
static void draw_objects(rtheap *heap) {
    int i;
    for (i = 0; i < OBJECTS; i++) {
        const uint32_t d = drawn(REGISTERS), length = drawn(3) ? drawn(6) : drawn(200);
        const rtheap_status made = drawn(2) ? rtheap_record(heap, d, length)
                                            : rtheap_array(heap, d, length);
        int k;
        is("made", made, RTHEAP_OK);
        is("set", rtheap_set(heap, drawn(REGISTERS), drawn(1000)), RTHEAP_OK);
        for (k = 0; k < 60; k++) {
            const rtheap_status put = rtheap_put(heap, drawn(REGISTERS),
                                                 drawn(drawn(2) ? 5 : 200), drawn(REGISTERS));
            is("put", put == RTHEAP_OK || put == RTHEAP_ERR_NIL || put == RTHEAP_ERR_NOT_OBJECT ||
                          put == RTHEAP_ERR_RANGE, true);
        }
    }
}

/* Reads each field of each register's object, and the two after the last. */
static void read_fields(rtheap *heap) {
    uint32_t s;
    for (s = 0; s < REGISTERS; s++) {
        uint64_t length = 0, i;
        const rtheap_status counted = rtheap_len(heap, s, &length);
        is("len", counted == RTHEAP_OK || length == 0, true);
        for (i = 0; i < length + 2; i++) {
            rtheap_value read = {RTHEAP_INT, 7, 7}, got = {RTHEAP_INT, 7, 7};
            const rtheap_status peeked = rtheap_peek(heap, s, i, &read);
            is("status of a field", peeked, rtheap_get(heap, SCRATCH, s, i, &got));
            is("field", same_values(&read, &got), true);
        }
    }
}

/* Reads along a drawn path, and by a command for each index of it. */
static rtheap_status read_path(rtheap *heap) {
    const uint32_t s = drawn(REGISTERS), count = drawn(6);
    rtheap_value read = {RTHEAP_INT, 7, 7}, got = {RTHEAP_INT, 7, 7};
    rtheap_status status = rtheap_mov(heap, SCRATCH, s), peeked;
    uint64_t path[6];
    rtheap_error error;
    uint32_t i, at = 0;
    for (i = 0; i < count; i++) path[i] = drawn(drawn(2) ? 3 : 200);
    if (status == RTHEAP_OK && count == 0) status = rtheap_say(heap, SCRATCH, &got);
    for (; at < count && status == RTHEAP_OK; at += status == RTHEAP_OK)
        status = rtheap_get(heap, SCRATCH, SCRATCH, path[at], at + 1 == count ? &got : NULL);
    peeked = rtheap_peek_path(heap, s, path, count, &read);
    is("status of a path", peeked, status);
    is("end of a path", same_values(&read, &got), true);
    if (status == RTHEAP_OK || count < 2) return status;
    is("last error", rtheap_last_error(heap, &error, sizeof error), RTHEAP_OK);
    is("its status", error.status, status);
    is("its argument", strcmp(error.argument, "place in indices") == 0, true);
    is("its place", error.value, at);
    return status;
}

static void read_all(uint32_t width) {
    const rtheap_config config = {sizeof config, width, 1, 20000, 6000, 100, 9};
    rtheap heap = RTHEAP_CLOSED;
    unsigned ends[4] = {0, 0, 0, 0};
    int i;
    is("open", rtheap_open(&heap, &config), RTHEAP_OK);
    draw_objects(&heap);
    read_fields(&heap);
    for (i = 0; i < 20000; i++) {
        const rtheap_status status = read_path(&heap);
        ends[status == RTHEAP_OK ? 0 : status - RTHEAP_ERR_NIL + 1]++;
    }
    for (i = 0; i < 4; i++) is("paths that end so", ends[i] > 100, true);
    is("close", rtheap_close(&heap), RTHEAP_OK);
}

static void count_line(void *lines, const char *line) {
    (void)line;
    ++*(unsigned *)lines;
}

/* Reads count as no commands, do no units, and are no lines of a job. */
static void try_unchanged(void) {
    const rtheap_config config = {sizeof config, 8, 1, 64, 20, 1, 4};
    const uint64_t path[] = {2, 0};
    rtheap heap = RTHEAP_CLOSED;
    rtheap_statistics before, after;
    rtheap_value value = {RTHEAP_NIL, 0, 0};
    unsigned lines = 0;
    is("open", rtheap_open(&heap, &config), RTHEAP_OK);
    is("start a job", rtheap_start_job(&heap, count_line, &lines), RTHEAP_OK);
    is("record", rtheap_record(&heap, 1, 1), RTHEAP_OK);
    is("set", rtheap_set(&heap, 2, 1250), RTHEAP_OK);
    is("put", rtheap_put(&heap, 1, 0, 2), RTHEAP_OK);
    is("put", rtheap_put(&heap, 0, 2, 1), RTHEAP_OK);
    is("statistics", rtheap_read_statistics(&heap, &before, sizeof before), RTHEAP_OK);
    is("peek", rtheap_peek(&heap, 1, 0, &value), RTHEAP_OK);
    is("number", value.kind == RTHEAP_INT && value.number == 1250, true);
    is("path", rtheap_peek_path(&heap, 0, path, 2, &value), RTHEAP_OK);
    is("number", value.kind == RTHEAP_INT && value.number == 1250, true);
    is("register", rtheap_peek_path(&heap, 0, NULL, 0, &value), RTHEAP_OK);
    is("shared array", value.kind == RTHEAP_REF && value.thread == 1, true);
    is("no result", rtheap_peek(&heap, 1, 0, NULL), RTHEAP_OK);
    is("statistics", rtheap_read_statistics(&heap, &after, sizeof after), RTHEAP_OK);
    is("unchanged", (unsigned)memcmp(&before, &after, sizeof before), 0);
    is("lines", lines, 6);
    is("close", rtheap_close(&heap), RTHEAP_OK);
}

/* The heap's last error. */
static void says(const rtheap *heap, rtheap_status status, const char *argument, uint64_t value,
                 uint64_t most) {
    rtheap_error error;
    is("last error", rtheap_last_error(heap, &error, sizeof error), RTHEAP_OK);
    is(argument, error.status, status);
    is(argument, error.argument && strcmp(error.argument, argument) == 0, true);
    is(argument, error.value, value);
    is(argument, error.most, most);
}

static void try_refusals(void) {
    const rtheap_config config = {sizeof config, 8, 1, 64, 20, 1, 4};
    const uint64_t large = UINT64_C(1) << 62, path[] = {1, 0, 3}, far[] = {1, UINT64_MAX};
    rtheap heap = RTHEAP_CLOSED, copy;
    rtheap_value value = {RTHEAP_INT, 77, 77};
    is("NULL", rtheap_peek(NULL, 1, 0, &value), RTHEAP_ERR_NULL_HANDLE);
    is("NULL", rtheap_peek_path(NULL, 1, path, 3, &value), RTHEAP_ERR_NULL_HANDLE);
    is("closed", rtheap_peek(&heap, 1, 0, &value), RTHEAP_ERR_CLOSED);
    is("open", rtheap_open(&heap, &config), RTHEAP_OK);
    copy = heap;
    is("copy", rtheap_peek_path(&copy, 1, path, 3, &value), RTHEAP_ERR_MOVED);
    is("register", rtheap_peek(&heap, 16, 0, &value), RTHEAP_ERR_BOUNDS);
    says(&heap, RTHEAP_ERR_BOUNDS, "s", 16, 15);
    is("register", rtheap_peek_path(&heap, 256, NULL, 0, &value), RTHEAP_ERR_BOUNDS);
    says(&heap, RTHEAP_ERR_BOUNDS, "s", 256, 15);
    is("index", rtheap_peek(&heap, 0, large, &value), RTHEAP_ERR_BOUNDS);
    says(&heap, RTHEAP_ERR_BOUNDS, "i", large, large - 1);
    is("range", rtheap_peek(&heap, 0, 4, &value), RTHEAP_ERR_RANGE);
    says(&heap, RTHEAP_ERR_RANGE, "i", 4, UINT64_MAX);
    is("nil", rtheap_peek(&heap, 5, 0, &value), RTHEAP_ERR_NIL);
    says(&heap, RTHEAP_ERR_NIL, "s", 5, UINT64_MAX);
    is("no indices", rtheap_peek_path(&heap, 0, NULL, 2, &value), RTHEAP_ERR_NULL_POINTER);
    is("nil on the path", rtheap_peek_path(&heap, 0, path, 3, &value), RTHEAP_ERR_NIL);
    says(&heap, RTHEAP_ERR_NIL, "place in indices", 1, UINT64_MAX);
    is("put", rtheap_put(&heap, 0, 1, 0), RTHEAP_OK);
    is("far", rtheap_peek_path(&heap, 0, far, 2, &value), RTHEAP_ERR_BOUNDS);
    says(&heap, RTHEAP_ERR_BOUNDS, "place in indices", 1, UINT64_MAX);
    is("a number", rtheap_set(&heap, 6, 9), RTHEAP_OK);
    is("not an object", rtheap_peek(&heap, 6, 0, &value), RTHEAP_ERR_NOT_OBJECT);
    is("untold", value.kind == RTHEAP_INT && value.thread == 77 && value.number == 77, true);
    is("close", rtheap_close(&heap), RTHEAP_OK);
}

/* What a call writes for a heap with a record in an element of its shared array. */
static void text_is(const rtheap *heap, const char *wanted,
                    rtheap_status (*write)(const rtheap *, char *, size_t, size_t *)) {
    char text[600];
    size_t length = 0;
    is("length", write(heap, NULL, 0, &length), RTHEAP_ERR_TOO_SMALL);
    is("length", length, strlen(wanted));
    memset(text, 'x', sizeof text);
    is("no room for the zero", write(heap, text, length, &length), RTHEAP_ERR_TOO_SMALL);
    says(heap, RTHEAP_ERR_TOO_SMALL, "size", length, UINT64_MAX);
    is("unwritten", text[0] == 'x' && text[length] == 'x', true);
    is("text", write(heap, text, length + 1, NULL), RTHEAP_OK);
    is("its characters", strcmp(text, wanted) == 0, true);
    is("no more", text[length + 1] == 'x', true);
}

static void try_texts(void) {
    rtheap_config config = RTHEAP_CONFIG(64, 20);
    static uint64_t lent[RTHEAP_WORDS(8, 64, 1)];
    rtheap heap = RTHEAP_CLOSED;
    int in_lent;
    config.shared = 3;
    for (in_lent = 0; in_lent < 2; in_lent++) {
        is("closed", rtheap_graph_text(&heap, NULL, 0, NULL), RTHEAP_ERR_CLOSED);
        if (in_lent) is("open", rtheap_open_in(&heap, &config, lent, sizeof lent), RTHEAP_OK);
        else is("open", rtheap_open(&heap, &config), RTHEAP_OK);
        is("record", rtheap_record(&heap, 1, 2), RTHEAP_OK);
        is("set", rtheap_set(&heap, 2, 1250), RTHEAP_OK);
        is("put", rtheap_put(&heap, 1, 0, 2), RTHEAP_OK);
        is("put", rtheap_put(&heap, 0, 2, 1), RTHEAP_OK);
        is("nil", rtheap_nil(&heap, 1), RTHEAP_OK);
        text_is(&heap, "registers [->0, nil, 1250, nil, nil, nil, nil, nil, nil, nil, nil, nil, "
                       "nil, nil, nil, nil]\n0: array 3 [nil, nil, ->1]\n1: record 2 [1250, nil]\n",
                rtheap_graph_text);
        text_is(&heap, "digraph heap {\n"
                       "    registers [label=\"registers [->0, nil, 1250, nil, nil, nil, nil, "
                       "nil, nil, nil, nil, nil, nil, nil, nil, nil]\"];\n"
                       "    registers -> 0 [label=\"0\"];\n"
                       "    0 [label=\"0: array 3 [nil, nil, ->1]\"];\n    0 -> 1 [label=\"2\"];\n"
                       "    1 [label=\"1: record 2 [1250, nil]\"];\n}\n",
                rtheap_graph_dot);
        is("close", rtheap_close(&heap), RTHEAP_OK);
    }
}

int main(void) {
    read_all(4);
    read_all(8);
    try_unchanged();
    try_refusals();
    try_texts();
    return wrong;
}
