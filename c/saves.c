/* Tests heaps that are saved and loaded: that a heap with drawn objects has the same graph when it
   was loaded; what is refused, and what is said of it; allocations that fail. Prints nothing if all
   is well. */
#include <stdio.h>
#include <stdlib.h>
#include <string.h>

#include "rtheap.h"

static int wrong;

static void is(const char *what, unsigned long long found, unsigned long long wanted) {
    if (found != wanted) {
        printf("saves: %s: %llu, wanted %llu\n", what, found, wanted);
        wrong = 1;
    }
}

static uint32_t drawn_from = 1;

/* A drawn number below n. */
static uint32_t drawn(uint32_t n) {
    drawn_from = drawn_from * 1664525u + 1013904223u;
    return (drawn_from >> 8) % n;
}

/* The bytes of a heap. */
typedef struct save {
    unsigned char *bytes;
    size_t size;
} save;

static save saved(const rtheap *heap) {
    save s = {NULL, 0};
    size_t length = 0;
    is("size", rtheap_save(heap, NULL, 0, &s.size), RTHEAP_ERR_TOO_SMALL);
    s.bytes = (unsigned char *)malloc(s.size + 1);
    if (!s.bytes) exit(1);
    memset(s.bytes, 'x', s.size + 1);
    is("one byte too few", rtheap_save(heap, s.bytes, s.size - 1, &length), RTHEAP_ERR_TOO_SMALL);
    is("unwritten", s.bytes[0] == 'x' && length == s.size, true);
    is("save", rtheap_save(heap, s.bytes, s.size + 1, &length), RTHEAP_OK);
    is("its length", length, s.size);
    is("no more", s.bytes[s.size], 'x');
    return s;
}

/* Records and arrays of one block and of several, with drawn fields. */
static void draw_objects(rtheap *heap) {
    int i;
    for (i = 0; i < 60; i++) {
        const uint32_t d = drawn(16), length = drawn(3) ? drawn(6) : drawn(200);
        int k;
        is("made", drawn(2) ? rtheap_record(heap, d, length) : rtheap_array(heap, d, length),
           RTHEAP_OK);
        is("set", rtheap_set(heap, drawn(16), drawn(1000)), RTHEAP_OK);
        for (k = 0; k < 60; k++) {
            const rtheap_status put = rtheap_put(heap, drawn(16), drawn(drawn(2) ? 5 : 200),
                                                 drawn(16));
            is("put", put == RTHEAP_OK || (put >= RTHEAP_ERR_NIL && put <= RTHEAP_ERR_RANGE), true);
        }
    }
}

/* Both heaps have the same at the end of drawn paths, up to names. */
static void same_ends(const rtheap *one, const rtheap *other) {
    int i;
    for (i = 0; i < 5000; i++) {
        const uint32_t s = drawn(16), count = drawn(6);
        rtheap_value a = {RTHEAP_NIL, 0, 0}, b = {RTHEAP_NIL, 0, 0};
        uint64_t path[6];
        uint32_t k;
        for (k = 0; k < count; k++) path[k] = drawn(drawn(2) ? 3 : 200);
        is("status", rtheap_peek_path(one, s, path, count, &a),
           rtheap_peek_path(other, s, path, count, &b));
        is("kind", a.kind, b.kind);
        if (a.kind == RTHEAP_INT) is("number", a.number, b.number);
    }
}

/* Saves a heap with drawn objects, loads it with blocks of another width, and saves it again: the
   bytes are the same. */
static void try_drawn(uint32_t width, uint32_t other_width) {
    const rtheap_config config = {sizeof config, width, 1, 20000, 6000, 100, 9};
    const rtheap_config other = {sizeof other, other_width, 1, 30000, 9000, 100, 5};
    rtheap heap = RTHEAP_CLOSED, loaded = RTHEAP_CLOSED;
    rtheap_statistics before, after;
    save first, second;
    is("open", rtheap_open(&heap, &config), RTHEAP_OK);
    draw_objects(&heap);
    is("statistics", rtheap_read_statistics(&heap, &before, sizeof before), RTHEAP_OK);
    first = saved(&heap);
    is("statistics", rtheap_read_statistics(&heap, &after, sizeof after), RTHEAP_OK);
    is("unchanged", (unsigned)memcmp(&before, &after, sizeof before), 0);
    is("load", rtheap_load(&loaded, &other, first.bytes, first.size), RTHEAP_OK);
    same_ends(&heap, &loaded);
    second = saved(&loaded);
    is("size", second.size, first.size);
    is("bytes", second.size == first.size && memcmp(first.bytes, second.bytes, first.size) == 0,
       true);
    is("goes on", rtheap_record(&loaded, 1, 3), RTHEAP_OK);
    is("close", rtheap_close(&heap), RTHEAP_OK);
    is("close", rtheap_close(&loaded), RTHEAP_OK);
    free(first.bytes);
    free(second.bytes);
}

/* The heap's last error has this status, argument and value, and these limits. */
static void says(const rtheap *heap, rtheap_status status, const char *argument, uint64_t value,
                 uint64_t least, uint64_t most) {
    rtheap_error error;
    is("last error", rtheap_last_error(heap, &error, sizeof error), RTHEAP_OK);
    is(argument, error.status, status);
    is(argument, error.argument && strcmp(error.argument, argument) == 0, true);
    is(argument, error.value, value);
    is(argument, error.least, least);
    is(argument, error.most, most);
}

/* A heap with a list of so many records, in lent memory. */
static void open_list(rtheap *heap, uint64_t *lent, size_t size, int records) {
    const rtheap_config config = {sizeof config, 8, 1, 1000, 300, 1, 4};
    int i;
    is("open", rtheap_open_in(heap, &config, lent, size), RTHEAP_OK);
    for (i = 0; i < records; i++) {
        is("record", rtheap_record(heap, 1, 2), RTHEAP_OK);
        is("put", rtheap_put(heap, 1, 0, 2), RTHEAP_OK);
        is("mov", rtheap_mov(heap, 2, 1), RTHEAP_OK);
    }
    is("nil", rtheap_nil(heap, 1), RTHEAP_OK);
}

/* Loads with `object` and `live` raised to what the last error says. */
static void try_needs(const save *s) {
    rtheap_config c = {sizeof c, 8, 1, 1000, 100, 1, 0};
    rtheap heap = RTHEAP_CLOSED;
    rtheap_error error;
    is("object", rtheap_load(&heap, &c, s->bytes, s->size), RTHEAP_ERR_OBJECT);
    is("last error", rtheap_last_error(&heap, &error, sizeof error), RTHEAP_OK);
    is("object", error.value == 1 && error.least > 1 && error.least < 30, true);
    says(&heap, RTHEAP_ERR_OBJECT, "object", 1, error.least, 1024);
    c.object = (uint32_t)error.least - 1;
    is("one too few", rtheap_load(&heap, &c, s->bytes, s->size), RTHEAP_ERR_OBJECT);
    c.object++;
    c.blocks = 160; /* on more blocks the objects may fit even so */
    is("live", rtheap_load(&heap, &c, s->bytes, s->size), RTHEAP_ERR_NO_ROOM);
    is("last error", rtheap_last_error(&heap, &error, sizeof error), RTHEAP_OK);
    says(&heap, RTHEAP_ERR_NO_ROOM, "live", 100, error.least, 65535);
    c.live = (uint32_t)error.least;
    c.blocks = 1000;
    is("enough", rtheap_load(&heap, &c, s->bytes, s->size), RTHEAP_OK);
    is("open", rtheap_load(&heap, &c, s->bytes, s->size), RTHEAP_ERR_OPEN);
    is("close", rtheap_close(&heap), RTHEAP_OK);
}

/* A configuration that can be opened is enough once it is raised, and stays where it is enough. */
static void try_raised(const save *s) {
    const rtheap_config small = {sizeof small, 8, 1, 64, 20, 1, 4};
    rtheap_config c = small, again;
    rtheap heap = RTHEAP_CLOSED;
    is("raise", rtheap_raise_config(&c, s->bytes, s->size), RTHEAP_OK);
    is("raised", c.object > 1 && c.live > 20, true);
    is("blocks", c.blocks, 64 + (c.live - 20) + 2 * (c.object - 1));
    again = c;
    is("raise again", rtheap_raise_config(&again, s->bytes, s->size), RTHEAP_OK);
    is("no further", (unsigned)memcmp(&again, &c, sizeof c), 0);
    is("load", rtheap_load(&heap, &c, s->bytes, s->size), RTHEAP_OK);
    is("close", rtheap_close(&heap), RTHEAP_OK);
    c = small;
    is("torn", rtheap_raise_config(&c, s->bytes, s->size - 1), RTHEAP_ERR_TORN);
    c.width = 3;
    is("width", rtheap_raise_config(&c, s->bytes, s->size), RTHEAP_ERR_WIDTH);
    c = small, c.shared = 65536;
    is("shared", rtheap_raise_config(&c, s->bytes, s->size), RTHEAP_ERR_BOUNDS);
    c = small, c.blocks = 65500;
    is("too large", rtheap_raise_config(&c, s->bytes, s->size), RTHEAP_ERR_TOO_LARGE);
    is("unchanged", c.live == 20 && c.object == 1, true);
    is("NULL", rtheap_raise_config(NULL, s->bytes, s->size), RTHEAP_ERR_NULL_POINTER);
}

/* Each byte that is changed is found, and so is each that is missing. */
static void try_damage(const save *s) {
    const rtheap_config c = {sizeof c, 8, 1, 1000, 400, 30, 0};
    rtheap heap = RTHEAP_CLOSED;
    size_t i;
    for (i = 0; i < s->size; i++) {
        rtheap_status status;
        s->bytes[i] ^= 1;
        status = rtheap_load(&heap, &c, s->bytes, s->size);
        is("a changed byte", status >= RTHEAP_ERR_NOT_SAVED && status <= RTHEAP_ERR_CHECKSUM, true);
        s->bytes[i] ^= 1;
    }
    is("first byte", rtheap_load(&heap, &c, s->bytes + 1, s->size - 1), RTHEAP_ERR_NOT_SAVED);
    is("last byte", rtheap_load(&heap, &c, s->bytes, s->size - 1), RTHEAP_ERR_TORN);
    is("one more", rtheap_load(&heap, &c, s->bytes, s->size + 1), RTHEAP_ERR_TORN);
    is("none", rtheap_load(&heap, &c, NULL, 0), RTHEAP_ERR_NOT_SAVED);
    is("NULL", rtheap_load(&heap, &c, NULL, 5), RTHEAP_ERR_NULL_POINTER);
    s->bytes[15] ^= 2;
    is("version", rtheap_load(&heap, &c, s->bytes, s->size), RTHEAP_ERR_SAVED_VERSION);
    says(&heap, RTHEAP_ERR_SAVED_VERSION, "version", 3, 1, 1);
    s->bytes[15] ^= 2;
    is("as before", rtheap_load(&heap, &c, s->bytes, s->size), RTHEAP_OK);
    is("close", rtheap_close(&heap), RTHEAP_OK);
}

static void try_refusals(const save *s) {
    rtheap_config c = {sizeof c, 8, 1, 1000, 400, 30, 0};
    rtheap heap = RTHEAP_CLOSED;
    size_t length = 77;
    is("NULL", rtheap_save(NULL, NULL, 0, &length), RTHEAP_ERR_NULL_HANDLE);
    is("closed", rtheap_save(&heap, NULL, 0, &length), RTHEAP_ERR_CLOSED);
    is("no length", length, 77);
    is("NULL", rtheap_load(NULL, &c, s->bytes, s->size), RTHEAP_ERR_NULL_HANDLE);
    is("NULL", rtheap_load(&heap, NULL, s->bytes, s->size), RTHEAP_ERR_NULL_POINTER);
    is("NULL", rtheap_load_with(&heap, &c, s->bytes, s->size, NULL), RTHEAP_ERR_NULL_POINTER);
    c.width = 2;
    is("width", rtheap_load(&heap, &c, s->bytes, s->size), RTHEAP_ERR_WIDTH);
    c.width = 8, c.threads = 2;
    is("threads", rtheap_load(&heap, &c, s->bytes, s->size), RTHEAP_ERR_BOUNDS);
    c.threads = 1, c.blocks = 65536;
    is("blocks", rtheap_load(&heap, &c, s->bytes, s->size), RTHEAP_ERR_BOUNDS);
    says(&heap, RTHEAP_ERR_BOUNDS, "blocks", 65536, 1, 65535);
    c.blocks = 400;
    is("rate", rtheap_load(&heap, &c, s->bytes, s->size), RTHEAP_ERR_RATE);
    says(&heap, RTHEAP_ERR_RATE, "blocks", 400, 462, 65535);
}

/* An allocator that fails at a call, and counts what it has given out. */
static unsigned long calls, failing, given;

static void *allocate(void *context, size_t size, size_t alignment) {
    (void)context, (void)alignment;
    if (calls++ == failing) return NULL;
    given++;
    return malloc(size);
}

static void release(void *context, void *block) {
    (void)context;
    given--;
    free(block);
}

/* Each allocation of a load and of a save fails in turn. */
static void try_allocations(const save *s) {
    const rtheap_config c = {sizeof c, 8, 1, 1000, 400, 30, 0};
    const rtheap_memory memory = {allocate, release, NULL};
    rtheap heap = RTHEAP_CLOSED;
    rtheap_status status = RTHEAP_ERR_MEMORY;
    size_t length = 0;
    unsigned long loads, held;
    for (failing = 0; status != RTHEAP_OK; failing++) {
        calls = 0;
        status = rtheap_load_with(&heap, &c, s->bytes, s->size, &memory);
        if (status == RTHEAP_OK) break;
        is("no memory", status, RTHEAP_ERR_MEMORY);
        is("all is given back", given, 0);
    }
    loads = failing;
    is("allocations", loads > 5 && calls == loads, true);
    held = given;
    status = RTHEAP_ERR_MEMORY;
    for (failing = 0; status == RTHEAP_ERR_MEMORY; failing++) {
        calls = 0;
        status = rtheap_save(&heap, NULL, 0, &length);
        is("all is given back", given, held);
    }
    is("saved", status, RTHEAP_ERR_TOO_SMALL);
    is("allocations", calls > 5 && length == s->size, true);
    is("close", rtheap_close(&heap), RTHEAP_OK);
    is("all is given back", given, 0);
}

/* More objects than can be loaded are not saved. */
static void try_large(void) {
    const rtheap_config c = {sizeof c, 8, 1, 40000, 16000, 1, 0};
    rtheap heap = RTHEAP_CLOSED;
    size_t length = 77;
    int i;
    is("open", rtheap_open(&heap, &c), RTHEAP_OK);
    for (i = 0; i < 7159; i++) {
        is("record", rtheap_record(&heap, 1, 1), RTHEAP_OK);
        is("put", rtheap_put(&heap, 1, 0, 2), RTHEAP_OK);
        is("mov", rtheap_mov(&heap, 2, 1), RTHEAP_OK);
    }
    is("too large", rtheap_save(&heap, NULL, 0, &length), RTHEAP_ERR_TOO_LARGE);
    is("no length", length, 77);
    says(&heap, RTHEAP_ERR_TOO_LARGE, "objects", 7160, 0, UINT64_MAX);
    is("close", rtheap_close(&heap), RTHEAP_OK);
}

int main(void) {
    static uint64_t lent[RTHEAP_WORDS(8, 1000, 1)];
    rtheap heap = RTHEAP_CLOSED;
    save s;
    try_drawn(8, 8);
    try_drawn(8, 4);
    try_drawn(4, 8);
    open_list(&heap, lent, sizeof lent, 150);
    s = saved(&heap);
    is("close", rtheap_close(&heap), RTHEAP_OK);
    try_needs(&s);
    try_raised(&s);
    try_damage(&s);
    try_refusals(&s);
    try_allocations(&s);
    try_large();
    free(s.bytes);
    return wrong;
}
