/* Tests what is said of a call that was refused or failed: for each argument of each call the name,
   the value and the limits; that the limits are right, by calls at and beside them; names and texts
   of statuses. Prints nothing if all is well. */
#include <stdio.h>
#include <string.h>

#include "rtheap_shared.h"

static int wrong;

static void is(const char *what, unsigned long long found, unsigned long long wanted) {
    if (found != wanted) {
        printf("causes: %s: %llu, wanted %llu\n", what, found, wanted);
        wrong = 1;
    }
}

static rtheap_error last(const rtheap *heap) {
    rtheap_error error;
    is("last error", rtheap_last_error(heap, &error, sizeof error), RTHEAP_OK);
    return error;
}

/* The heap's last error has this status, argument and value, and these limits. */
static void says(const rtheap *heap, rtheap_status status, const char *argument, uint64_t value,
                 uint64_t least, uint64_t most) {
    rtheap_error error = last(heap);
    const char *name = error.argument ? error.argument : "none";
    is(argument, error.status, status);
    if (strcmp(name, argument) != 0) {
        printf("causes: %s is named, and not %s\n", name, argument);
        wrong = 1;
    }
    is(argument, error.value, value);
    is(argument, error.least, least);
    is(argument, error.most, most);
}

static const rtheap_config usual = {sizeof(rtheap_config), 8, 1, 64, 20, 1, 4};

static void try_config(void) {
    rtheap heap = RTHEAP_CLOSED;
    rtheap_config c = usual;
    c.blocks = 65536;
    is("blocks", rtheap_open(&heap, &c), RTHEAP_ERR_BOUNDS);
    says(&heap, RTHEAP_ERR_BOUNDS, "blocks", 65536, 1, 65535);
    c = usual, c.live = 65536;
    is("live", rtheap_open(&heap, &c), RTHEAP_ERR_BOUNDS);
    says(&heap, RTHEAP_ERR_BOUNDS, "live", 65536, 0, 65535);
    c = usual, c.object = 0;
    is("object", rtheap_open(&heap, &c), RTHEAP_ERR_BOUNDS);
    says(&heap, RTHEAP_ERR_BOUNDS, "object", 0, 1, 1024);
    c = usual, c.shared = 1025;
    is("shared", rtheap_open(&heap, &c), RTHEAP_ERR_BOUNDS);
    says(&heap, RTHEAP_ERR_BOUNDS, "shared", 1025, 0, 1024);
    c = usual, c.threads = 2;
    is("threads", rtheap_open(&heap, &c), RTHEAP_ERR_BOUNDS);
    says(&heap, RTHEAP_ERR_BOUNDS, "threads", 2, 1, 1);
    c = usual, c.width = 2;
    is("width", rtheap_open(&heap, &c), RTHEAP_ERR_WIDTH);
    says(&heap, RTHEAP_ERR_WIDTH, "width", 2, 4, 8);
    c = usual, c.size = 4;
    is("size", rtheap_open(&heap, &c), RTHEAP_ERR_CONFIG_SIZE);
    says(&heap, RTHEAP_ERR_CONFIG_SIZE, "config", 4, sizeof c, UINT64_MAX);
    is("NULL", rtheap_open(&heap, NULL), RTHEAP_ERR_NULL_POINTER);
}

/* A configuration of a later version is taken if its further numbers are 0. */
static void try_larger_config(void) {
    struct {
        rtheap_config known;
        uint32_t further[3];
    } larger = {{sizeof larger, 8, 1, 64, 20, 1, 4}, {0, 0, 0}};
    rtheap heap = RTHEAP_CLOSED;
    is("further zeros", rtheap_open(&heap, &larger.known), RTHEAP_OK);
    is("close", rtheap_close(&heap), RTHEAP_OK);
    larger.further[1] = 1;
    is("a further number", rtheap_open(&heap, &larger.known), RTHEAP_ERR_CONFIG_SIZE);
}

static rtheap_status opens(rtheap_config c, rtheap_error *error) {
    rtheap heap = RTHEAP_CLOSED;
    rtheap_status status = rtheap_open(&heap, &c);
    is("last error", rtheap_last_error(&heap, error, sizeof *error), RTHEAP_OK);
    if (status == RTHEAP_OK) is("close", rtheap_close(&heap), RTHEAP_OK);
    return status;
}

static rtheap_status group_opens(rtheap_config c, rtheap_error *error) {
    rtheap_group group = RTHEAP_GROUP_CLOSED;
    rtheap_status status = rtheap_group_open(&group, &c);
    is("last error", rtheap_group_last_error(&group, error, sizeof *error), RTHEAP_OK);
    if (status == RTHEAP_OK) is("close", rtheap_group_close(&group), RTHEAP_OK);
    return status;
}

/* With the least that is said the heap opens, and with one less it does not. */
static void try_least(rtheap_config c, rtheap_status (*open)(rtheap_config, rtheap_error *)) {
    rtheap_error error;
    c.live = 0;
    is("live 0", open(c, &error), RTHEAP_ERR_LIVE);
    c.live = (uint32_t)error.least - 1;
    is("too few live", open(c, &error), RTHEAP_ERR_LIVE);
    c.live++;
    c.blocks = 1;
    is("one block", open(c, &error), RTHEAP_ERR_RATE);
    c.blocks = (uint32_t)error.least - 1;
    is("too few blocks", open(c, &error), RTHEAP_ERR_RATE);
    c.blocks++;
    is("enough", open(c, &error), RTHEAP_OK);
}

static void try_rates(void) {
    static const uint32_t shared[] = {0, 1, 8, 9, 64, 65, 513, 1024}, objects[] = {1, 2, 40, 1024};
    size_t s, o;
    uint32_t width, threads;
    for (s = 0; s < sizeof shared / sizeof *shared; s++)
        for (o = 0; o < sizeof objects / sizeof *objects; o++)
            for (width = 4; width <= 8; width += 4) {
                rtheap_config c = {sizeof c, width, 1, 1, 0, objects[o], shared[s]};
                try_least(c, opens);
                for (threads = 1; threads <= 16; threads += 5) {
                    c.threads = threads;
                    try_least(c, group_opens);
                }
            }
}

/* The longest record and array that a heap is said to take, and one more. */
static void try_lengths(uint32_t width, uint32_t object) {
    rtheap heap = RTHEAP_CLOSED;
    rtheap_config c = {sizeof c, width, 1, 5000, 2500, object, 0};
    uint32_t fields, elements;
    is("open", rtheap_open(&heap, &c), RTHEAP_OK);
    is("a record", rtheap_record(&heap, 1, UINT32_MAX), RTHEAP_ERR_BOUNDS);
    fields = (uint32_t)last(&heap).most;
    says(&heap, RTHEAP_ERR_BOUNDS, "fields", UINT32_MAX, 0, fields);
    is("an array", rtheap_array(&heap, 1, UINT32_MAX), RTHEAP_ERR_BOUNDS);
    elements = (uint32_t)last(&heap).most;
    says(&heap, RTHEAP_ERR_BOUNDS, "elements", UINT32_MAX, 0, elements);
    is("the longest record", rtheap_record(&heap, 1, fields), RTHEAP_OK);
    is("a longer one", rtheap_record(&heap, 1, fields + 1), RTHEAP_ERR_BOUNDS);
    is("the longest array", rtheap_array(&heap, 1, elements), RTHEAP_OK);
    is("a longer one", rtheap_array(&heap, 1, elements + 1), RTHEAP_ERR_BOUNDS);
    is("close", rtheap_close(&heap), RTHEAP_OK);
}

/* The operand that is wrong of each command. */
static void try_operands(void) {
    const uint64_t large = UINT64_C(1) << 62, most = large - 1;
    const struct {
        rtheap_command command;
        const char *argument;
        uint64_t value, most;
    } rows[] = {
        {rtheap_cmd_record(16, 1), "d", 16, 15}, {rtheap_cmd_record(1, 8), "fields", 8, 7},
        {rtheap_cmd_array(16, 1), "d", 16, 15}, {rtheap_cmd_array(1, 9), "elements", 9, 8},
        {rtheap_cmd_set(16, 1), "d", 16, 15}, {rtheap_cmd_set(1, large), "value", large, most},
        {rtheap_cmd_nil(272), "d", 272, 15}, {rtheap_cmd_mov(17, 1), "d", 17, 15},
        {rtheap_cmd_mov(1, 17), "s", 17, 15}, {rtheap_cmd_get(16, 0, 0), "d", 16, 15},
        {rtheap_cmd_get(1, 16, 0), "s", 16, 15}, {rtheap_cmd_get(1, 0, large), "i", large, most},
        {rtheap_cmd_put(16, 0, 1), "s", 16, 15}, {rtheap_cmd_put(0, large, 1), "i", large, most},
        {rtheap_cmd_put(0, 0, 16), "v", 16, 15}, {rtheap_cmd_len(16), "s", 16, 15},
        {rtheap_cmd_same(16, 1), "a", 16, 15}, {rtheap_cmd_same(1, 16), "b", 16, 15},
        {rtheap_cmd_say(16), "s", 16, 15}, {rtheap_cmd_swap(16, 0, 1), "s", 16, 15},
        {rtheap_cmd_swap(0, large, 1), "i", large, most}, {rtheap_cmd_swap(0, 0, 16), "v", 16, 15},
        {rtheap_cmd_cas(16, 0, 1, 1), "s", 16, 15},
        {rtheap_cmd_cas(0, large, 1, 1), "i", large, most},
        {rtheap_cmd_cas(0, 0, 16, 1), "a", 16, 15}, {rtheap_cmd_cas(0, 0, 1, 16), "v", 16, 15},
        {rtheap_cmd_idle(131071), "units", 131071, 131070},
    };
    rtheap heap = RTHEAP_CLOSED;
    size_t i;
    is("open", rtheap_open(&heap, &usual), RTHEAP_OK);
    for (i = 0; i < sizeof rows / sizeof *rows; i++) {
        is(rows[i].argument, rtheap_ask(&heap, rows[i].command, NULL), RTHEAP_ERR_BOUNDS);
        says(&heap, RTHEAP_ERR_BOUNDS, rows[i].argument, rows[i].value, 0, rows[i].most);
    }
    is("close", rtheap_close(&heap), RTHEAP_OK);
}

/* What fails while it is carried out, and what blocks of width 4 lack. */
static void try_failures(void) {
    rtheap heap = RTHEAP_CLOSED;
    rtheap_config four = usual;
    rtheap_command none = {13, 0, 0, 0, 0};
    rtheap_error error;
    is("open", rtheap_open(&heap, &usual), RTHEAP_OK);
    is("no error yet", last(&heap).status, RTHEAP_OK);
    is("nil", rtheap_get(&heap, 1, 5, 0, NULL), RTHEAP_ERR_NIL);
    says(&heap, RTHEAP_ERR_NIL, "s", 5, 0, UINT64_MAX);
    is("set", rtheap_set(&heap, 6, 1), RTHEAP_OK);
    is("number", rtheap_put(&heap, 6, 0, 1), RTHEAP_ERR_NOT_OBJECT);
    says(&heap, RTHEAP_ERR_NOT_OBJECT, "s", 6, 0, UINT64_MAX);
    is("range", rtheap_get(&heap, 1, 0, 4, NULL), RTHEAP_ERR_RANGE);
    says(&heap, RTHEAP_ERR_RANGE, "i", 4, 0, UINT64_MAX);
    is("command 13", rtheap_ask(&heap, none, NULL), RTHEAP_ERR_NO_SUCH_COMMAND);
    says(&heap, RTHEAP_ERR_NO_SUCH_COMMAND, "kind", 13, 0, 12);
    is("done", rtheap_nil(&heap, 6), RTHEAP_OK);
    says(&heap, RTHEAP_ERR_NO_SUCH_COMMAND, "kind", 13, 0, 12);
    is("close", rtheap_close(&heap), RTHEAP_OK);
    four.width = 4;
    is("open width 4", rtheap_open(&heap, &four), RTHEAP_OK);
    is("idle", rtheap_idle(&heap, 1), RTHEAP_ERR_BOUNDS);
    says(&heap, RTHEAP_ERR_BOUNDS, "width", 4, 8, 8);
    is("close", rtheap_close(&heap), RTHEAP_OK);
    is("NULL", rtheap_last_error(NULL, &error, sizeof error), RTHEAP_ERR_NULL_HANDLE);
}

/* A full heap: the cycle is that of the reply, and the statistics count it. */
static void try_full(void) {
    rtheap heap = RTHEAP_CLOSED;
    rtheap_reply reply = {99, 99, 99};
    rtheap_status status = RTHEAP_OK;
    rtheap_statistics s;
    int i;
    is("open", rtheap_open(&heap, &usual), RTHEAP_OK);
    for (i = 0; i < 1000 && !status; i++) {
        status = rtheap_ask(&heap, rtheap_cmd_record(1, 2), &reply);
        if (!status) status = rtheap_put(&heap, 1, 0, 2);
        if (!status) status = rtheap_mov(&heap, 2, 1);
    }
    is("full", status, RTHEAP_ERR_FULL);
    is("its reply", reply.kind, RTHEAP_REPLY_FULL);
    says(&heap, RTHEAP_ERR_FULL, "none", reply.value, 0, UINT64_MAX);
    is("statistics", rtheap_read_statistics(&heap, &s, sizeof s), RTHEAP_OK);
    is("fulls", s.fulls, 1);
    is("cycle", s.full_cycle, reply.value);
    is("close", rtheap_close(&heap), RTHEAP_OK);
}

static void count_line(void *lines, const char *line) {
    (void)line;
    ++*(int *)lines;
}

/* The recorder of jobs; c/check compares what it tells. */
static void try_jobs(void) {
    rtheap heap = RTHEAP_CLOSED, moved = RTHEAP_CLOSED;
    int lines = 0, i;
    is("closed", rtheap_start_job(&heap, count_line, &lines), RTHEAP_ERR_CLOSED);
    is("open", rtheap_open(&heap, &usual), RTHEAP_OK);
    is("nothing to tell", rtheap_start_job(&heap, NULL, NULL), RTHEAP_ERR_NULL_POINTER);
    is("none to end", rtheap_end_job(&heap), RTHEAP_OK);
    is("start", rtheap_start_job(&heap, count_line, &lines), RTHEAP_OK);
    is("header", (unsigned)lines, 2);
    is("refused", rtheap_set(&heap, 16, 1), RTHEAP_ERR_BOUNDS);
    is("failed", rtheap_get(&heap, 1, 5, 0, NULL), RTHEAP_ERR_NIL);
    is("one command", (unsigned)lines, 3);
    is("move", rtheap_move(&moved, &heap), RTHEAP_OK);
    for (i = 0; i < 131072; i++)
        if (rtheap_nil(&moved, 1) != RTHEAP_OK) break;
    is("a whole job", (unsigned)lines, 131072 + 3);
    is("started late", rtheap_start_job(&moved, count_line, &lines), RTHEAP_ERR_USED);
    says(&moved, RTHEAP_ERR_USED, "commands", 131073, 0, 0);
    is("close", rtheap_close(&moved), RTHEAP_OK);
    is("ended once", (unsigned)lines, 131072 + 3);
}

static void try_texts(void) {
    rtheap heap = RTHEAP_CLOSED;
    rtheap_config c = usual;
    char text[99], small[10];
    size_t length;
    int i, named = 0;
    c.blocks = 10;
    is("no rate", rtheap_open(&heap, &c), RTHEAP_ERR_RATE);
    length = rtheap_explain(&heap, text, sizeof text);
    is("length", length, strlen(text));
    is("text", strcmp(text, "the heap has too few blocks for the live limit: blocks is 10; "
                            "at least 24; at most 65535") == 0, 1);
    is("cut off", rtheap_explain(&heap, small, sizeof small), length);
    is("cut off", strcmp(small, "the heap ") == 0, 1);
    is("nowhere", rtheap_explain(&heap, NULL, 5), length);
    for (i = 0; i < 100; i++)
        named += strncmp(rtheap_status_name((rtheap_status)i), "RTHEAP_", 7) == 0;
    is("statuses with a name", (unsigned)named, 38);
    is("a name", strcmp(rtheap_status_name(RTHEAP_ERR_FULL), "RTHEAP_ERR_FULL") == 0, 1);
    is("no name", strcmp(rtheap_status_name(RTHEAP_STATUS_LAST), "not a status") == 0, 1);
    is("no text", strcmp(rtheap_status_text((rtheap_status)9), "not a status") == 0, 1);
    is("version", strcmp(rtheap_version(), RTHEAP_VERSION) == 0, 1);
    is("version number", rtheap_version_number(), RTHEAP_VERSION_NUMBER);
}

int main(void) {
    try_config();
    try_larger_config();
    try_rates();
    try_lengths(4, 1);
    try_lengths(8, 1);
    try_lengths(4, 40);
    try_lengths(8, 1024);
    try_operands();
    try_failures();
    try_full();
    try_jobs();
    try_texts();
    return wrong;
}
