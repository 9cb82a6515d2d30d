/* Tests rtheap_numbers.h, and fields that are read and stored several at a time. Prints nothing if
   all is well. */
#include <float.h>
#include <math.h>
#include <stdio.h>
#include <string.h>

#include "rtheap.h"
#include "rtheap_numbers.h"

static int wrong;

static void check(bool holds, const char *what, uint64_t number) {
    if (!holds) {
        printf("numbers: %s (%llu)\n", what, (unsigned long long)number);
        wrong = 1;
    }
}

/* Drawn bits, the same in each run. */
static uint64_t drawn(void) {
    static uint64_t state = 1;
    state ^= state << 13;
    state ^= state >> 7;
    state ^= state << 17;
    return state;
}

static void try_int(int64_t n) {
    uint64_t number = 0;
    const bool small = n >= -(INT64_C(1) << 61) && n < (INT64_C(1) << 61);
    check(rtheap_from_int(n, &number) == small, "an int fits", (uint64_t)n);
    if (!small) return;
    check(number < UINT64_C(1) << 62, "a number below 2^62", (uint64_t)n);
    check(rtheap_to_int(number) == n, "an int comes back", (uint64_t)n);
}

static void try_ints(void) {
    static const int64_t ends[] = {0, INT64_C(1) << 61, -(INT64_C(1) << 61), INT64_MAX, INT64_MIN};
    size_t i;
    int off;
    for (i = 0; i < sizeof ends / sizeof *ends; i++)
        for (off = -3; off <= 3; off++) try_int((int64_t)((uint64_t)ends[i] + (uint64_t)off));
    for (i = 0; i < 100000; i++) try_int((int64_t)(drawn() << (i % 64)));
}

static void try_bits(uint64_t bits) {
    uint64_t halves[2];
    double x, back;
    float f, same;
    const uint32_t low = (uint32_t)bits;
    memcpy(&x, &bits, sizeof x);
    rtheap_split_double(x, halves);
    check(halves[0] <= UINT32_MAX && halves[1] <= UINT32_MAX, "halves", bits);
    back = rtheap_join_double(halves);
    check(memcmp(&x, &back, sizeof x) == 0, "a double comes back", bits);
    rtheap_split_bits(bits, halves);
    check(rtheap_join_bits(halves) == bits, "64 bits come back", bits);
    memcpy(&f, &low, sizeof f);
    check(rtheap_from_float(f) <= UINT32_MAX, "a float fits", bits);
    same = rtheap_to_float(rtheap_from_float(f));
    check(memcmp(&f, &same, sizeof f) == 0, "a float comes back", bits);
}

static void try_floats(void) {
    static const double some[] = {0.0, -0.0, -21.5, 1e300, DBL_MIN, DBL_MAX, -DBL_MAX, HUGE_VAL};
    uint64_t bits;
    size_t i;
    for (i = 0; i < sizeof some / sizeof *some; i++) {
        memcpy(&bits, &some[i], sizeof bits);
        try_bits(bits);
    }
    try_bits(UINT64_MAX); /* not a number */
    for (i = 0; i < 100000; i++) try_bits(drawn());
}

static void must(rtheap_status status, const char *what) {
    check(status == RTHEAP_OK, what, (uint64_t)status);
}

static void open_heap(rtheap *heap) {
    rtheap_config config = RTHEAP_CONFIG(64, 20);
    config.object = 2;
    must(rtheap_open(heap, &config), "open");
    must(rtheap_record(heap, 1, 10), "record");
}

/* A signed number, a double and a float in a record, as a program stores them. */
static void try_record(void) {
    rtheap heap = RTHEAP_CLOSED;
    uint64_t stored[4], read[4] = {0, 0, 0, 0};
    size_t done = 0;
    open_heap(&heap);
    check(rtheap_from_int(-7, &stored[0]), "-7", 0);
    rtheap_split_double(-21.5, stored + 1);
    stored[3] = rtheap_from_float(0.25f);
    must(rtheap_put_numbers(&heap, 1, 3, 2, stored, 4, &done), "put");
    check(done == 4, "put four", done);
    must(rtheap_get_numbers(&heap, 2, 1, 3, read, 4, &done), "get");
    check(done == 4 && rtheap_to_int(read[0]) == -7, "-7 again", read[0]);
    check(rtheap_join_double(read + 1) < -21.4, "-21.5 again", read[1]);
    check(rtheap_to_float(read[3]) > 0.2f, "0.25 again", read[3]);
    must(rtheap_close(&heap), "close");
}

/* They stop at the first field that is wrong, and say how many were done. */
static void try_ends(void) {
    rtheap heap = RTHEAP_CLOSED;
    rtheap_value values[10];
    uint64_t numbers[10] = {0, 1, 2, 3, 4, UINT64_MAX, 6, 7, 8, 9};
    size_t done = 99;
    open_heap(&heap);
    check(rtheap_put_numbers(&heap, 1, 0, 2, numbers, 10, &done) == RTHEAP_ERR_BOUNDS, "too large",
          0);
    check(done == 5, "five were stored", done);
    check(rtheap_get_numbers(&heap, 2, 1, 0, numbers, 10, &done) == RTHEAP_ERR_NOT_NUMBER,
          "nil is no number", 0);
    check(done == 5 && numbers[4] == 4, "five were read", done);
    must(rtheap_get_values(&heap, 2, 1, 0, values, 10, &done), "values");
    check(done == 10 && values[4].number == 4 && values[5].kind == RTHEAP_NIL, "ten values", done);
    check(rtheap_get_values(&heap, 2, 1, 8, values, 3, &done) == RTHEAP_ERR_RANGE, "range", 0);
    check(done == 2, "two values", done);
    check(rtheap_get_values(&heap, 1, 1, 0, values, 2, &done) == RTHEAP_ERR_BOUNDS, "d is s", 0);
    check(rtheap_put_numbers(&heap, 1, 0, 1, numbers, 1, &done) == RTHEAP_ERR_BOUNDS, "v is s", 0);
    check(done == 0, "nothing was done", done);
    check(rtheap_get_numbers(&heap, 2, 1, 0, NULL, 1, &done) == RTHEAP_ERR_NULL_POINTER, "NULL", 0);
    must(rtheap_get_numbers(&heap, 2, 1, 0, NULL, 0, NULL), "none");
    check(rtheap_get_numbers(&heap, 2, 5, 0, numbers, 1, NULL) == RTHEAP_ERR_NIL, "nil", 0);
    must(rtheap_close(&heap), "close");
    check(rtheap_get_numbers(&heap, 2, 1, 0, numbers, 1, &done) == RTHEAP_ERR_CLOSED, "closed", 0);
}

static void try_lists_of_commands(void) {
    rtheap heap = RTHEAP_CLOSED;
    const rtheap_command commands[5] = {rtheap_cmd_set(2, 5), rtheap_cmd_put(1, 0, 2),
                                        rtheap_cmd_get(3, 1, 0), rtheap_cmd_get(3, 1, 10),
                                        rtheap_cmd_nil(1)};
    rtheap_reply replies[5];
    uint64_t length = 0;
    size_t done = 99;
    open_heap(&heap);
    check(rtheap_ask_all(&heap, commands, 5, replies, &done) == RTHEAP_ERR_RANGE, "range", 0);
    check(done == 3 && replies[2].value == 5, "three were done", done);
    check(replies[3].kind == RTHEAP_REPLY_RANGE, "the reply of the one that failed", 0);
    must(rtheap_len(&heap, 1, &length), "the fifth was not done");
    check(length == 10, "the record is there", length);
    must(rtheap_ask_all(&heap, commands, 3, NULL, NULL), "no replies");
    check(rtheap_ask_all(&heap, NULL, 1, NULL, &done) == RTHEAP_ERR_NULL_POINTER, "NULL", 0);
    must(rtheap_ask_all(&heap, NULL, 0, NULL, &done), "none");
    must(rtheap_close(&heap), "close");
}

int main(void) {
    try_ints();
    try_floats();
    try_record();
    try_ends();
    try_lists_of_commands();
    return wrong;
}
