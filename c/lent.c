/* Tests heaps in lent memory: a heap uses the words that it is lent, and no others; too few words
   are refused; after rtheap_close the words are the program's. Prints nothing if all is well. It is
   linked with librtheap_lent.a and with refuse_malloc.c. */
#include <stdio.h>
#include <string.h>

#include "rtheap.h"

enum { MARGIN = 8 };

static const uint64_t UNTOUCHED = UINT64_C(0x5a5a5a5a5a5a5a5a);

/* Lent words between words that no call may touch. */
static uint64_t room[MARGIN + RTHEAP_WORDS(8, 2048, 1024) + 1 + MARGIN];
static uint64_t other_room[RTHEAP_WORDS(4, 64, 1)];

static int wrong;

static void is(const char *what, unsigned long long number, unsigned long long found,
               unsigned long long wanted) {
    if (found != wanted) {
        printf("lent: %s (%llu): %llu, wanted %llu\n", what, number, found, wanted);
        wrong = 1;
    }
}

static rtheap_config config_of(uint32_t width, uint32_t blocks, uint32_t live, uint32_t object,
                               uint32_t shared) {
    const rtheap_config config = {sizeof config, width, 1, blocks, live, object, shared};
    return config;
}

static rtheap_status open_in(rtheap *heap, uint64_t *memory, uint64_t words, rtheap_config config) {
    return rtheap_open_in(heap, &config, memory, 8 * words);
}

static uint64_t asked(const rtheap *heap) {
    uint64_t commands = 0;
    is("asked", 0, rtheap_asked(heap, &commands), RTHEAP_OK);
    return commands;
}

static void fill(void) {
    memset(room, 0x5a, sizeof room);
}

/* The words of `room` before `first` and from `end` on are untouched. */
static void margins_are_untouched(size_t first, size_t end) {
    size_t i;
    for (i = 0; i < sizeof room / sizeof *room; i++) {
        if ((i < first || i >= end) && room[i] != UNTOUCHED) {
            is("a word that was not lent", i, room[i], UNTOUCHED);
            return;
        }
    }
}

/* Commands through some cycles of collection. */
static void work(rtheap *heap, uint32_t fields) {
    uint64_t n, length = 0, before = asked(heap);
    rtheap_value value = {RTHEAP_NIL, 0, 0};
    for (n = 0; n < 2000; n++) {
        rtheap_status status = rtheap_record(heap, 1, fields);
        if (!status) status = rtheap_set(heap, 2, n);
        if (!status) status = rtheap_put(heap, 1, fields - 1, 2);
        if (!status) status = rtheap_put(heap, 0, n % 3, 1);
        if (!status) status = rtheap_nil(heap, 1);
        if (!status) status = rtheap_get(heap, 3, 0, n % 3, NULL);
        if (!status) status = rtheap_len(heap, 3, &length);
        if (!status) status = rtheap_get(heap, 4, 3, fields - 1, &value);
        is("status", n, status, RTHEAP_OK);
        is("length", n, length, fields);
        is("number", n, value.number, n);
    }
    is("asked", n, asked(heap), before + 8 * n);
}

static void no_words(void) {
    rtheap_config config = config_of(2, 64, 20, 1, 0);
    is("bytes of width 2", 0, rtheap_bytes(&config), 0);
    config = config_of(8, 64, 20, 1, 0);
    config.size = 4;
    is("bytes of a wrong size", 0, rtheap_bytes(&config), 0);
    is("bytes of NULL", 0, rtheap_bytes(NULL), 0);
}

/* The header and the library count the same words. */
static void try_counts(void) {
    uint32_t blocks;
    for (blocks = 1; blocks <= 65535; blocks++) {
        uint32_t object = blocks % 1024 + 1;
        rtheap_config four = config_of(4, blocks, 0, object, 0);
        rtheap_config eight = config_of(8, blocks, 0, object, 0);
        is("bytes", blocks, rtheap_bytes(&four), 8 * RTHEAP_WORDS(4, blocks, object));
        is("bytes", blocks, rtheap_bytes(&eight), 8 * RTHEAP_WORDS(8, blocks, object));
    }
    no_words();
}

/* A heap in the words from `first` on. */
static void try_heap(rtheap_config config, size_t first) {
    rtheap heap = RTHEAP_CLOSED;
    const uint32_t blocks = config.blocks;
    const uint64_t words = rtheap_bytes(&config) / 8;
    uint64_t *memory = room + first;
    fill();
    is("one word fewer", blocks, open_in(&heap, memory, words - 1, config), RTHEAP_ERR_TOO_SMALL);
    is("no memory", blocks, open_in(&heap, NULL, words, config), RTHEAP_ERR_TOO_SMALL);
    is("not opened", blocks, rtheap_close(&heap), RTHEAP_ERR_CLOSED);
    margins_are_untouched(0, 0);
    is("open", blocks, open_in(&heap, memory, words, config), RTHEAP_OK);
    work(&heap, config.object * (config.width - 1));
    is("open again", blocks, open_in(&heap, memory, words, config), RTHEAP_ERR_OPEN);
    is("asked after it", blocks, asked(&heap), 16000);
    margins_are_untouched(first, first + words);
    is("close", blocks, rtheap_close(&heap), RTHEAP_OK);
    fill();
    is("closed", blocks, rtheap_record(&heap, 1, 2), RTHEAP_ERR_CLOSED);
    margins_are_untouched(0, 0);
}

/* Two heaps at a time, each in its own words. */
static void try_two(void) {
    rtheap one = RTHEAP_CLOSED, two = RTHEAP_CLOSED;
    rtheap_value value = {RTHEAP_NIL, 0, 0};
    fill();
    is("one", 0, open_in(&one, room, RTHEAP_WORDS(8, 512, 2), config_of(8, 512, 128, 2, 3)),
       RTHEAP_OK);
    is("two", 0, open_in(&two, other_room, sizeof other_room / 8, config_of(4, 64, 20, 1, 3)),
       RTHEAP_OK);
    is("set one", 0, rtheap_set(&one, 5, 1), RTHEAP_OK);
    is("set two", 0, rtheap_set(&two, 5, 2), RTHEAP_OK);
    work(&two, 3);
    is("say one", 0, rtheap_say(&one, 5, &value), RTHEAP_OK);
    is("one's number", 0, value.number, 1);
    is("say two", 0, rtheap_say(&two, 5, &value), RTHEAP_OK);
    is("two's number", 0, value.number, 2);
    is("close one", 0, rtheap_close(&one), RTHEAP_OK);
    is("say two again", 0, rtheap_say(&two, 5, &value), RTHEAP_OK);
    is("close two", 0, rtheap_close(&two), RTHEAP_OK);
}

/* Other refusals, and rtheap_open, for which there is no malloc here. */
static void try_refusals(void) {
    rtheap heap = RTHEAP_CLOSED;
    const uint64_t words = sizeof room / sizeof *room;
    rtheap_config config = config_of(8, 64, 20, 1, 0), most;
    memset(&most, 0xff, sizeof most);
    most.size = sizeof most;
    most.threads = 1;
    most.width = 8;
    is("no handle", 0, open_in(NULL, room, words, config), RTHEAP_ERR_NULL_HANDLE);
    is("width 3", 0, open_in(&heap, room, words, config_of(3, 64, 20, 1, 0)), RTHEAP_ERR_WIDTH);
    is("no blocks", 0, open_in(&heap, room, words, config_of(8, 0, 20, 1, 0)), RTHEAP_ERR_BOUNDS);
    is("live 2", 0, open_in(&heap, room, words, config_of(8, 64, 2, 1, 0)), RTHEAP_ERR_LIVE);
    is("no rate", 0, open_in(&heap, room, words, config_of(8, 25, 20, 2, 0)), RTHEAP_ERR_RATE);
    is("the largest numbers", 0, open_in(&heap, room, words, most), RTHEAP_ERR_TOO_SMALL);
    is("rtheap_open", 0, rtheap_open(&heap, &config), RTHEAP_ERR_MEMORY);
    is("not opened", 0, rtheap_close(&heap), RTHEAP_ERR_CLOSED);
}

int main(void) {
    size_t odd;
    for (odd = 0; odd < 2; odd++) { /* also words of which the first is not aligned to 16 bytes */
        try_heap(config_of(4, 40, 20, 1, 3), MARGIN + odd);
        try_heap(config_of(8, 40, 20, 1, 3), MARGIN + odd);
        try_heap(config_of(4, 64, 40, 2, 3), MARGIN + odd);
        try_heap(config_of(8, 64, 40, 3, 3), MARGIN + odd);
        try_heap(config_of(8, 2048, 1000, 101, 3), MARGIN + odd);
        try_heap(config_of(4, 2048, 1000, 150, 3), MARGIN + odd);
        try_heap(config_of(8, 2048, 1000, 199, 3), MARGIN + odd);
    }
    try_counts();
    try_two();
    try_refusals();
    return wrong;
}
