/* Tests heaps whose memory is from an allocator of the program, beside heaps on malloc and in lent
   memory: which calls allocate, what happens where an allocation is refused, and that each block
   goes back to the allocator that it is from. Prints nothing if all is well. */
#include <stdio.h>
#include <stdlib.h>

#include "rtheap_shared.h"

static int wrong;

static void is(const char *what, unsigned long long found, unsigned long long wanted) {
    if (found != wanted) {
        printf("allocators: %s: %llu, wanted %llu\n", what, found, wanted);
        wrong = 1;
    }
}

/* An allocator that counts, and refuses the request that is the `budget`th; 0 for none. Before each
   block it keeps its own address, so that a block of another allocator is noticed. */
typedef struct allocator {
    unsigned long requests, blocks, budget;
} allocator;

enum { HEADER = 16 };

static void *allocate(void *context, size_t size, size_t alignment) {
    allocator *own = context;
    unsigned char *block;
    own->requests++;
    if (own->budget && --own->budget == 0) return NULL;
    is("a power of two", alignment & (alignment - 1), 0);
    is("at most 16", alignment <= HEADER, 1);
    block = malloc(HEADER + size);
    if (!block) exit(1);
    own->blocks++;
    *(void **)(void *)block = own;
    return block + HEADER;
}

static void release(void *context, void *block) {
    allocator *own = context;
    unsigned char *start = (unsigned char *)block - HEADER;
    is("its own block", *(void **)(void *)start == own, 1);
    own->blocks--;
    free(start);
}

static const rtheap_config config = {sizeof(rtheap_config), 8, 1, 512, 128, 4, 8};

static void work(rtheap *heap) {
    rtheap_status status = RTHEAP_OK;
    int i;
    for (i = 0; i < 2000 && !status; i++) {
        status = rtheap_record(heap, 1, 20);
        if (!status) status = rtheap_put(heap, 0, (uint64_t)i % 8, 1);
    }
    is("commands", status, RTHEAP_OK);
}

/* An allocator that opens and closes another heap whenever it is asked for memory. */
static void *allocate_busily(void *context, size_t size, size_t alignment) {
    rtheap other = RTHEAP_CLOSED;
    is("open within an open", rtheap_open(&other, &config), RTHEAP_OK);
    is("close within an open", rtheap_close(&other), RTHEAP_OK);
    return allocate(context, size, alignment);
}

static void try_nested(void) {
    allocator own = {0, 0, 0};
    rtheap_memory memory = {allocate_busily, release, NULL};
    rtheap heap = RTHEAP_CLOSED;
    memory.context = &own;
    is("open", rtheap_open_with(&heap, &config, &memory), RTHEAP_OK);
    is("all blocks are its own", own.blocks, own.requests);
    is("more than one", own.blocks > 1, 1);
    work(&heap);
    is("close", rtheap_close(&heap), RTHEAP_OK);
    is("blocks left", own.blocks, 0);
}

static void try_heap(void) {
    allocator own = {0, 0, 0};
    rtheap_memory memory = {allocate, release, NULL};
    rtheap heap = RTHEAP_CLOSED;
    unsigned long n, before;
    memory.context = &own;
    for (n = 1; n < 1000; n++) {
        rtheap_status status;
        own.budget = n;
        status = rtheap_open_with(&heap, &config, &memory);
        if (own.budget > 0) {
            is("open", status, RTHEAP_OK);
            break;
        }
        is("refused memory", status, RTHEAP_ERR_MEMORY);
        is("blocks lost", own.blocks, 0);
    }
    is("requests that were refused", n > 1 && n < 1000, 1);
    own.budget = 0;
    before = own.requests;
    work(&heap);
    is("requests of commands", own.requests, before);
    is("close", rtheap_close(&heap), RTHEAP_OK);
    is("blocks left", own.blocks, 0);
    memory.release = NULL;
    is("no release", rtheap_open_with(&heap, &config, &memory), RTHEAP_ERR_NULL_POINTER);
    is("no allocator", rtheap_open_with(&heap, &config, NULL), RTHEAP_ERR_NULL_POINTER);
    is("no handle", rtheap_open_with(NULL, &config, &memory), RTHEAP_ERR_NULL_HANDLE);
}

/* Heaps of all three kinds at a time, closed in another order. */
static void try_kinds(void) {
    static uint64_t lent[RTHEAP_WORDS(8, 512, 4)];
    allocator one = {0, 0, 0}, two = {0, 0, 0};
    rtheap_memory memory = {allocate, release, NULL};
    rtheap heaps[4] = {RTHEAP_INIT, RTHEAP_INIT, RTHEAP_INIT, RTHEAP_INIT};
    int i;
    is("malloc", rtheap_open(&heaps[0], &config), RTHEAP_OK);
    memory.context = &one;
    is("one", rtheap_open_with(&heaps[1], &config, &memory), RTHEAP_OK);
    is("lent", rtheap_open_in(&heaps[2], &config, lent, sizeof lent), RTHEAP_OK);
    memory.context = &two;
    is("two", rtheap_open_with(&heaps[3], &config, &memory), RTHEAP_OK);
    for (i = 0; i < 4; i++) work(&heaps[i]);
    is("as many blocks", one.blocks, two.blocks);
    for (i = 3; i >= 0; i--) is("close", rtheap_close(&heaps[i * 3 % 4]), RTHEAP_OK);
    is("blocks of one", one.blocks, 0);
    is("blocks of two", two.blocks, 0);
    is("lent again", rtheap_open_in(&heaps[0], &config, lent, sizeof lent), RTHEAP_OK);
    is("close", rtheap_close(&heaps[0]), RTHEAP_OK);
}

/* Repeats a call with its first, second, .. allocation refused until none is. */
static unsigned long until_done(allocator *own, rtheap_status (*call)(void)) {
    unsigned long n, before = own->blocks;
    for (n = 1; n < 1000; n++) {
        rtheap_status status;
        own->budget = n;
        status = call();
        if (own->budget > 0) {
            is("a call with memory", status, RTHEAP_OK);
            break;
        }
        is("a call without memory", status, RTHEAP_ERR_MEMORY);
        is("blocks lost by it", own->blocks, before);
    }
    own->budget = 0;
    return n - 1;
}

static allocator of_group;
static rtheap_group group = RTHEAP_INIT;
static rtheap_worker workers[3] = {RTHEAP_INIT, RTHEAP_INIT, RTHEAP_INIT};
static int which;

static rtheap_status open_group(void) {
    rtheap_memory memory = {allocate, release, &of_group};
    rtheap_config shared = config;
    shared.threads = 3;
    return rtheap_group_open_with(&group, &shared, &memory);
}

static rtheap_status attach(void) { return rtheap_group_attach(&group, &workers[which]); }

static rtheap_status give_back(void) { return rtheap_group_return(&group, &workers[which]); }

static void ask_each(void) {
    for (which = 0; which < 3; which++)
        is("command", rtheap_worker_ask(&workers[which], rtheap_cmd_record(1, 9), NULL, NULL, NULL),
           RTHEAP_OK);
}

static void try_group(void) {
    is("refused by open", until_done(&of_group, open_group) > 0, 1);
    for (which = 0; which < 3; which++) is("by attach", until_done(&of_group, attach) > 0, 1);
    ask_each();
    for (which = 0; which < 3; which++) (void)until_done(&of_group, give_back);
    for (which = 0; which < 3; which++) (void)until_done(&of_group, attach);
    ask_each();
    for (which = 0; which < 2; which++) is("give back", give_back(), RTHEAP_OK);
    is("in use", rtheap_group_finish(&group, NULL), RTHEAP_ERR_WORKERS_OUT);
    is("give back", give_back(), RTHEAP_OK);
    is("finish", rtheap_group_finish(&group, NULL), RTHEAP_OK);
    is("blocks left", of_group.blocks, 0);
    is("open", open_group(), RTHEAP_OK);
    which = 0;
    is("attach", attach(), RTHEAP_OK);
    is("close the group", rtheap_group_close(&group), RTHEAP_OK);
    is("close the worker", rtheap_worker_close(&workers[0]), RTHEAP_OK);
    is("blocks left", of_group.blocks, 0);
}

int main(void) {
    try_heap();
    try_nested();
    try_kinds();
    try_group();
    return wrong;
}
