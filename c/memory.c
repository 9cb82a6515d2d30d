/* Tests memory: rtheap_open fails cleanly if an allocation fails, commands neither allocate nor
   free, and closing frees everything. Prints nothing if all is well. It is linked with
   -Wl,--wrap=malloc,--wrap=realloc,--wrap=free, so that it sees each call of the three. */
#include <stdint.h>
#include <stdio.h>
#include <stdlib.h>

#include "rtheap.h"

void *__real_malloc(size_t size);
void *__real_realloc(void *block, size_t size);
void __real_free(void *block);
void *__wrap_malloc(size_t size);
void *__wrap_realloc(void *block, size_t size);
void __wrap_free(void *block);

static unsigned long calls;  /* of the three functions */
static long blocks;          /* allocated and not yet freed */
static unsigned long budget; /* allocations until one fails; 0 for none that fails */

static int fails(void) {
    calls++;
    return budget && --budget == 0;
}

void *__wrap_malloc(size_t size) {
    void *made = fails() ? NULL : __real_malloc(size);
    if (made) blocks++;
    return made;
}

void *__wrap_realloc(void *block, size_t size) {
    void *made = fails() ? NULL : __real_realloc(block, size);
    if (made && !block) blocks++;
    return made;
}

void __wrap_free(void *block) {
    calls++;
    if (block) blocks--;
    __real_free(block);
}

static int wrong;

static void check(int holds, const char *what, unsigned long number) {
    if (!holds) {
        printf("memory: %s (%lu)\n", what, number);
        wrong = 1;
    }
}

/* Opens a heap with the first, second, third .. allocation failing until none fails. */
static void open_with_failures(rtheap *heap) {
    const rtheap_config config = {sizeof config, 8, 1, 2048, 512, 4, 40};
    unsigned long n;
    for (n = 1; n < 1000; n++) {
        rtheap_status status;
        budget = n;
        status = rtheap_open(heap, &config);
        if (budget > 0) {
            check(status == RTHEAP_OK, "open with memory", n);
            break;
        }
        check(status == RTHEAP_ERR_MEMORY, "open without memory", n);
        check(rtheap_asked(heap, NULL) == RTHEAP_ERR_CLOSED, "a heap that is not open", n);
        check(rtheap_close(heap) == RTHEAP_ERR_CLOSED, "the handle is not closed", n);
        check(blocks == 0, "memory lost by an open that failed", n);
    }
    check(n > 1 && n < 1000, "allocations that failed", n - 1);
    budget = 0;
}

/* Commands of each kind, through some cycles of collection. */
static void work(rtheap *heap) {
    uint64_t asked = 0;
    unsigned long n;
    for (n = 0; n < 3000; n++) {
        rtheap_status status = rtheap_record(heap, 1, 20);
        if (!status) status = rtheap_set(heap, 2, n);
        if (!status) status = rtheap_put(heap, 1, 19, 2);
        if (!status) status = rtheap_array(heap, 3, 9);
        if (!status) status = rtheap_put(heap, 0, n % 40, 3);
        if (!status) status = rtheap_swap(heap, 0, n % 40, 1, NULL);
        if (!status) status = rtheap_cas(heap, 0, n % 40, 2, 3, NULL);
        if (!status) status = rtheap_get(heap, 4, 0, n % 40, NULL);
        if (!status) status = rtheap_len(heap, 4, NULL);
        if (!status) status = rtheap_mov(heap, 5, 4);
        if (!status) status = rtheap_same(heap, 4, 5, NULL);
        if (!status) status = rtheap_say(heap, 5, NULL);
        if (!status) status = rtheap_nil(heap, 5);
        if (!status) status = rtheap_idle(heap, 10);
        if (!status) status = rtheap_peek(heap, 0, n % 40, NULL);
        check(status == RTHEAP_OK, "a command failed", n);
        check(rtheap_asked(heap, &asked) == RTHEAP_OK && asked == 14 * (n + 1), "commands", n);
    }
}

int main(void) {
    rtheap heap = RTHEAP_CLOSED;
    unsigned long before;
    open_with_failures(&heap);
    before = calls;
    work(&heap);
    check(calls == before, "a command allocated or freed", calls - before);
    check(rtheap_close(&heap) == RTHEAP_OK, "close", 0);
    check(blocks == 0, "memory not freed", (unsigned long)blocks);
    return wrong;
}
