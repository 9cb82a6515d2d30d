/* Times commands of a heap of 4,096 blocks with 500 live records, beside malloc with free, or with
   -DBOEHM one allocation of Boehm's collector. Of each it prints the mean of `count` calls in a
   row, and the median, the 99.9th percentile and the longest of `count` calls that are timed one by
   one; the latter include two readings of the clock, which the first line shows alone. */
#define _POSIX_C_SOURCE 200809L
#include <stdint.h>
#include <stdio.h>
#include <stdlib.h>
#include <time.h>

#ifdef BOEHM
#include <gc.h>
#else
#include "rtheap.h"
#endif

enum { LIVE = 500 };

struct record { struct record *link; uint64_t value; };

static struct record *volatile kept, *volatile last;

static uint64_t now(void) {
    struct timespec t;
    clock_gettime(CLOCK_MONOTONIC, &t);
    return (uint64_t)t.tv_sec * 1000000000u + (uint64_t)t.tv_nsec;
}

static void nothing(void) {}

#ifdef BOEHM

static void boehm_new(void) {
    last = GC_MALLOC(sizeof *last);
    if (!last) exit(1);
}

#else

static rtheap heap = RTHEAP_INIT;

/* Ends the program if a command was not done. */
static void must(rtheap_status status) {
    if (status == RTHEAP_OK) return;
    fprintf(stderr, "bench: %s\n", rtheap_status_text(status));
    exit(1);
}

/* Register 1 has the newest record, and 2 the first of a list through fields 0. */
static void heap_new(void) { must(rtheap_record(&heap, 1, 2)); }

static void heap_get(void) { must(rtheap_get(&heap, 3, 2, 0, NULL)); }

static void heap_put(void) { must(rtheap_put(&heap, 1, 1, 2)); }

static void heap_set(void) { must(rtheap_set(&heap, 4, 7)); }

static void open_heap(void) {
    rtheap_config config = RTHEAP_CONFIG(4096, 1024);
    int i;
    config.object = 32;
    config.shared = 40;
    must(rtheap_open(&heap, &config));
    for (i = 0; i < LIVE; i++) {
        heap_new();
        must(rtheap_put(&heap, 1, 0, 2));
        must(rtheap_mov(&heap, 2, 1));
    }
}

static void malloc_new(void) {
    struct record *made = calloc(1, sizeof *made);
    if (!made) exit(1);
    free(last);
    last = made;
}

#endif

static void keep_records(void) {
    int i;
    for (i = 0; i < LIVE; i++) {
#ifdef BOEHM
        struct record *r = GC_MALLOC(sizeof *r);
#else
        struct record *r = calloc(1, sizeof *r);
#endif
        if (!r) exit(1);
        r->link = kept;
        kept = r;
    }
}

static int by_size(const void *a, const void *b) {
    uint64_t x = *(const uint64_t *)a, y = *(const uint64_t *)b;
    return (x > y) - (x < y);
}

static void measure(const char *kind, void (*work)(void), size_t count) {
    uint64_t *times = malloc(count * sizeof *times), start;
    size_t i;
    if (!times) exit(1);
    for (i = 0; i < count; i++) {
        start = now();
        work();
        times[i] = now() - start;
    }
    qsort(times, count, sizeof *times, by_size);
    start = now();
    for (i = 0; i < count; i++) work();
    printf("%-12s in a row %.1f ns; one by one median %llu, 99.9 per cent %llu, longest %llu ns\n",
           kind, (double)(now() - start) / (double)count, (unsigned long long)times[count / 2],
           (unsigned long long)times[count - count / 1000 - 1],
           (unsigned long long)times[count - 1]);
    free(times);
}

int main(int n, char **words) {
    size_t count = n == 2 ? (size_t)strtoul(words[1], NULL, 10) : 0;
    if (count < 1000) {
        fprintf(stderr, "usage: bench COUNT, at least 1000\n");
        return 2;
    }
#ifdef BOEHM
    GC_INIT();
    keep_records();
    measure("the clock", nothing, count);
    measure("GC_MALLOC", boehm_new, count);
    return 0;
#else
    open_heap();
    keep_records();
    measure("the clock", nothing, count);
    measure("rtheap new", heap_new, count);
    measure("rtheap get", heap_get, count);
    measure("rtheap put", heap_put, count);
    measure("rtheap set", heap_set, count);
    measure("calloc, free", malloc_new, count);
    return rtheap_close(&heap) == RTHEAP_OK ? 0 : 1;
#endif
}
