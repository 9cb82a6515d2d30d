// The requests of bench/asked on malloc and free, or with -DBOEHM on Boehm's collector: so many of
// each kind, with 500 live records, and the same loop of 1 kHz.
#define _GNU_SOURCE
#include <stdint.h>
#include <stdio.h>
#include <stdlib.h>
#include <time.h>
#ifdef BOEHM
#include <gc.h>
#define make(size) GC_MALLOC(size)
#define let_go(p) ((void)(p))
#else
#define make(size) calloc(1, size)
#define let_go(p) free(p)
#endif

struct record { struct record *link; uint64_t value; };

static struct record *volatile kept, *volatile last, *volatile fetched;
static volatile uint64_t number;
static uint64_t *times;

static uint64_t now(void) {
    struct timespec t;
    clock_gettime(CLOCK_MONOTONIC, &t);
    return (uint64_t)t.tv_sec * 1000000000u + (uint64_t)t.tv_nsec;
}

static void renew(void) {
    struct record *made = make(sizeof *made);
    let_go(last);
    last = made;
}

static void work(int kind) {
    switch (kind) {
    case 0: renew(); break;
    case 1: fetched = kept->link; break;
    case 2: last->link = kept; break;
    case 3: { struct record *old = last->link; last->link = fetched; fetched = old; break; }
    default: number = 7; break;
    }
}

static int by_size(const void *a, const void *b) {
    uint64_t x = *(const uint64_t *)a, y = *(const uint64_t *)b;
    return (x > y) - (x < y);
}

static void tell(const char *kind, long count) {
    qsort(times, (size_t)count, sizeof *times, by_size);
    printf("%s: median %lu ns, 99.9 per cent %lu ns, longest %lu ns\n", kind,
           (unsigned long)times[count / 2], (unsigned long)times[count - count / 1000 - 1],
           (unsigned long)times[count - 1]);
}

int main(int n, char **words) {
    static const char *kinds[] = {"new", "get", "put", "swap", "set"};
    if (n != 3) return 1;
    long rounds = atol(words[1]), ticks = atol(words[2]);
    if (rounds < 1 || ticks < 1) return 1;
    times = malloc(sizeof *times * (size_t)(rounds > ticks ? rounds : ticks));
    if (!times) return 1;
    for (int i = 0; i < 500; i++) {
        struct record *r = make(sizeof *r);
        r->link = kept;
        kept = r;
    }
    last = make(sizeof *last);
    for (int kind = 0; kind < 5; kind++) {
        for (long i = 0; i < rounds; i++) {
            uint64_t start = now();
            work(kind);
            times[i] = now() - start;
        }
        tell(kinds[kind], rounds);
    }
    uint64_t start = now();
    for (long tick = 1; tick <= ticks; tick++) {
        uint64_t due = start + (uint64_t)tick * 1000000u;
        while (now() < due) {}
        if (tick % 5 == 1) renew();
        for (int i = 0; i < 20; i++) {
            number = (uint64_t)i;
            last->value = number;
        }
        times[tick - 1] = now() - due;
    }
    tell("tick", ticks);
    return 0;
}
