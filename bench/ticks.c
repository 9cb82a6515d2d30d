/* A control loop of 1 kHz for bench/ticks: with -DRTHEAP on rtheap, with -DBOEHM on Boehm's
   collector, else on malloc and free. Each tick takes ten readings into a list of the last 20,000,
   drops the ten oldest, and makes a report of their sum in place of the one before: 11 objects. It
   is pinned to a processor, with real-time priority and locked memory if the system allows. Prints
   a line for each figure. */
#define _GNU_SOURCE
#include <sched.h>
#include <stdint.h>
#include <stdio.h>
#include <stdlib.h>
#include <sys/mman.h>
#include <time.h>

#ifdef RTHEAP
#include "rtheap.h"
#elif defined(BOEHM)
#include <gc.h>
#endif

enum { KEPT = 20000, TAKEN = 10, PERIOD = 1000000, PRIORITY = 80, BUCKETS = 14 };

static uint64_t sum; /* of the readings that are kept */

static void fail(const char *why) {
    fprintf(stderr, "ticks: %s\n", why);
    exit(1);
}

#ifdef RTHEAP

/* Registers. The report is element 0 of the table, and the readings are a list, the oldest first,
   by their fields 1. */
enum { TABLE, OLDEST, NEWEST, MADE, NUMBER };

static rtheap heap = RTHEAP_INIT;

static void must(rtheap_status status) {
    if (status) fail(rtheap_status_text(status));
}

static void add(uint64_t value) {
    must(rtheap_record(&heap, MADE, 2));
    must(rtheap_set(&heap, NUMBER, value));
    must(rtheap_put(&heap, MADE, 0, NUMBER));
    must(rtheap_put(&heap, NEWEST, 1, MADE));
    must(rtheap_mov(&heap, NEWEST, MADE));
    sum += value;
}

static void drop(void) {
    rtheap_value value;
    must(rtheap_get(&heap, NUMBER, OLDEST, 0, &value));
    must(rtheap_get(&heap, OLDEST, OLDEST, 1, NULL));
    sum -= value.number;
}

static void report(uint64_t tick) {
    must(rtheap_record(&heap, MADE, 2));
    must(rtheap_set(&heap, NUMBER, tick));
    must(rtheap_put(&heap, MADE, 0, NUMBER));
    must(rtheap_set(&heap, NUMBER, sum));
    must(rtheap_put(&heap, MADE, 1, NUMBER));
    must(rtheap_put(&heap, TABLE, 0, MADE));
}

static void begin(void) {
    /* reachable: a block each for the readings, one more and the report, and 3 for registers */
    rtheap_config config = RTHEAP_CONFIG(65000, KEPT + 100);
    config.shared = 1;
    must(rtheap_open(&heap, &config));
    must(rtheap_record(&heap, OLDEST, 2));
    must(rtheap_set(&heap, NUMBER, 0));
    must(rtheap_put(&heap, OLDEST, 0, NUMBER));
    must(rtheap_mov(&heap, NEWEST, OLDEST));
}

#else

#ifdef BOEHM
#define make(size) GC_MALLOC(size)
#define let_go(p) ((void)(p))
#else
#define make(size) calloc(1, size)
#define let_go(p) free(p)
#endif

struct reading { uint64_t value; struct reading *next; };
struct report { uint64_t tick, sum; };

static struct reading *oldest, *newest;
static struct report *volatile last;

static void *made(size_t size) {
    void *object = make(size);
    if (!object) fail("out of memory");
    return object;
}

static void add(uint64_t value) {
    struct reading *r = made(sizeof *r);
    r->value = value;
    newest->next = r;
    newest = r;
    sum += value;
}

static void drop(void) {
    struct reading *r = oldest;
    sum -= r->value;
    oldest = r->next;
    r->next = NULL; /* what a conservative collector takes for a reference keeps one reading only */
    let_go(r);
}

static void report(uint64_t tick) {
    struct report *r = made(sizeof *r);
    r->tick = tick;
    r->sum = sum;
    let_go(last);
    last = r;
}

static void begin(void) {
#ifdef BOEHM
    GC_INIT();
#endif
    oldest = newest = made(sizeof *oldest);
}

#endif

/* The next reading, below 2^16. */
static uint64_t measured(void) {
    static uint64_t state = 7;
    state = state * UINT64_C(6364136223846793005) + UINT64_C(1442695040888963407);
    return state >> 48;
}

static void work(uint64_t tick) {
    int i;
    for (i = 0; i < TAKEN; i++) {
        add(measured());
        drop();
    }
    report(tick);
}

static uint64_t time_by(clockid_t clock) {
    struct timespec t;
    clock_gettime(clock, &t);
    return (uint64_t)t.tv_sec * 1000000000u + (uint64_t)t.tv_nsec;
}

static void wait_until(uint64_t due) {
    struct timespec t = {(time_t)(due / 1000000000u), (long)(due % 1000000000u)};
    while (clock_nanosleep(CLOCK_MONOTONIC, TIMER_ABSTIME, &t, NULL)) {}
}

/* Takes a processor, priority and locked memory, and says which of them it got. */
static void settle(size_t processor) {
    struct sched_param priority = {.sched_priority = PRIORITY};
    cpu_set_t set;
    CPU_ZERO(&set);
    CPU_SET(processor, &set);
    if (sched_setaffinity(0, sizeof set, &set)) printf("processor: any\n");
    else printf("processor: %zu\n", processor);
    printf("priority: %s\n", sched_setscheduler(0, SCHED_FIFO, &priority) ? "usual" : "FIFO 80");
    printf("memory locked: %s\n", mlockall(MCL_CURRENT | MCL_FUTURE) ? "no" : "yes");
}

static int by_size(const void *a, const void *b) {
    uint64_t x = *(const uint64_t *)a, y = *(const uint64_t *)b;
    return (x > y) - (x < y);
}

static void print_figures(uint64_t *times, size_t count) {
    size_t buckets[BUCKETS] = {0}, i;
    int k;
    for (i = 0; i < count; i++) {
        for (k = 0; k < BUCKETS - 1 && times[i] >= (UINT64_C(1000) << k); k++) {}
        buckets[k]++;
    }
    qsort(times, count, sizeof *times, by_size);
    printf("work, median: %.1f us\n", (double)times[count / 2] / 1e3);
    printf("work, 99.9 per cent: %.1f us\n", (double)times[count - count / 1000 - 1] / 1e3);
    printf("work, longest: %.1f us\n", (double)times[count - 1] / 1e3);
    for (k = 0; k < BUCKETS - 1; k++) printf("below %d us: %zu\n", 1 << k, buckets[k]);
    printf("longer: %zu\n", buckets[k]);
}

struct figures { uint64_t late, latest, most_used; };

/* Makes the ticks, and keeps the time of each one's work. */
static struct figures run(uint64_t *times, size_t ticks) {
    struct figures f = {0, 0, 0};
    uint64_t due = time_by(CLOCK_MONOTONIC);
    size_t i;
    for (i = 0; i < ticks; i++) {
        uint64_t begun, used, done;
        due += PERIOD;
        wait_until(due);
        begun = time_by(CLOCK_MONOTONIC);
        used = time_by(CLOCK_THREAD_CPUTIME_ID);
        work(i);
        used = time_by(CLOCK_THREAD_CPUTIME_ID) - used;
        done = time_by(CLOCK_MONOTONIC);
        times[i] = done - begun;
        if (begun - due > f.latest) f.latest = begun - due;
        if (used > f.most_used) f.most_used = used;
        if (done - due > PERIOD) f.late++;
    }
    return f;
}

int main(int n, char **words) {
    size_t ticks = n == 3 ? (size_t)strtoul(words[1], NULL, 10) : 0, i;
    uint64_t *times;
    struct figures f;
    if (ticks < 1000) fail("usage: ticks COUNT PROCESSOR, at least 1000 ticks");
    times = calloc(ticks, sizeof *times);
    if (!times) fail("out of memory");
    begin();
    for (i = 0; i < KEPT; i++) add(measured());
    settle((size_t)strtoul(words[2], NULL, 10));
    for (i = 0; i < ticks; i++) times[i] = 1; /* so that no tick waits for a page */
    for (i = 0; i < 3 * KEPT / TAKEN; i++) work(0); /* some cycles of collection */
    f = run(times, ticks);
    printf("ticks: %zu\n", ticks);
    printf("done after their millisecond: %llu\n", (unsigned long long)f.late);
    printf("latest start: %.1f us\n", (double)f.latest / 1e3);
    printf("longest work, processor time: %.1f us\n", (double)f.most_used / 1e3);
    print_figures(times, ticks);
    printf("sum: %llu\n", (unsigned long long)sum);
    return 0;
}
