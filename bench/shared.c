/* The churn of `jobs churned` by threads in C, for bench/shared: on malloc and free under a mutex,
   or with -DBOEHM on Boehm's collector. Prints what `askbench shared` prints, each time from the
   end of the command before, and the processor time of the timed part.

       shared LIVE THREADS WARM TIMES

   The lists of live nodes hang in a table that all threads may read and write. Of malloc's, nobody
   may read the table or a node in it without the lock, since another thread could free the node;
   the collector needs none for that, and atomic accesses will do. What a thread has made and hung
   nowhere is its own, so that neither takes a lock for it. */
#define _GNU_SOURCE
#define GC_THREADS
#ifdef BOEHM
#include <gc.h>
#endif
#include <pthread.h>
#include <stdint.h>
#include <stdio.h>
#include <stdlib.h>
#include <sys/resource.h>
#include <time.h>

enum { LISTS = 64, TURNS = 3000, STEPS = 10, MOST_THREADS = 16 };

struct node { struct node *link; uint64_t rest[2]; };
struct reading { uint64_t value, rest[2]; };
struct pair { struct reading *reading; uint64_t value; };

/* What the commands of a thread name, as the registers of a heap do. */
struct registers {
    struct reading *volatile made, *volatile read;
    struct pair *volatile pair;
    struct node *volatile list, *volatile next;
    volatile uint64_t number, value;
};

struct thread { size_t id; uint64_t *times; unsigned *wanted; };

static struct node *lists[LISTS];
static size_t live, threads, warm, times;
static pthread_barrier_t meeting; /* of all threads and main: twice before timing, once after */

static void fail(const char *why) {
    fprintf(stderr, "shared: %s\n", why);
    exit(1);
}

static void *or_fail(void *room) {
    if (!room) fail("out of memory");
    return room;
}

#ifdef BOEHM

static void *renewed(void *old, size_t size) {
    (void)old;
    return or_fail(GC_MALLOC(size));
}

static void put_list(size_t at, struct node *node) {
    __atomic_store_n(&lists[at], node, __ATOMIC_SEQ_CST);
}

static struct node *get_list(size_t at) { return __atomic_load_n(&lists[at], __ATOMIC_SEQ_CST); }

static struct node *get_link(struct node *node) {
    return __atomic_load_n(&node->link, __ATOMIC_SEQ_CST);
}

#else

static pthread_mutex_t memory = PTHREAD_MUTEX_INITIALIZER, table = PTHREAD_MUTEX_INITIALIZER;

/* Something new in the place of something old, which is freed by the same taking of the lock. */
static void *renewed(void *old, size_t size) {
    void *made;
    pthread_mutex_lock(&memory);
    made = calloc(1, size);
    free(old);
    pthread_mutex_unlock(&memory);
    return or_fail(made);
}

static void put_list(size_t at, struct node *node) {
    pthread_mutex_lock(&table);
    lists[at] = node;
    pthread_mutex_unlock(&table);
}

static struct node *get_list(size_t at) {
    struct node *found;
    pthread_mutex_lock(&table);
    found = lists[at];
    pthread_mutex_unlock(&table);
    return found;
}

static struct node *get_link(struct node *node) {
    struct node *found;
    pthread_mutex_lock(&table);
    found = node->link;
    pthread_mutex_unlock(&table);
    return found;
}

#endif

static uint64_t now(void) {
    struct timespec t;
    clock_gettime(CLOCK_MONOTONIC, &t);
    return (uint64_t)t.tv_sec * 1000000000u + (uint64_t)t.tv_nsec;
}

/* The lists of a thread, each with its part of the live nodes. */
static void build(size_t id) {
    size_t each = LISTS / threads, all = each * threads, at, k;
    for (at = id * each; at < (id + 1) * each; at++) {
        struct node *first = NULL;
        for (k = live * at / all; k < live * (at + 1) / all; k++) {
            struct node *made = renewed(NULL, sizeof *made);
            made->link = first;
            first = made;
        }
        put_list(at, first);
    }
}

/* Kinds of commands; a shared get is one of what lies in the table. */
enum kind { NEW, GET, SHARED, PUT, SET, KINDS };

static const enum kind kinds[STEPS] = {NEW, SET, PUT, NEW, PUT, PUT, GET, GET, SHARED, SHARED};

static void command(struct registers *r, size_t step, size_t turn, size_t list) {
    switch (step) {
    case 0: r->made = renewed(r->made, sizeof *r->made); break;
    case 1: r->number = turn; break;
    case 2: r->made->value = r->number; break;
    case 3: r->pair = renewed(r->pair, sizeof *r->pair); break;
    case 4: r->pair->reading = r->made; break;
    case 5: r->pair->value = r->number; break;
    case 6: r->read = r->pair->reading; break;
    case 7: r->value = r->read->value; break;
    case 8: r->list = get_list(list); break;
    default: r->next = get_link(r->list); break;
    }
}

/* Does the churn once, and writes down how long each command took. */
static void churn(struct registers *r, const unsigned *wanted, uint64_t *took) {
    uint64_t before = now();
    size_t turn, step;
    for (turn = 0; turn < TURNS; turn++)
        for (step = 0; step < STEPS; step++) {
            uint64_t read;
            command(r, step, turn, wanted[turn]);
            read = now();
            *took++ = read - before;
            before = read;
        }
}

static void *run(void *argument) {
    struct thread *who = argument;
    struct registers r = {0};
    size_t round;
    build(who->id);
    for (round = 0; round < 1 + warm; round++) churn(&r, who->wanted, who->times);
    pthread_barrier_wait(&meeting);
    pthread_barrier_wait(&meeting);
    for (round = 0; round < times; round++)
        churn(&r, who->wanted, who->times + round * TURNS * STEPS);
    pthread_barrier_wait(&meeting);
    if (r.value != TURNS - 1) fail("a value is not what was written");
    return NULL;
}

/* Which list each turn reads, and room for the times, whose pages are written before. */
static void prepare(struct thread *who, size_t id, uint64_t *word) {
    size_t each = LISTS / threads, count = (times ? times : 1) * TURNS * STEPS, k;
    who->id = id;
    who->wanted = or_fail(malloc(TURNS * sizeof *who->wanted));
    for (k = 0; k < TURNS; k++) {
        *word = *word * 16807 % 2147483647;
        who->wanted[k] = (unsigned)(id * each + *word % each);
    }
    who->times = or_fail(malloc(count * sizeof *who->times));
    for (k = 0; k < count; k++) who->times[k] = 1;
}

static int by_size(const void *a, const void *b) {
    uint64_t x = *(const uint64_t *)a, y = *(const uint64_t *)b;
    return (x > y) - (x < y);
}

/* Prints the times of all threads' commands of the kinds from one to another. */
static void tell(const char *name, const struct thread *all, uint64_t *room, enum kind from,
                 enum kind to) {
    size_t count = 0, t, k;
    for (t = 0; t < threads; t++)
        for (k = 0; k < times * TURNS * STEPS; k++)
            if (kinds[k % STEPS] >= from && kinds[k % STEPS] <= to) room[count++] = all[t].times[k];
    if (count == 0) return;
    qsort(room, count, sizeof *room, by_size);
    printf("%s: %zu commands, median %llu ns, 99.9 per cent %llu ns, longest %llu ns\n", name,
           count, (unsigned long long)room[count / 2],
           (unsigned long long)room[count - count / 1000 - 1], (unsigned long long)room[count - 1]);
}

static double seconds(struct timeval from, struct timeval to) {
    return (double)(to.tv_sec - from.tv_sec) + (double)(to.tv_usec - from.tv_usec) / 1e6;
}

/* Runs the threads, and prints the processor time of the whole process in their timed part. */
static void run_all(struct thread *all) {
    pthread_t started[MOST_THREADS];
    struct rusage before, after;
    size_t t;
    for (t = 0; t < threads; t++)
        if (pthread_create(&started[t], NULL, run, &all[t])) fail("no thread");
    pthread_barrier_wait(&meeting);
    getrusage(RUSAGE_SELF, &before);
    pthread_barrier_wait(&meeting);
    pthread_barrier_wait(&meeting);
    getrusage(RUSAGE_SELF, &after);
    for (t = 0; t < threads; t++) pthread_join(started[t], NULL);
    printf("processor: user %.3f s, system %.3f s\n", seconds(before.ru_utime, after.ru_utime),
           seconds(before.ru_stime, after.ru_stime));
}

static void need_all_live(void) {
    size_t found = 0, at;
    struct node *node;
    for (at = 0; at < LISTS; at++)
        for (node = lists[at]; node; node = node->link) found++;
    if (found != live) fail("live nodes are missing");
}

int main(int n, char **words) {
    struct thread all[MOST_THREADS];
    uint64_t word = 1001, *room;
    size_t t;
    if (n != 5) fail("usage: shared LIVE THREADS WARM TIMES");
    live = strtoul(words[1], NULL, 10);
    threads = strtoul(words[2], NULL, 10);
    warm = strtoul(words[3], NULL, 10);
    times = strtoul(words[4], NULL, 10);
    if (threads < 1 || threads > MOST_THREADS) fail("1 to 16 threads");
#ifdef BOEHM
    GC_set_all_interior_pointers(0);
    GC_INIT();
#endif
    for (t = 0; t < threads; t++) prepare(&all[t], t, &word);
    pthread_barrier_init(&meeting, NULL, (unsigned)threads + 1);
    run_all(all);
    need_all_live();
    room = or_fail(malloc((threads * times * TURNS * STEPS + 1) * sizeof *room));
    tell("new", all, room, NEW, NEW);
    tell("get", all, room, GET, SHARED);
    tell("shared", all, room, SHARED, SHARED);
    tell("put", all, room, PUT, PUT);
    tell("others", all, room, SET, SET);
    tell("all", all, room, NEW, SET);
    return 0;
}
