/* A table of tags in C, a plain array under a mutex, for bench/live_tags. Each thread writes and
   reads the places in turn, WARM times untimed and TIMES times timed. Prints what `askbench shared tags`
   prints, each time from the end of the operation before.

       live_tags THREADS WARM TIMES */
#define _GNU_SOURCE
#include <pthread.h>
#include <stdint.h>
#include <stdio.h>
#include <stdlib.h>
#include <time.h>

enum { PLACES = 100, MOST_THREADS = 16 };

struct tag { uint64_t value, quality; int is_set; };
struct thread { pthread_t started; uint64_t *writes, *reads; };

static struct tag places[PLACES];
static pthread_mutex_t lock = PTHREAD_MUTEX_INITIALIZER;
static size_t threads, warm, times;

static void fail(const char *why) {
    fprintf(stderr, "live_tags: %s\n", why);
    exit(1);
}

/* Both return what the place held before. */
static struct tag write_tag(size_t place, uint64_t value, uint64_t quality) {
    struct tag old;
    pthread_mutex_lock(&lock);
    old = places[place];
    places[place] = (struct tag){value, quality, 1};
    pthread_mutex_unlock(&lock);
    return old;
}

static struct tag read_tag(size_t place) {
    struct tag found;
    pthread_mutex_lock(&lock);
    found = places[place];
    pthread_mutex_unlock(&lock);
    return found;
}

static uint64_t now(void) {
    struct timespec t;
    clock_gettime(CLOCK_MONOTONIC, &t);
    return (uint64_t)t.tv_sec * 1000000000u + (uint64_t)t.tv_nsec;
}

static void use(size_t rounds, uint64_t *writes, uint64_t *reads) {
    uint64_t before = now();
    size_t round;
    for (round = 0; round < rounds; round++) {
        uint64_t written;
        write_tag(round % PLACES, round % 1000000, 5);
        written = now();
        writes[round] = written - before;
        if (!read_tag(round % PLACES).is_set) fail("a place is empty that was written");
        before = now();
        reads[round] = before - written;
    }
}

static void *run(void *argument) {
    struct thread *who = argument;
    use(warm, who->writes, who->reads);
    use(times, who->writes, who->reads);
    return NULL;
}

/* Room for times, whose pages are written before. */
static uint64_t *room(size_t count) {
    uint64_t *made = malloc((count + 1) * sizeof *made);
    size_t k;
    if (!made) fail("out of memory");
    for (k = 0; k < count; k++) made[k] = 1;
    return made;
}

static int by_size(const void *a, const void *b) {
    uint64_t x = *(const uint64_t *)a, y = *(const uint64_t *)b;
    return (x > y) - (x < y);
}

static void tell(const char *name, uint64_t *all, size_t count) {
    if (count == 0) return;
    qsort(all, count, sizeof *all, by_size);
    printf("%s: %zu operations, median %llu ns, 99.9 per cent %llu ns, longest %llu ns\n", name,
           count, (unsigned long long)all[count / 2],
           (unsigned long long)all[count - count / 1000 - 1], (unsigned long long)all[count - 1]);
}

int main(int n, char **words) {
    struct thread all[MOST_THREADS];
    uint64_t *writes, *reads;
    size_t t, most;
    if (n != 4) fail("usage: live_tags THREADS WARM TIMES");
    threads = strtoul(words[1], NULL, 10);
    warm = strtoul(words[2], NULL, 10);
    times = strtoul(words[3], NULL, 10);
    if (threads < 1 || threads > MOST_THREADS) fail("1 to 16 threads");
    most = warm > times ? warm : times;
    writes = room(threads * most);
    reads = room(threads * most);
    for (t = 0; t < threads; t++) {
        all[t].writes = room(most);
        all[t].reads = room(most);
        if (pthread_create(&all[t].started, NULL, run, &all[t])) fail("no thread");
    }
    for (t = 0; t < threads; t++) {
        size_t k;
        pthread_join(all[t].started, NULL);
        for (k = 0; k < times; k++) {
            writes[t * times + k] = all[t].writes[k];
            reads[t * times + k] = all[t].reads[k];
        }
    }
    tell("write", writes, threads * times);
    tell("read", reads, threads * times);
    return 0;
}
