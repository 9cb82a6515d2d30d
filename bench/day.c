/* Runs a program as a control loop of 1 kHz, for bench/day:

       day TICKS PROCESSOR COUNTS PROGRAM WORDS..

   Each millisecond it writes one reading to the program, a line `sensor value`, and waits for one
   line of answer. Both are pinned to the processor, with real-time priority if the system allows.
   The first word of an answer says what the program did beside it: `kept`, `renewed` or `saved`.
   What the program writes after the last reading is printed. The times from a reading to its answer
   go to the file COUNTS: for each microsecond, how many answers took as long. */
#define _GNU_SOURCE
#include <inttypes.h>
#include <sched.h>
#include <stdint.h>
#include <stdio.h>
#include <stdlib.h>
#include <string.h>
#include <sys/mman.h>
#include <sys/wait.h>
#include <time.h>
#include <unistd.h>

enum { PERIOD = 1000000, PRIORITY = 70, MOST = 20000, KINDS = 3 };

static const char *const kinds[KINDS] = {"kept", "renewed", "saved"};
static uint64_t counts[KINDS][MOST + 1]; /* by microseconds; the last also has all longer ones */
static uint64_t longest[KINDS];

static void fail(const char *why) {
    fprintf(stderr, "day: %s\n", why);
    exit(1);
}

static uint64_t now(void) {
    struct timespec t;
    clock_gettime(CLOCK_MONOTONIC, &t);
    return (uint64_t)t.tv_sec * 1000000000u + (uint64_t)t.tv_nsec;
}

static void wait_until(uint64_t due) {
    struct timespec t = {(time_t)(due / 1000000000u), (long)(due % 1000000000u)};
    while (clock_nanosleep(CLOCK_MONOTONIC, TIMER_ABSTIME, &t, NULL)) {}
}

static int take_priority(int priority) {
    struct sched_param wanted = {.sched_priority = priority};
    return sched_setscheduler(0, SCHED_FIFO, &wanted) == 0;
}

static void pin(size_t processor) {
    cpu_set_t set;
    CPU_ZERO(&set);
    CPU_SET(processor, &set);
    if (sched_setaffinity(0, sizeof set, &set)) fail("the processor cannot be taken");
}

/* A plant of eight sensors: each value moves by at most 4 a tick, between 0 and 1,000. */
static void next_reading(unsigned *sensor, unsigned *value) {
    static uint64_t state = 7, tick;
    static unsigned values[8] = {500, 500, 500, 500, 500, 500, 500, 500};
    unsigned moved;
    state = state * UINT64_C(6364136223846793005) + UINT64_C(1442695040888963407);
    *sensor = (unsigned)(tick++ % 8);
    moved = values[*sensor] + (unsigned)(state >> 33) % 9;
    values[*sensor] = moved < 4 ? 0 : moved > 1004 ? 1000 : moved - 4;
    *value = values[*sensor];
}

/* The program's ends of two pipes. */
static pid_t start(char **words, FILE **to, FILE **from) {
    int in[2], out[2];
    pid_t child;
    if (pipe(in) || pipe(out)) fail("no pipe");
    child = fork();
    if (child < 0) fail("no process");
    if (child == 0) {
        dup2(in[0], 0);
        dup2(out[1], 1);
        close(in[0]), close(in[1]), close(out[0]), close(out[1]);
        execv(words[0], words);
        fail("the program does not run");
    }
    close(in[0]), close(out[1]);
    *to = fdopen(in[1], "w");
    *from = fdopen(out[0], "r");
    if (!*to || !*from) fail("no memory");
    return child;
}

static size_t kind_of(const char *answer) {
    size_t kind;
    for (kind = 0; kind < KINDS; kind++)
        if (!strncmp(answer, kinds[kind], strlen(kinds[kind]))) return kind;
    fail("an answer is of no kind");
    return 0;
}

static void count(size_t kind, uint64_t time) {
    uint64_t at = time / 1000;
    counts[kind][at < MOST ? at : MOST]++;
    if (longest[kind] < time) longest[kind] = time;
}

/* The microseconds within which all but one in `of` of all answers came. */
static uint64_t within(uint64_t ticks, uint64_t of) {
    uint64_t left = ticks / of, at = MOST + 1;
    size_t kind;
    while (at-- > 0) {
        uint64_t here = 0;
        for (kind = 0; kind < KINDS; kind++) here += counts[kind][at];
        if (here > left) return at + 1;
        left -= here;
    }
    return 0;
}

static void keep_counts(const char *path) {
    FILE *file = fopen(path, "w");
    size_t kind, at;
    if (!file) fail("the counts cannot be kept");
    for (at = 0; at <= MOST; at++)
        for (kind = 0; kind < KINDS; kind++)
            if (counts[kind][at])
                fprintf(file, "%zu %s %" PRIu64 "\n", at, kinds[kind], counts[kind][at]);
    if (fclose(file)) fail("the counts cannot be kept");
}

int main(int argc, char **argv) {
    uint64_t ticks, tick, due, late = 0, latest = 0, latest_start = 0;
    char *line = NULL;
    size_t room = 0, kind;
    FILE *to, *from;
    pid_t program;
    int status;
    if (argc < 5) fail("usage: day TICKS PROCESSOR COUNTS PROGRAM WORDS..");
    ticks = strtoull(argv[1], NULL, 10);
    pin(strtoull(argv[2], NULL, 10));
    printf("priority: %s\n", take_priority(PRIORITY) ? "FIFO 70" : "usual");
    program = start(argv + 4, &to, &from);
    mlockall(MCL_CURRENT | MCL_FUTURE);
    due = now();
    for (tick = 0; tick < ticks; tick++) {
        unsigned sensor, value;
        uint64_t begun, done;
        next_reading(&sensor, &value);
        due += PERIOD;
        wait_until(due);
        begun = now();
        fprintf(to, "%u %u\n", sensor, value);
        if (fflush(to) || getline(&line, &room, from) < 0) fail("the program ended");
        done = now();
        count(kind_of(line), done - begun);
        if (begun - due > latest_start) latest_start = begun - due;
        if (done - due > latest) latest = done - due;
        if (done - due > PERIOD) late++;
    }
    fclose(to);
    printf("ticks: %" PRIu64 "\n", ticks);
    printf("done after their millisecond: %" PRIu64 "\n", late);
    printf("latest start: %.1f us\n", (double)latest_start / 1e3);
    printf("latest answer: %.1f us\n", (double)latest / 1e3);
    printf("answer, median: %" PRIu64 " us\n", within(ticks, 2));
    printf("answer, 99.9 per cent: %" PRIu64 " us\n", within(ticks, 1000));
    printf("answer, 99.999 per cent: %" PRIu64 " us\n", within(ticks, 100000));
    for (kind = 0; kind < KINDS; kind++)
        printf("longest, %s: %.1f us\n", kinds[kind], (double)longest[kind] / 1e3);
    keep_counts(argv[3]);
    while (getline(&line, &room, from) >= 0) fputs(line, stdout);
    if (waitpid(program, &status, 0) < 0 || !WIFEXITED(status) || WEXITSTATUS(status))
        fail("the program failed");
    return 0;
}
