/* Runs a program, and pins its threads, for bench/preempted:

       preempted THREADS SHARE PROGRAM WORDS..

   The program gets real-time priority if the system allows. As soon as it has so many threads, each
   is pinned to a processor of its own. If SHARE is not 0, this takes the processor of one of them
   by a higher priority, at drawn times and for a drawn 0.1 to 5 ms each, in all about SHARE per
   cent of the time, until the program ends. What it did is printed below the output of that. */
#define _GNU_SOURCE
#include <dirent.h>
#include <sched.h>
#include <signal.h>
#include <stdint.h>
#include <stdio.h>
#include <stdlib.h>
#include <sys/mman.h>
#include <sys/prctl.h>
#include <sys/wait.h>
#include <time.h>
#include <unistd.h>

enum { PROGRAM_PRIORITY = 50, OWN_PRIORITY = 60, MOST = 64 };
enum { LEAST_TAKEN = 100000, MOST_TAKEN = 5000000, POLL = 500000 }; /* nanoseconds */

static sigset_t ended; /* the signal that the program has ended */

static void fail(const char *why) {
    fprintf(stderr, "preempted: %s\n", why);
    exit(1);
}

static uint64_t now(void) {
    struct timespec t;
    clock_gettime(CLOCK_MONOTONIC, &t);
    return (uint64_t)t.tv_sec * 1000000000u + (uint64_t)t.tv_nsec;
}

static uint64_t drawn(uint64_t least, uint64_t most) {
    static uint64_t state;
    if (state == 0) state = now();
    state = state * UINT64_C(6364136223846793005) + UINT64_C(1442695040888963407);
    return least + (state >> 33) % (most - least + 1);
}

static int take_priority(int priority) {
    struct sched_param wanted = {.sched_priority = priority};
    return sched_setscheduler(0, SCHED_FIFO, &wanted) == 0;
}

static void pin(pid_t task, size_t processor) {
    cpu_set_t set;
    CPU_ZERO(&set);
    CPU_SET(processor, &set);
    if (sched_setaffinity(task, sizeof set, &set)) fail("a thread cannot be pinned");
}

/* The processors that may be used, the last first: 0 takes most interrupts. */
static size_t processors(size_t *found) {
    cpu_set_t set;
    size_t count = 0, at;
    if (sched_getaffinity(0, sizeof set, &set)) fail("the processors are not known");
    for (at = CPU_SETSIZE; at-- > 0 && count < MOST;)
        if (CPU_ISSET(at, &set)) found[count++] = at;
    return count;
}

/* The threads of a process. */
static size_t threads_of(pid_t program, pid_t *found) {
    char path[32];
    struct dirent *entry;
    size_t count = 0;
    DIR *tasks;
    snprintf(path, sizeof path, "/proc/%d/task", (int)program);
    tasks = opendir(path);
    while (tasks && (entry = readdir(tasks)) && count < MOST)
        if (entry->d_name[0] != '.') found[count++] = (pid_t)atoi(entry->d_name);
    if (tasks) closedir(tasks);
    return count;
}

/* Sleeps so long, or until the program ends, and says whether it has ended. */
static int ends_within(uint64_t time) {
    struct timespec t = {(time_t)(time / 1000000000u), (long)(time % 1000000000u)};
    return sigtimedwait(&ended, NULL, &t) == SIGCHLD;
}

static pid_t start(char **words, int is_real_time) {
    pid_t program = fork();
    if (program < 0) fail("no process");
    if (program > 0) return program;
    prctl(PR_SET_PDEATHSIG, SIGKILL);
    if (is_real_time) take_priority(PROGRAM_PRIORITY);
    sigprocmask(SIG_UNBLOCK, &ended, NULL);
    execv(words[0], words);
    _exit(127);
}

/* Pins the threads of the program once all are there, and returns how long the first of them may
   have run before. */
static uint64_t pin_all(pid_t program, size_t threads, const size_t *processor) {
    pid_t found[MOST];
    uint64_t alone = now();
    size_t count, at;
    while ((count = threads_of(program, found)) < threads) {
        if (count <= 1) alone = now();
        if (ends_within(POLL)) fail("the program ended before it had its threads");
    }
    if (count > threads) fail("the program has more threads");
    for (at = 0; at < threads; at++) pin(found[at], processor[at]);
    return now() - alone;
}

struct taken { uint64_t times, time, longest; };

/* Takes this processor again and again, until the program ends. */
static struct taken take(uint64_t share) {
    struct taken all = {0, 0, 0};
    uint64_t mean = (LEAST_TAKEN + MOST_TAKEN) / 2 * (100 - share) / share; /* time between */
    while (!ends_within(drawn(mean / 4, 7 * mean / 4))) {
        uint64_t begun = now(), until = begun + drawn(LEAST_TAKEN, MOST_TAKEN), time;
        while (now() < until) {}
        time = now() - begun;
        all.times++;
        all.time += time;
        if (time > all.longest) all.longest = time;
    }
    return all;
}

int main(int n, char **words) {
    size_t threads = n > 3 ? strtoul(words[1], NULL, 10) : 0, processor[MOST];
    uint64_t share = n > 3 ? strtoul(words[2], NULL, 10) : 0, begun, unpinned;
    struct taken all = {0, 0, 0};
    int is_real_time, status;
    pid_t program;
    if (threads < 2 || share > 50)
        fail("usage: preempted THREADS SHARE PROGRAM WORDS.., 2 threads and 50 per cent");
    if (processors(processor) < threads) fail("fewer processors than threads");
    sigemptyset(&ended);
    sigaddset(&ended, SIGCHLD);
    sigprocmask(SIG_BLOCK, &ended, NULL);
    is_real_time = take_priority(OWN_PRIORITY);
    if (mlockall(MCL_CURRENT | MCL_FUTURE)) perror("preempted: memory is not locked");
    program = start(words + 3, is_real_time);
    unpinned = pin_all(program, threads, processor);
    begun = now();
    if (share > 0) {
        pin(0, processor[1]);
        all = take(share);
    }
    if (waitpid(program, &status, 0) != program) fail("the program is lost");
    if (!WIFEXITED(status) || WEXITSTATUS(status) != 0) fail("the program failed");
    printf("pinned: within %llu ns, %s\n", (unsigned long long)unpinned,
           is_real_time ? "FIFO 50" : "usual");
    printf("taken: %llu times, %llu ns of %llu ns, longest %llu ns\n",
           (unsigned long long)all.times, (unsigned long long)all.time,
           (unsigned long long)(now() - begun), (unsigned long long)all.longest);
    return 0;
}
