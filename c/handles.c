/* Tests what handles refuse: copies, other kinds, other calls in the same handle; that they move;
   that gauges write nothing. Prints nothing if all is well. */
#define _POSIX_C_SOURCE 200809L
#include <pthread.h>
#include <signal.h>
#include <stdio.h>
#include <stdlib.h>
#include <string.h>

#include "rtheap_shared.h"

static int wrong;

static void is(const char *what, unsigned long long found, unsigned long long wanted) {
    if (found != wanted) {
        printf("handles: %s: %llu, wanted %llu\n", what, found, wanted);
        wrong = 1;
    }
}

static void open_heap(rtheap *heap) {
    rtheap_config config = RTHEAP_CONFIG(64, 20);
    config.shared = 4;
    is("open", rtheap_open(heap, &config), RTHEAP_OK);
}

static void try_copies(void) {
    rtheap heap = RTHEAP_CLOSED, copy, moved = RTHEAP_CLOSED;
    rtheap_config config = RTHEAP_CONFIG(64, 20);
    rtheap_value value = {RTHEAP_NIL, 0, 0};
    open_heap(&heap);
    is("set", rtheap_set(&heap, 1, 7), RTHEAP_OK);
    copy = heap;
    is("command of a copy", rtheap_set(&copy, 1, 8), RTHEAP_ERR_MOVED);
    is("gauge of a copy", rtheap_asked(&copy, NULL), RTHEAP_ERR_MOVED);
    is("open a copy", rtheap_open(&copy, &config), RTHEAP_ERR_MOVED);
    is("close a copy", rtheap_close(&copy), RTHEAP_ERR_MOVED);
    is("move a copy", rtheap_move(&moved, &copy), RTHEAP_ERR_MOVED);
    is("move to a copy", rtheap_move(&copy, &heap), RTHEAP_ERR_MOVED);
    is("move to itself", rtheap_move(&heap, &heap), RTHEAP_ERR_OPEN);
    is("move", rtheap_move(&moved, &heap), RTHEAP_OK);
    is("the old one", rtheap_say(&heap, 1, &value), RTHEAP_ERR_CLOSED);
    is("the new one", rtheap_say(&moved, 1, &value), RTHEAP_OK);
    is("its number", value.number, 7);
    is("move a closed one", rtheap_move(&copy, &heap), RTHEAP_ERR_MOVED);
    copy = RTHEAP_CLOSED;
    is("move a closed one", rtheap_move(&copy, &heap), RTHEAP_ERR_CLOSED);
    is("close", rtheap_close(&moved), RTHEAP_OK);
    open_heap(&copy); /* another heap, to which a stale copy must not lead */
    is("a stale copy", rtheap_set(&moved, 1, 9), RTHEAP_ERR_CLOSED);
    is("close another", rtheap_close(&copy), RTHEAP_OK);
    is("NULL", rtheap_move(NULL, &heap), RTHEAP_ERR_NULL_HANDLE);
    is("NULL", rtheap_move(&heap, NULL), RTHEAP_ERR_NULL_HANDLE);
}

/* A handle of one kind given to the calls of another is refused, and stays as it is. */
static void try_kinds(void) {
    rtheap heap = RTHEAP_CLOSED;
    rtheap_group group = RTHEAP_GROUP_CLOSED;
    rtheap_worker worker = RTHEAP_WORKER_CLOSED;
    rtheap_config config = RTHEAP_CONFIG(64, 20);
    open_heap(&heap);
    config.threads = 2;
    is("open a group", rtheap_group_open(&group, &config), RTHEAP_OK);
    is("attach", rtheap_group_attach(&group, &worker), RTHEAP_OK);
    is("start on a heap", rtheap_worker_start((rtheap_worker *)(void *)&heap, rtheap_cmd_nil(1)),
       RTHEAP_ERR_WRONG_HANDLE);
    is("poll a heap", rtheap_worker_poll((rtheap_worker *)(void *)&heap, 1, NULL),
       RTHEAP_ERR_WRONG_HANDLE);
    is("poll a group", rtheap_worker_poll((rtheap_worker *)(void *)&group, 1, NULL),
       RTHEAP_ERR_WRONG_HANDLE);
    is("close a group as a heap", rtheap_close((rtheap *)(void *)&group), RTHEAP_ERR_WRONG_HANDLE);
    is("set on a worker", rtheap_set((rtheap *)(void *)&worker, 1, 1), RTHEAP_ERR_WRONG_HANDLE);
    is("open a worker", rtheap_open((rtheap *)(void *)&worker, &config), RTHEAP_ERR_WRONG_HANDLE);
    is("attach from a heap", rtheap_group_attach((rtheap_group *)(void *)&heap, &worker),
       RTHEAP_ERR_WRONG_HANDLE);
    is("the heap", rtheap_set(&heap, 1, 1), RTHEAP_OK);
    is("the worker", rtheap_worker_ask(&worker, rtheap_cmd_nil(1), NULL, NULL, NULL), RTHEAP_OK);
    is("close the worker", rtheap_worker_close(&worker), RTHEAP_OK);
    is("close the group", rtheap_group_close(&group), RTHEAP_OK);
    is("close the heap", rtheap_close(&heap), RTHEAP_OK);
}

/* Workers move, and go back to their own group only. */
static void try_groups(void) {
    rtheap_group one = RTHEAP_GROUP_CLOSED, two = RTHEAP_GROUP_CLOSED, moved = RTHEAP_GROUP_CLOSED;
    rtheap_worker worker = RTHEAP_WORKER_CLOSED, other = RTHEAP_WORKER_CLOSED, copy;
    rtheap_config config = RTHEAP_CONFIG(64, 20);
    is("open one", rtheap_group_open(&one, &config), RTHEAP_OK);
    is("open two", rtheap_group_open(&two, &config), RTHEAP_OK);
    is("attach", rtheap_group_attach(&one, &worker), RTHEAP_OK);
    is("move a worker", rtheap_worker_move(&other, &worker), RTHEAP_OK);
    copy = other;
    is("a copy", rtheap_worker_start(&copy, rtheap_cmd_nil(1)), RTHEAP_ERR_MOVED);
    is("return a copy", rtheap_group_return(&one, &copy), RTHEAP_ERR_MOVED);
    is("another group", rtheap_group_return(&two, &other), RTHEAP_ERR_WRONG_GROUP);
    is("move a group", rtheap_group_move(&moved, &one), RTHEAP_OK);
    is("the old group", rtheap_group_return(&one, &other), RTHEAP_ERR_CLOSED);
    is("start", rtheap_worker_start(&other, rtheap_cmd_nil(1)), RTHEAP_OK);
    is("move within a command", rtheap_worker_move(&worker, &other), RTHEAP_OK);
    is("return within a command", rtheap_group_return(&moved, &worker), RTHEAP_ERR_BUSY);
    while (rtheap_worker_poll(&worker, 8, NULL) == RTHEAP_NOT_DONE) continue;
    is("return", rtheap_group_return(&moved, &worker), RTHEAP_OK);
    is("finish", rtheap_group_finish(&moved, NULL), RTHEAP_OK);
    is("close two", rtheap_group_close(&two), RTHEAP_OK);
}

/* The first word of a handle's memory that differs from a copy, or none. */
static void try_gauges(void) {
    static rtheap heap, before;
    uint64_t units = 0, objects = 0, commands = 0;
    rtheap_statistics s;
    rtheap_config config;
    open_heap(&heap);
    is("record", rtheap_record(&heap, 1, 2), RTHEAP_OK);
    is("idle", rtheap_idle(&heap, 9), RTHEAP_OK);
    memcpy(&before, &heap, sizeof heap);
    is("units", rtheap_units_left(&heap, &units), RTHEAP_OK);
    is("objects", rtheap_objects_left(&heap, &objects), RTHEAP_OK);
    is("asked", rtheap_asked(&heap, &commands), RTHEAP_OK);
    is("statistics", rtheap_read_statistics(&heap, &s, sizeof s), RTHEAP_OK);
    is("config", rtheap_read_config(&heap, &config, sizeof config), RTHEAP_OK);
    is("gauges write", (unsigned long long)memcmp(&before, &heap, sizeof heap), 0);
    is("same units", s.units_left, units);
    is("same objects", s.objects_left, objects);
    is("same commands", s.commands, commands);
    is("units of one block, and 9", s.units, s.rate + 9);
    is("objects so far", s.objects, 1);
    is("commands left", s.commands + s.commands_left, UINT64_C(1) << 60);
    is("blocks", config.blocks, 64);
    is("shared", config.shared, 4);
    is("width", config.width, 8);
    is("close", rtheap_close(&heap), RTHEAP_OK);
}

/* ---- Two calls in one handle ---- */

static rtheap shared_heap;
static int refused, strange; /* atomic: the handler and two threads use them */

static void interrupt(int number) {
    rtheap_status status = rtheap_set(&shared_heap, 5, 1);
    (void)number;
    if (status == RTHEAP_ERR_IN_USE) __atomic_add_fetch(&refused, 1, __ATOMIC_RELAXED);
    else if (status != RTHEAP_OK) __atomic_add_fetch(&strange, 1, __ATOMIC_RELAXED);
}

static int refusals(void) { return __atomic_load_n(&refused, __ATOMIC_RELAXED); }

static void *disturb(void *main_thread) {
    const struct timespec little = {0, 20000};
    int i;
    for (i = 0; i < 3000 && refusals() < 20; i++) {
        nanosleep(&little, NULL);
        pthread_kill(*(pthread_t *)main_thread, SIGUSR1);
    }
    return NULL;
}

/* A signal handler calls in the same handle, while or between the calls that it interrupts. */
static void try_signals(void) {
    struct sigaction action;
    pthread_t self = pthread_self(), other;
    unsigned long lost = 0, i;
    memset(&action, 0, sizeof action);
    action.sa_handler = interrupt;
    sigaction(SIGUSR1, &action, NULL);
    open_heap(&shared_heap);
    if (pthread_create(&other, NULL, disturb, &self)) exit(1);
    for (i = 0; i < 3000000 && refusals() < 20; i++)
        if (rtheap_record(&shared_heap, 1, 2) != RTHEAP_OK) lost++;
    pthread_join(other, NULL);
    action.sa_handler = SIG_IGN;
    sigaction(SIGUSR1, &action, NULL);
    is("refused in a handler", refusals() > 0, 1);
    is("strange in a handler", (unsigned long long)strange, 0);
    is("lost", lost, 0);
    is("close", rtheap_close(&shared_heap), RTHEAP_OK);
}

enum { CALLS = 200000 };

static void *ask_often(void *counts) {
    unsigned long *by = counts;
    int i;
    for (i = 0; i < CALLS; i++) {
        rtheap_status status = rtheap_set(&shared_heap, 1, 1);
        by[status == RTHEAP_OK ? 0 : status == RTHEAP_ERR_IN_USE ? 1 : 2]++;
    }
    return NULL;
}

/* Two threads ask one heap: each call is done or refused, and none is lost. */
static void try_threads(void) {
    static unsigned long by[2][3];
    pthread_t threads[2];
    uint64_t asked = 0;
    int t;
    open_heap(&shared_heap);
    for (t = 0; t < 2; t++)
        if (pthread_create(&threads[t], NULL, ask_often, by[t])) exit(1);
    for (t = 0; t < 2; t++) pthread_join(threads[t], NULL);
    is("other statuses", by[0][2] + by[1][2], 0);
    is("asked", rtheap_asked(&shared_heap, &asked), RTHEAP_OK);
    is("done and counted", asked, by[0][0] + by[1][0]);
    is("close", rtheap_close(&shared_heap), RTHEAP_OK);
}

int main(void) {
    try_copies();
    try_kinds();
    try_groups();
    try_gauges();
    try_signals();
    try_threads();
    return wrong;
}
