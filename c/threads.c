/* Tests a heap that threads share. Each thread makes records and publishes them in the shared
   array, reads what the others published, and adds to a counter there by compare-and-swap. Then it
   tests which calls are refused. It prints how many commands were executed.

   usage: threads [ROUNDS]   of each thread, 5,000 if that is not given */
#define _POSIX_C_SOURCE 200809L
#include <inttypes.h>
#include <pthread.h>
#include <sched.h>
#include <stdio.h>
#include <stdlib.h>
#include "rtheap_shared.h"

enum { THREADS = 4, PLACES = 16, COUNTER = 0 };
enum { TABLE = 0, RECORD = 1, NUMBER = 2, OLD = 3, NEXT = 4, OTHER = 5 }; /* registers */

static uint64_t rounds = 5000;

static void give_way(void *context) {
    (void)context;
    sched_yield();
}

static rtheap_status open_group(rtheap_group *group, uint32_t width, uint32_t threads,
                                uint32_t blocks, uint32_t live, uint32_t object, uint32_t shared) {
    const rtheap_config config = {sizeof config, width, threads, blocks, live, object, shared};
    return rtheap_group_open(group, &config);
}

static void must(rtheap_status status) {
    if (status == RTHEAP_OK) return;
    fprintf(stderr, "threads: %s\n", rtheap_status_text(status));
    exit(1);
}

static void expect(const char *what, rtheap_status status, rtheap_status wanted) {
    if (status == wanted) return;
    fprintf(stderr, "threads: %s: %s\n", what, rtheap_status_text(status));
    exit(1);
}

static uint32_t number_of(const rtheap_worker *worker) {
    uint32_t thread = UINT32_MAX;
    must(rtheap_worker_thread(worker, &thread));
    return thread;
}

static rtheap_reply ask(rtheap_worker *worker, rtheap_command command) {
    rtheap_reply reply;
    must(rtheap_worker_ask(worker, command, give_way, NULL, &reply));
    return reply;
}

/* Adds 1 to the counter. */
static void count(rtheap_worker *worker) {
    rtheap_reply reply;
    do {
        reply = ask(worker, rtheap_cmd_get(OLD, TABLE, COUNTER));
        ask(worker, rtheap_cmd_set(NEXT, reply.value + 1));
        reply = ask(worker, rtheap_cmd_cas(TABLE, COUNTER, OLD, NEXT));
    } while (reply.kind != RTHEAP_REPLY_YES);
}

static void *work(void *handle) {
    rtheap_worker *worker = handle;
    uint32_t thread = number_of(worker);
    uint64_t round;
    for (round = 0; round < rounds; round++) {
        uint64_t place = 1 + (round * 7 + thread) % (PLACES - 1);
        rtheap_reply reply;
        ask(worker, rtheap_cmd_record(RECORD, 2));
        ask(worker, rtheap_cmd_set(NUMBER, round * THREADS + thread));
        ask(worker, rtheap_cmd_put(RECORD, 0, NUMBER));
        ask(worker, rtheap_cmd_put(RECORD, 1, NUMBER));
        ask(worker, rtheap_cmd_put(TABLE, place, RECORD));
        reply = ask(worker, rtheap_cmd_get(OTHER, TABLE, 1 + round % (PLACES - 1)));
        if (reply.kind == RTHEAP_REPLY_REF) {
            rtheap_reply first = ask(worker, rtheap_cmd_get(OLD, OTHER, 0));
            rtheap_reply second = ask(worker, rtheap_cmd_get(NEXT, OTHER, 1));
            if (first.value != second.value) {
                fprintf(stderr, "threads: a record that is half written\n");
                exit(1);
            }
        }
        count(worker);
    }
    return NULL;
}

/* Which calls are refused while the workers are attached, and that nothing changes then. */
static void attach_two(rtheap_worker *first, rtheap_worker *second) {
    rtheap_group group = RTHEAP_GROUP_CLOSED;
    expect("no group", rtheap_group_attach(&group, first), RTHEAP_ERR_CLOSED);
    expect("width 3", open_group(&group, 3, 2, 64, 20, 1, 4), RTHEAP_ERR_WIDTH);
    expect("17 threads", open_group(&group, 8, 17, 512, 128, 1, 4), RTHEAP_ERR_BOUNDS);
    expect("no thread", open_group(&group, 8, 0, 512, 128, 1, 4), RTHEAP_ERR_BOUNDS);
    expect("no live block", open_group(&group, 8, 2, 64, 3, 1, 4), RTHEAP_ERR_LIVE);
    expect("no rate", open_group(&group, 8, 2, 20, 20, 1, 4), RTHEAP_ERR_RATE);
    must(open_group(&group, 8, 2, 64, 20, 1, 4));
    expect("open twice", open_group(&group, 8, 2, 64, 20, 1, 4), RTHEAP_ERR_OPEN);
    expect("no worker", rtheap_worker_start(first, rtheap_cmd_nil(1)), RTHEAP_ERR_CLOSED);
    must(rtheap_group_attach(&group, first));
    expect("attached", rtheap_group_attach(&group, first), RTHEAP_ERR_OPEN);
    must(rtheap_group_attach(&group, second));
    if (number_of(first) != 0 || number_of(second) != 1) exit(1);
    must(rtheap_group_close(&group));
    expect("no group", rtheap_group_close(&group), RTHEAP_ERR_CLOSED);
}

/* Which calls on a worker are refused, and that nothing changes then. */
static void refuse(void) {
    rtheap_worker first = RTHEAP_WORKER_CLOSED, second = RTHEAP_WORKER_CLOSED;
    rtheap_reply reply = {99, 99, 99};
    const rtheap_command none = {13, 0, 0, 0, 0};
    uint64_t left = 99;
    attach_two(&first, &second);
    expect("no command", rtheap_worker_poll(&first, 9, &reply), RTHEAP_ERR_NO_COMMAND);
    expect("register 16", rtheap_worker_start(&first, rtheap_cmd_nil(16)), RTHEAP_ERR_BOUNDS);
    expect("command 13", rtheap_worker_start(&first, none), RTHEAP_ERR_NO_SUCH_COMMAND);
    must(rtheap_worker_start(&first, rtheap_cmd_record(1, 2)));
    expect("busy", rtheap_worker_start(&first, rtheap_cmd_nil(1)), RTHEAP_ERR_BUSY);
    expect("not closed", rtheap_worker_close(&first), RTHEAP_ERR_BUSY);
    expect("no gauge", rtheap_worker_units_left(&first, &left), RTHEAP_ERR_BUSY);
    if (left != 99 || number_of(&first) != 0) exit(1);
    expect("no step", rtheap_worker_poll(&first, 0, &reply), RTHEAP_NOT_DONE);
    expect("one step", rtheap_worker_poll(&first, 1, &reply), RTHEAP_NOT_DONE);
    if (reply.kind != 99) exit(1);
    while (rtheap_worker_poll(&first, 1, &reply) == RTHEAP_NOT_DONE) continue;
    if (reply.kind != RTHEAP_REPLY_NEW) exit(1);
    expect("nil", rtheap_worker_ask(&second, rtheap_cmd_get(1, 2, 0), NULL, NULL, NULL),
           RTHEAP_ERR_NIL);
    must(rtheap_worker_close(&second));
    expect("closed", rtheap_worker_close(&second), RTHEAP_ERR_CLOSED);
    must(rtheap_worker_ask(&first, rtheap_cmd_set(1, 5), NULL, NULL, NULL));
    must(rtheap_worker_close(&first));
    expect("NULL", rtheap_worker_start(NULL, rtheap_cmd_nil(1)), RTHEAP_ERR_NULL_HANDLE);
}

int main(int n, char **words) {
    rtheap_group group = RTHEAP_GROUP_CLOSED;
    rtheap_worker workers[THREADS] = {RTHEAP_INIT}, none = RTHEAP_WORKER_CLOSED;
    pthread_t threads[THREADS];
    rtheap_reply reply;
    uint64_t asked = 0;
    int t;
    if (n == 2) rounds = strtoul(words[1], NULL, 10);
    must(open_group(&group, 8, THREADS, 512, 128, 1, PLACES));
    for (t = 0; t < THREADS; t++) must(rtheap_group_attach(&group, &workers[t]));
    expect("no worker is left", rtheap_group_attach(&group, &none), RTHEAP_ERR_NO_WORKER);
    must(rtheap_group_close(&group));
    ask(&workers[0], rtheap_cmd_set(NEXT, 0));
    ask(&workers[0], rtheap_cmd_put(TABLE, COUNTER, NEXT));
    for (t = 0; t < THREADS; t++)
        if (pthread_create(&threads[t], NULL, work, &workers[t])) exit(1);
    for (t = 0; t < THREADS; t++) pthread_join(threads[t], NULL);
    reply = ask(&workers[0], rtheap_cmd_get(OLD, TABLE, COUNTER));
    if (reply.value != THREADS * rounds) {
        fprintf(stderr, "threads: the counter is %" PRIu64 "\n", reply.value);
        return 1;
    }
    for (t = 0; t < THREADS; t++) {
        uint64_t own = 0;
        must(rtheap_worker_asked(&workers[t], &own));
        asked += own;
        must(rtheap_worker_close(&workers[t]));
    }
    refuse();
    printf("threads: %" PRIu64 " commands\n", asked);
    return 0;
}
