/* Tests in which order threads see each other's commands. One puts a number and posts a semaphore;
   another waits for it, and has to get that number. Then stamps pass by a pipe. At last the workers
   are given back, and the heap is closed with them.

   usage: order [ROUNDS]   of each part, 2,000 if that is not given */
#define _POSIX_C_SOURCE 200809L
#include <inttypes.h>
#include <pthread.h>
#include <sched.h>
#include <semaphore.h>
#include <stdio.h>
#include <stdlib.h>
#include <unistd.h>
#include "rtheap_shared.h"

enum { TABLE = 0, NUMBER = 1 }; /* registers */

static uint64_t rounds = 2000;
static sem_t put_one, got_one;
static int channel[2];

static void give_way(void *context) {
    (void)context;
    sched_yield();
}

static rtheap_status open_group(rtheap_group *group, uint32_t width, uint32_t threads,
                                uint32_t blocks, uint32_t live, uint32_t object, uint32_t shared) {
    const rtheap_config config = {sizeof config, width, threads, blocks, live, object, shared};
    return rtheap_group_open(group, &config);
}

static void fail(const char *what) {
    fprintf(stderr, "order: %s\n", what);
    exit(1);
}

static void must(rtheap_status status) {
    if (status != RTHEAP_OK) fail(rtheap_status_text(status));
}

static void expect(const char *what, rtheap_status status, rtheap_status wanted) {
    if (status == wanted) return;
    fprintf(stderr, "order: %s: %s\n", what, rtheap_status_text(status));
    exit(1);
}

static uint64_t get(rtheap_worker *worker, uint64_t place) {
    rtheap_reply reply = {0, 0, 0};
    must(rtheap_worker_ask(worker, rtheap_cmd_get(NUMBER, TABLE, place), give_way, NULL, &reply));
    return reply.value;
}

static void put(rtheap_worker *worker, uint64_t place, uint64_t number) {
    must(rtheap_worker_ask(worker, rtheap_cmd_set(NUMBER, number), give_way, NULL, NULL));
    must(rtheap_worker_ask(worker, rtheap_cmd_put(TABLE, place, NUMBER), give_way, NULL, NULL));
}

static void wait_for(sem_t *semaphore) {
    while (sem_wait(semaphore)) continue;
}

static void *writes(void *handle) {
    rtheap_worker *worker = handle;
    uint64_t round, stamp;
    for (round = 1; round <= rounds; round++) {
        put(worker, 0, round);
        sem_post(&put_one);
        wait_for(&got_one);
    }
    for (round = 1; round <= rounds; round++) {
        put(worker, 1 + round % 3, round);
        must(rtheap_worker_stamp(worker, &stamp));
        if (write(channel[1], &stamp, sizeof stamp) != sizeof stamp) fail("a pipe");
    }
    return NULL;
}

static void *reads(void *handle) {
    rtheap_worker *worker = handle;
    uint64_t round, stamp;
    for (round = 1; round <= rounds; round++) {
        wait_for(&put_one);
        if (get(worker, 0) != round) fail("a number that was put is not seen");
        sem_post(&got_one);
    }
    for (round = 1; round <= rounds; round++) {
        if (read(channel[0], &stamp, sizeof stamp) != sizeof stamp) fail("a pipe");
        must(rtheap_worker_follow(worker, stamp));
        if (get(worker, 1 + round % 3) < round) fail("a number before a stamp is not seen");
    }
    return NULL;
}

/* What the calls for stamps and for closing refuse. */
static void refuse(rtheap_group *group, rtheap_worker *worker) {
    rtheap_worker none = RTHEAP_WORKER_CLOSED;
    uint64_t number = 99;
    expect("no worker", rtheap_worker_stamp(&none, &number), RTHEAP_ERR_CLOSED);
    expect("no worker", rtheap_worker_follow(&none, 0), RTHEAP_ERR_CLOSED);
    expect("no worker", rtheap_group_return(group, &none), RTHEAP_ERR_CLOSED);
    expect("no worker", rtheap_group_finish(group, &number), RTHEAP_ERR_NO_WORKER);
    must(rtheap_worker_start(worker, rtheap_cmd_nil(NUMBER)));
    expect("busy", rtheap_worker_stamp(worker, &number), RTHEAP_ERR_BUSY);
    expect("busy", rtheap_worker_follow(worker, 0), RTHEAP_ERR_BUSY);
    expect("busy", rtheap_group_return(group, worker), RTHEAP_ERR_BUSY);
    while (rtheap_worker_poll(worker, 1, NULL) == RTHEAP_NOT_DONE) continue;
    expect("a later stamp", rtheap_worker_follow(worker, UINT64_MAX), RTHEAP_ERR_NOT_SEEN);
    if (number != 99) fail("a refused call wrote a number");
    must(rtheap_worker_stamp(worker, NULL));
    expect("NULL", rtheap_worker_stamp(NULL, &number), RTHEAP_ERR_NULL_HANDLE);
    expect("NULL", rtheap_group_return(group, NULL), RTHEAP_ERR_NULL_HANDLE);
    expect("NULL", rtheap_group_finish(NULL, NULL), RTHEAP_ERR_NULL_HANDLE);
}

/* A heap is closed with one worker; the other's handle was closed. */
static void lose_one(void) {
    rtheap_group group = RTHEAP_GROUP_CLOSED;
    rtheap_worker first = RTHEAP_WORKER_CLOSED, second = RTHEAP_WORKER_CLOSED;
    uint64_t asked = 0;
    must(open_group(&group, 8, 2, 64, 20, 1, 4));
    must(rtheap_group_attach(&group, &first));
    must(rtheap_group_attach(&group, &second));
    put(&first, 0, 5);
    must(rtheap_worker_close(&first));
    if (get(&second, 0) != 5) fail("what a closed worker put is not seen");
    must(rtheap_group_return(&group, &second));
    must(rtheap_group_attach(&group, &second));
    if (rtheap_worker_asked(&second, &asked) != RTHEAP_OK || asked != 1)
        fail("a worker that was attached again");
    must(rtheap_group_return(&group, &second));
    must(rtheap_group_finish(&group, NULL));
}

int main(int n, char **words) {
    rtheap_group group = RTHEAP_GROUP_CLOSED;
    rtheap_worker writer = RTHEAP_WORKER_CLOSED, reader = RTHEAP_WORKER_CLOSED;
    pthread_t threads[2];
    uint64_t cycles = 0;
    if (n == 2) rounds = strtoul(words[1], NULL, 10);
    if (sem_init(&put_one, 0, 0) || sem_init(&got_one, 0, 0) || pipe(channel)) fail("no semaphore");
    must(open_group(&group, 8, 2, 512, 128, 1, 4));
    must(rtheap_group_attach(&group, &writer));
    must(rtheap_group_attach(&group, &reader));
    if (pthread_create(&threads[0], NULL, writes, &writer)) fail("no thread");
    if (pthread_create(&threads[1], NULL, reads, &reader)) fail("no thread");
    pthread_join(threads[0], NULL);
    pthread_join(threads[1], NULL);
    refuse(&group, &reader);
    must(rtheap_group_return(&group, &writer));
    expect("a handle is open", rtheap_group_finish(&group, &cycles), RTHEAP_ERR_WORKERS_OUT);
    must(rtheap_group_return(&group, &reader));
    must(rtheap_group_finish(&group, &cycles));
    expect("closed", rtheap_group_finish(&group, &cycles), RTHEAP_ERR_CLOSED);
    if (cycles < 1) fail("no cycle was started");
    lose_one();
    printf("order: %" PRIu64 " cycles\n", cycles);
    return 0;
}
