/* Four threads share a heap: one makes readings, one scales them, one looks for alarms, and one
   keeps the last of them. A record passes from thread to thread through an element of the shared
   array, which each thread empties and fills by itself, without a lock. */
#define _POSIX_C_SOURCE 200809L
#include <inttypes.h>
#include <pthread.h>
#include <sched.h>
#include <stdio.h>
#include <stdlib.h>
#include <rtheap_shared.h>

enum { READINGS = 500, STAGES = 4, KEPT = 40, LIMIT = 900 };

/* Registers. Elements 0 to 2 of the table are the ways between the threads, and those from 3 on the
   last readings. */
enum { TABLE = 0, RECORD = 1, NUMBER = 2, NONE = 3 };

static rtheap_worker workers[STAGES]; /* closed, since all bytes are zero */
static uint64_t alarms, sum;          /* each is of one thread until it ends */

static void let_others_run(void *context) {
    (void)context;
    sched_yield();
}

/* Carries out a command that neither may be refused nor fail. */
static rtheap_reply ask(size_t stage, rtheap_command command) {
    rtheap_reply reply;
    rtheap_status status =
        rtheap_worker_ask(&workers[stage], command, let_others_run, NULL, &reply);
    if (status != RTHEAP_OK) {
        fprintf(stderr, "line: stage %zu: %s\n", stage, rtheap_status_text(status));
        exit(1);
    }
    return reply;
}

/* Waits for the element after a stage to be empty, and puts the record there. */
static void pass_on(size_t stage) {
    while (ask(stage, rtheap_cmd_cas(TABLE, stage, NONE, RECORD)).kind != RTHEAP_REPLY_YES)
        sched_yield();
}

/* Waits for the element before a stage to be filled, and takes the record from there. */
static void take(size_t stage) {
    do {
        ask(stage, rtheap_cmd_nil(RECORD));
    } while (ask(stage, rtheap_cmd_swap(TABLE, stage - 1, RECORD)).kind != RTHEAP_REPLY_REF &&
             sched_yield() == 0);
}

static uint64_t field(size_t stage, uint64_t i) {
    return ask(stage, rtheap_cmd_get(NUMBER, RECORD, i)).value;
}

static void set_field(size_t stage, uint64_t i, uint64_t number) {
    ask(stage, rtheap_cmd_set(NUMBER, number));
    ask(stage, rtheap_cmd_put(RECORD, i, NUMBER));
}

/* One reading in a stage. */
static void step(size_t stage, uint64_t n) {
    if (stage == 0) {
        ask(stage, rtheap_cmd_record(RECORD, 2));
        set_field(stage, 0, n);
        pass_on(stage);
        return;
    }
    take(stage);
    if (stage == 1) set_field(stage, 1, 2 * field(stage, 0));
    else if (stage == 2) alarms += field(stage, 1) > LIMIT;
    else sum += field(stage, 1);
    if (stage < 3) pass_on(stage);
    else ask(stage, rtheap_cmd_put(TABLE, 3 + n % KEPT, RECORD));
}

static void *work(void *stage) {
    uint64_t n;
    for (n = 0; n < READINGS; n++) step(*(size_t *)stage, n);
    return NULL;
}

int main(void) {
    rtheap_group group = RTHEAP_GROUP_CLOSED;
    rtheap_config config = RTHEAP_CONFIG(512, 128);
    pthread_t threads[STAGES];
    size_t stages[STAGES] = {0, 1, 2, 3}, i;
    config.threads = STAGES;
    config.shared = 3 + KEPT;
    if (rtheap_group_open(&group, &config)) return 1;
    for (i = 0; i < STAGES; i++)
        if (rtheap_group_attach(&group, &workers[i])) return 1;
    for (i = 0; i < STAGES; i++)
        if (pthread_create(&threads[i], NULL, work, &stages[i])) return 1;
    for (i = 0; i < STAGES; i++) pthread_join(threads[i], NULL);
    for (i = 0; i < STAGES; i++)
        if (rtheap_group_return(&group, &workers[i])) return 1;
    printf("readings %d alarms %" PRIu64 " sum %" PRIu64 "\n", READINGS, alarms, sum);
    return rtheap_group_finish(&group, NULL) == RTHEAP_OK ? 0 : 1;
}
