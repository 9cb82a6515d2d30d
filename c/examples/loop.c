/* A loop of 1 kHz with a ring of readings on a heap in static memory: no allocator is called. Each
   tick stores a reading. A heap that is full loses the oldest readings, and the loop goes on.

   usage: loop TICKS RING   the ring keeps RING readings. With up to 200, as the heap was planned
                            for, it is never full; with more it may be. */
#define _POSIX_C_SOURCE 200809L
#include <inttypes.h>
#include <stdio.h>
#include <stdlib.h>
#include <time.h>
#include <rtheap.h>
#include <rtheap_numbers.h>

enum { MOST = 1000, PERIOD = 1000000 };
enum { RING = 0, RECORD = 1, NUMBER = 2, NONE = 3 }; /* registers; NONE stays nil */

/* 3 blocks of registers, 144 of the ring, 200 readings and the next one are 348. */
enum { BLOCKS = 700, LIVE = 348 };

static uint64_t memory[RTHEAP_WORDS(8, BLOCKS, 1)];
static rtheap heap = RTHEAP_INIT;
static uint64_t first, kept, full; /* the oldest reading's place; how many there are; were lost */

static void fail(const char *why) {
    fprintf(stderr, "loop: %s\n", why);
    exit(1);
}

static void must(rtheap_status status) {
    if (status != RTHEAP_OK) fail(rtheap_status_text(status));
}

static void drop_oldest(void) {
    must(rtheap_put(&heap, RING, first, NONE));
    first = (first + 1) % MOST;
    kept--;
}

/* After RTHEAP_ERR_FULL register RECORD still has its old object: the reading must not be put into
   that. So the step ends here: this reading is lost, eight old ones go, and the collector gets some
   of this tick's time. */
static void make_room(void) {
    int i;
    full++;
    must(rtheap_nil(&heap, RECORD));
    for (i = 0; i < 8 && kept > 0; i++) drop_oldest();
    must(rtheap_idle(&heap, 64));
}

/* Stores a reading in two fields, the number of the tick and a float. */
static void store(uint64_t tick, float reading, uint64_t most) {
    uint64_t numbers[2];
    rtheap_status status = rtheap_record(&heap, RECORD, 2);
    if (status == RTHEAP_ERR_FULL) {
        make_room();
        return;
    }
    must(status);
    numbers[0] = tick;
    numbers[1] = rtheap_from_float(reading);
    must(rtheap_put_numbers(&heap, RECORD, 0, NUMBER, numbers, 2, NULL));
    must(rtheap_put(&heap, RING, (first + kept++) % MOST, RECORD));
    if (kept > most) drop_oldest();
}

static float mean(void) {
    double sum = 0;
    uint64_t i, number;
    for (i = 0; i < kept; i++) {
        must(rtheap_get(&heap, RECORD, RING, (first + i) % MOST, NULL));
        must(rtheap_get_numbers(&heap, NUMBER, RECORD, 1, &number, 1, NULL));
        sum += (double)rtheap_to_float(number);
    }
    return kept > 0 ? (float)(sum / (double)kept) : 0;
}

static void wait_for_tick(struct timespec *due) {
    due->tv_nsec += PERIOD;
    if (due->tv_nsec >= 1000000000) {
        due->tv_nsec -= 1000000000;
        due->tv_sec++;
    }
    while (clock_nanosleep(CLOCK_MONOTONIC, TIMER_ABSTIME, due, NULL)) continue;
}

int main(int n, char **words) {
    rtheap_config config = RTHEAP_CONFIG(BLOCKS, LIVE);
    const uint64_t ticks = n == 3 ? strtoul(words[1], NULL, 10) : 0;
    const uint64_t most = n == 3 ? strtoul(words[2], NULL, 10) : 0;
    struct timespec due;
    uint64_t tick;
    if (ticks == 0 || most == 0 || most >= MOST) fail("usage: loop TICKS RING, RING below 1000");
    config.shared = MOST;
    must(rtheap_open_in(&heap, &config, memory, sizeof memory));
    clock_gettime(CLOCK_MONOTONIC, &due);
    for (tick = 0; tick < ticks; tick++) {
        wait_for_tick(&due);
        store(tick, -20.0f + (float)(tick % 100) / 10.0f, most);
    }
    printf("kept %" PRIu64 " full %" PRIu64 " mean %.1f\n", kept, full, (double)mean());
    return rtheap_close(&heap) == RTHEAP_OK ? 0 : 1;
}
