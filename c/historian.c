/* Keeps the last 40 readings as records on a garbage-collected heap, with those outside two limits
   as alarms: the proved program `historian` in C. It reads the limits from the first line and a
   reading from each further line, and writes a line after each reading. */
#include <inttypes.h>
#include <stdio.h>
#include <stdlib.h>

#include "rtheap.h"

enum { KEPT = 40 };

/* Registers. Elements 0 to 39 of the table are the readings, and 40 to 79 the alarms among them. */
enum { TABLE = 0, RECORD = 1, NUMBER = 2, FOUND = 3, NONE = 4 };

static rtheap heap = RTHEAP_INIT;

/* Ends the program if a command was not done. */
static void must(rtheap_status status) {
    if (status == RTHEAP_OK) return;
    fprintf(stderr, "historian: %s\n", rtheap_status_text(status));
    exit(9);
}

static void keep(uint64_t count, uint64_t reading, bool alarm) {
    must(rtheap_record(&heap, RECORD, 1));
    must(rtheap_set(&heap, NUMBER, reading));
    must(rtheap_put(&heap, RECORD, 0, NUMBER));
    must(rtheap_put(&heap, TABLE, count % KEPT, RECORD));
    must(rtheap_put(&heap, TABLE, KEPT + count % KEPT, alarm ? RECORD : NONE));
}

static uint64_t reading_at(uint64_t i) {
    rtheap_value value;
    must(rtheap_get(&heap, FOUND, TABLE, i % KEPT, NULL));
    must(rtheap_get(&heap, NUMBER, FOUND, 0, &value));
    return value.number;
}

static bool is_alarm(uint64_t i) {
    rtheap_value value;
    must(rtheap_get(&heap, FOUND, TABLE, KEPT + i % KEPT, &value));
    return value.kind == RTHEAP_REF;
}

int main(void) {
    uint64_t low, high, reading, count = 0;
    rtheap_config config = RTHEAP_CONFIG(512, 128);
    rtheap_status status;
    config.shared = 2 * KEPT;
    status = rtheap_open(&heap, &config);
    if (status != RTHEAP_OK) {
        fprintf(stderr, "historian: %s\n", rtheap_status_text(status));
        return 7;
    }
    if (scanf("%" SCNu64 " %" SCNu64, &low, &high) != 2) return 3;
    while (scanf("%" SCNu64, &reading) == 1) {
        uint64_t least = UINT32_MAX, greatest = 0, total = 0, alarms = 0, back, kept;
        keep(count, reading, reading < low || high < reading);
        count++;
        kept = count < KEPT ? count : KEPT;
        for (back = 0; back < kept; back++) {
            uint64_t value = reading_at(count - 1 - back);
            if (value < least) least = value;
            if (value > greatest) greatest = value;
            total += value;
            alarms += (uint64_t)is_alarm(count - 1 - back);
        }
        printf("least %" PRIu64 " greatest %" PRIu64 " mean %" PRIu64 " alarms %" PRIu64 "\n",
               least, greatest, total / kept, alarms);
    }
    return rtheap_close(&heap) == RTHEAP_OK ? 0 : 1;
}
