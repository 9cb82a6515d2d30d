/* Keeps the last 40 readings, one a line, as records on a heap, and prints them at the end. */
#include <inttypes.h>
#include <stdio.h>
#include <stdlib.h>
#include <rtheap.h>

enum { KEPT = 40 };
enum { ARRAY = 0, RECORD = 1, NUMBER = 2 }; /* registers */

static rtheap heap = RTHEAP_INIT;

/* Ends the program if a call was refused or failed, and says why. */
static void must(rtheap_status status) {
    char text[160];
    if (status == RTHEAP_OK) return;
    rtheap_explain(&heap, text, sizeof text);
    fprintf(stderr, "plant: %s\n", text);
    exit(4);
}

static void keep(uint64_t place, uint32_t reading) {
    must(rtheap_record(&heap, RECORD, 1));
    must(rtheap_set(&heap, NUMBER, reading));
    must(rtheap_put(&heap, RECORD, 0, NUMBER));
    must(rtheap_put(&heap, ARRAY, place, RECORD));
}

static uint64_t reading_at(uint64_t place) {
    rtheap_value value;
    must(rtheap_get(&heap, RECORD, ARRAY, place, NULL));
    must(rtheap_get(&heap, NUMBER, RECORD, 0, &value));
    return value.number;
}

int main(void) {
    /* At most 50 blocks are live: 3 of registers, 6 of the array, 40 readings and the next one. */
    rtheap_config config = RTHEAP_CONFIG(128, 50);
    uint64_t count = 0, i;
    uint32_t reading;
    config.shared = KEPT;
    must(rtheap_open(&heap, &config));
    while (scanf("%" SCNu32, &reading) == 1) keep(count++ % KEPT, reading);
    if (!feof(stdin)) {
        fprintf(stderr, "plant: line %" PRIu64 " is no number\n", count + 1);
        return 3;
    }
    for (i = count < KEPT ? 0 : count - KEPT; i < count; i++)
        printf("%" PRIu64 "\n", reading_at(i % KEPT));
    return rtheap_close(&heap) == RTHEAP_OK ? 0 : 4;
}
