/* Makes a record of two fields, stores the reading 1250 in its field 0 and the record in element 7
   of a table of 80, reads it back and prints it. */
#include <inttypes.h>
#include <stdio.h>
#include <stdlib.h>
#include "rtheap.h"

enum { TABLE = 0, RECORD = 1, NUMBER = 2 }; /* registers */

/* Ends the program if a call was refused or failed. */
static void must(rtheap_status status) {
    if (status == RTHEAP_OK) return;
    fprintf(stderr, "%s\n", rtheap_status_text(status));
    exit(1);
}

int main(void) {
    rtheap heap = RTHEAP_CLOSED;
    rtheap_config config = RTHEAP_CONFIG(512, 128); /* 512 blocks, 128 live */
    rtheap_value value;
    config.shared = 80;
    must(rtheap_open(&heap, &config));
    must(rtheap_record(&heap, RECORD, 2));
    must(rtheap_set(&heap, NUMBER, 1250));
    must(rtheap_put(&heap, RECORD, 0, NUMBER));
    must(rtheap_put(&heap, TABLE, 7, RECORD));
    must(rtheap_get(&heap, RECORD, TABLE, 7, NULL));
    must(rtheap_get(&heap, NUMBER, RECORD, 0, &value));
    printf("%" PRIu64 "\n", value.number);
    rtheap_close(&heap);
    return 0;
}
