/* Carries out the commands of a job of one thread one by one, and prints each reply as `rtheap run`
   does, with the units of collection that the command did. With the name of a file it writes the
   commands there as a job, as the library tells them. */
#include <inttypes.h>
#include <stdio.h>
#include <string.h>

#include "rtheap.h"

static void print_reply(const rtheap_reply *r, uint64_t work, int pays) {
    printf("0 ");
    switch (r->kind) {
    case RTHEAP_REPLY_NEW: printf("new %" PRIu32 ".%" PRIu64, r->thread, r->value); break;
    case RTHEAP_REPLY_FULL: printf("full %" PRIu64, r->value); break;
    case RTHEAP_REPLY_STORED: printf("ok"); break;
    case RTHEAP_REPLY_NIL: printf("nil"); break;
    case RTHEAP_REPLY_INT: printf("int %" PRIu64, r->value); break;
    case RTHEAP_REPLY_REF: printf("ref %" PRIu32 ".%" PRIu64, r->thread, r->value); break;
    case RTHEAP_REPLY_LEN: printf("len %" PRIu64, r->value); break;
    case RTHEAP_REPLY_YES: printf("yes"); break;
    case RTHEAP_REPLY_NO: printf("no"); break;
    case RTHEAP_REPLY_NIL_REGISTER: printf("null"); break;
    case RTHEAP_REPLY_NOT_OBJECT: printf("kind"); break;
    case RTHEAP_REPLY_RANGE: printf("range"); break;
    case RTHEAP_REPLY_IDLED: printf("idle"); break;
    default: printf("unknown reply"); break;
    }
    if (pays) printf(" work %" PRIu64, work);
    printf("\n");
}

/* The command of a word and its numbers; for another word one that no heap has. */
static rtheap_command command_of(const char *word, const uint64_t n[4]) {
    const rtheap_command none = {UINT32_MAX, 0, 0, 0, 0};
    uint32_t r[4];
    int k;
    for (k = 0; k < 4; k++) r[k] = n[k] > UINT32_MAX ? UINT32_MAX : (uint32_t)n[k];
    if (!strcmp(word, "new")) return rtheap_cmd_record(r[0], r[1]);
    if (!strcmp(word, "arr")) return rtheap_cmd_array(r[0], r[1]);
    if (!strcmp(word, "set")) return rtheap_cmd_set(r[0], n[1]);
    if (!strcmp(word, "nil")) return rtheap_cmd_nil(r[0]);
    if (!strcmp(word, "mov")) return rtheap_cmd_mov(r[0], r[1]);
    if (!strcmp(word, "get")) return rtheap_cmd_get(r[0], r[1], n[2]);
    if (!strcmp(word, "put")) return rtheap_cmd_put(r[0], n[1], r[2]);
    if (!strcmp(word, "len")) return rtheap_cmd_len(r[0]);
    if (!strcmp(word, "same")) return rtheap_cmd_same(r[0], r[1]);
    if (!strcmp(word, "say")) return rtheap_cmd_say(r[0]);
    if (!strcmp(word, "swap")) return rtheap_cmd_swap(r[0], n[1], r[2]);
    if (!strcmp(word, "cas")) return rtheap_cmd_cas(r[0], n[1], r[2], r[3]);
    if (!strcmp(word, "idle")) return rtheap_cmd_idle(n[0]);
    return none;
}

static uint64_t units_left(const rtheap *heap) {
    uint64_t units = 0;
    return rtheap_units_left(heap, &units) == RTHEAP_OK ? units : 0;
}

/* Opens the heap of a job's first line, or returns the status to end with. */
static int open_heap(rtheap *heap) {
    rtheap_config config = RTHEAP_CONFIG(0, 0);
    uint32_t version;
    rtheap_status status;
    if (scanf("rtheap %" SCNu32 " threads %" SCNu32 " blocks %" SCNu32 " live %" SCNu32
              " object %" SCNu32 " shared %" SCNu32 " thread 0",
              &version, &config.threads, &config.blocks, &config.live, &config.object,
              &config.shared) != 6 || config.threads != 1)
        return 3;
    config.width = 4 * version;
    status = rtheap_open(heap, &config);
    if (status == RTHEAP_OK) return 0;
    printf("open: %s\n", rtheap_status_text(status));
    return 4;
}

static void put_line(void *file, const char *line) { fputs(line, file); }

int main(int words, char **arguments) {
    static rtheap heap; /* closed, since all its bytes are zero */
    uint64_t all = 0;
    char word[16];
    FILE *job = words == 2 ? fopen(arguments[1], "w") : NULL;
    int failed = open_heap(&heap);
    if (failed) return failed;
    if (job && rtheap_start_job(&heap, put_line, job) != RTHEAP_OK) return 1;
    while (scanf("%15s", word) == 1 && strcmp(word, "end") != 0) {
        uint64_t n[4] = {0, 0, 0, 0}, before = units_left(&heap), work;
        int i = 0, pays = !strcmp(word, "new") || !strcmp(word, "arr") || !strcmp(word, "idle");
        rtheap_reply r = {UINT32_MAX, 0, 0};
        rtheap_status status;
        while (i < 4 && scanf("%" SCNu64, &n[i]) == 1) i++;
        status = rtheap_ask(&heap, command_of(word, n), &r);
        if (r.kind == UINT32_MAX) { /* no reply: it was refused */
            printf("%s: %s\n", word, rtheap_status_text(status));
            return status == RTHEAP_ERR_NO_SUCH_COMMAND ? 3 : 5;
        }
        work = before - units_left(&heap);
        all += work;
        print_reply(&r, work, pays);
    }
    printf("end work %" PRIu64 "\n", all);
    if (rtheap_close(&heap) != RTHEAP_OK) return 1;
    return job && fclose(job) ? 1 : 0;
}
