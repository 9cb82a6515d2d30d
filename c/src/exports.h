/* The proved functions of crates/control_heap_c, which the C files of this folder call. They return
   a status of rtheap.h, up to RTHEAP_ERR_WORKERS_OUT, and write a result if that is RTHEAP_OK. They
   do not accept NULL. No program calls them: the shared object does not show them. */
#ifndef RTHEAP_EXPORTS_H
#define RTHEAP_EXPORTS_H

#include "../rtheap_shared.h"

/* What the proved functions keep in a handle: a mark, and a pointer that owns something. */
typedef struct rtheap_owned {
    uint64_t mark;
    void *at;
} rtheap_owned;

uint32_t rtheap_raw_open(rtheap_owned *heap, uint32_t version, uint32_t blocks, uint32_t live,
                         uint32_t object, uint32_t shared);
uint64_t rtheap_raw_words(uint32_t version, uint32_t blocks, uint32_t object);
uint32_t rtheap_raw_open_in(rtheap_owned *heap, uint64_t words, uint32_t version, uint32_t blocks,
                            uint32_t live, uint32_t object, uint32_t shared);
uint32_t rtheap_raw_close(rtheap_owned *heap);
uint64_t rtheap_raw_units_left(rtheap_owned *heap);
uint64_t rtheap_raw_objects_left(rtheap_owned *heap);
uint64_t rtheap_raw_asked(rtheap_owned *heap);
uint32_t rtheap_raw_new(rtheap_owned *heap, uint32_t d, uint32_t fields, rtheap_reply *reply);
uint32_t rtheap_raw_arr(rtheap_owned *heap, uint32_t d, uint32_t elements, rtheap_reply *reply);
uint32_t rtheap_raw_set(rtheap_owned *heap, uint32_t d, uint64_t value, rtheap_reply *reply);
uint32_t rtheap_raw_nil(rtheap_owned *heap, uint32_t d, rtheap_reply *reply);
uint32_t rtheap_raw_mov(rtheap_owned *heap, uint32_t d, uint32_t s, rtheap_reply *reply);
uint32_t rtheap_raw_get(rtheap_owned *heap, uint32_t d, uint32_t s, uint64_t i,
                        rtheap_reply *reply);
uint32_t rtheap_raw_put(rtheap_owned *heap, uint32_t s, uint64_t i, uint32_t v,
                        rtheap_reply *reply);
uint32_t rtheap_raw_len(rtheap_owned *heap, uint32_t s, rtheap_reply *reply);
uint32_t rtheap_raw_same(rtheap_owned *heap, uint32_t a, uint32_t b, rtheap_reply *reply);
uint32_t rtheap_raw_say(rtheap_owned *heap, uint32_t s, rtheap_reply *reply);
uint32_t rtheap_raw_swap(rtheap_owned *heap, uint32_t s, uint64_t i, uint32_t v,
                         rtheap_reply *reply);
uint32_t rtheap_raw_cas(rtheap_owned *heap, uint32_t s, uint64_t i, uint32_t a, uint32_t v,
                        rtheap_reply *reply);
uint32_t rtheap_raw_idle(rtheap_owned *heap, uint64_t units, rtheap_reply *reply);
uint32_t rtheap_raw_peek(rtheap_owned *heap, uint32_t s, uint64_t i, rtheap_reply *reply);
uint32_t rtheap_raw_peek_path(rtheap_owned *heap, uint32_t s, const uint64_t *path, size_t length,
                              rtheap_reply *reply);
uint32_t rtheap_raw_text(rtheap_owned *heap, uint8_t *out, size_t size, uint64_t *length);
uint32_t rtheap_raw_dot(rtheap_owned *heap, uint8_t *out, size_t size, uint64_t *length);
uint32_t rtheap_raw_save(rtheap_owned *heap, uint8_t *out, size_t size, uint64_t *length);
/* `number` gets what is wrong, of a refusal that has a number. */
uint32_t rtheap_raw_load(rtheap_owned *heap, const uint8_t *bytes, size_t size, uint32_t version,
                         uint32_t blocks, uint32_t live, uint32_t object, uint32_t shared,
                         uint64_t *number);
/* What of a configuration may have to be raised. */
typedef struct rtheap_limits {
    uint32_t blocks, live, object;
} rtheap_limits;

uint32_t rtheap_raw_raise(const uint8_t *bytes, size_t size, uint32_t version, uint32_t shared,
                          rtheap_limits *limits);

uint32_t rtheap_group_raw_open(rtheap_owned *group, uint32_t version, uint32_t threads,
                               uint32_t blocks, uint32_t live, uint32_t object, uint32_t shared);
uint32_t rtheap_group_raw_attach(rtheap_owned *group, rtheap_owned *worker);
uint32_t rtheap_group_raw_close(rtheap_owned *group);
/* The worker has to be of the group. */
uint32_t rtheap_group_raw_return(rtheap_owned *group, rtheap_owned *worker);
uint32_t rtheap_group_raw_finish(rtheap_owned *group, uint64_t *cycles);
uint32_t rtheap_worker_raw_start(rtheap_owned *worker, uint32_t kind, uint32_t a, uint32_t b,
                                 uint32_t v, uint64_t n);
uint32_t rtheap_worker_raw_poll(rtheap_owned *worker, uint64_t most, rtheap_reply *reply);
uint32_t rtheap_worker_raw_stamp(rtheap_owned *worker, uint64_t *stamp);
uint32_t rtheap_worker_raw_follow(rtheap_owned *worker, uint64_t stamp);
uint32_t rtheap_worker_raw_close(rtheap_owned *worker);
uint32_t rtheap_worker_raw_thread(rtheap_owned *worker);
uint64_t rtheap_worker_raw_units_left(rtheap_owned *worker);
uint64_t rtheap_worker_raw_objects_left(rtheap_owned *worker);
uint64_t rtheap_worker_raw_asked(rtheap_owned *worker);

#endif
