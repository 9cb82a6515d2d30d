/* The memory of heaps: malloc, or memory that the program lends, or an allocator of the program.
   The proved code calls the first three functions, in place of the kit's, which call malloc. Which
   memory is meant is a matter of the call: it says so by rtheap_in_use before it calls an export,
   for its thread. With RTHEAP_NO_MALLOC, in librtheap_lent.a, there is no malloc.

   A heap takes all its memory when it is opened, and a shared one also when a worker is attached or
   given back. Saves and texts take memory for their work, and give it back. Lent memory is given
   out from the first byte on, and nothing of it is taken back: after rtheap_close it is the
   program's again. */
#include <stdlib.h>
#include <string.h>

#include "handles.h"

/* The answer to a request: whether there is memory, and where. `at` is never NULL. */
typedef struct block {
    bool given;
    void *at;
} block;

block rattle_alloc(size_t size, size_t alignment);
block rattle_realloc(void *at, size_t kept, size_t size, size_t alignment);
void rattle_dealloc(void *at);

static _Thread_local rtheap_using now;

static unsigned char nothing;

rtheap_using rtheap_in_use(const rtheap_source *source, void *lent, size_t bytes) {
    const rtheap_using before = now;
    now.source = source;
    now.at = lent;
    now.bytes = bytes;
    return before;
}

void rtheap_in_use_again(rtheap_using before) { now = before; }

rtheap_using rtheap_in_use_for_work(const rtheap_handle *handle) {
    return rtheap_in_use(handle->source.is_lent ? NULL : &handle->source, NULL, 0);
}

static bool is_lent(void) { return now.source && now.source->is_lent; }

static bool has_allocator(void) { return now.source && now.source->memory.allocate; }

static block made_at(void *at) {
    block made = {at != NULL, at ? at : &nothing};
    return made;
}

static block from_lent(size_t size, size_t alignment) {
    size_t gap = (alignment - (uintptr_t)now.at % alignment) % alignment;
    unsigned char *at = now.at + gap;
    if (gap > now.bytes || size > now.bytes - gap) return made_at(NULL);
    now.at = at + size;
    now.bytes -= gap + size;
    return made_at(at);
}

block rattle_alloc(size_t size, size_t alignment) {
    if (size == 0) size = alignment;
    if (is_lent()) return from_lent(size, alignment);
    if (has_allocator()) {
        const rtheap_memory *memory = &now.source->memory;
        return made_at(memory->allocate(memory->context, size, alignment));
    }
#ifdef RTHEAP_NO_MALLOC
    return made_at(NULL);
#else
    return made_at(malloc(size));
#endif
}

block rattle_realloc(void *at, size_t kept, size_t size, size_t alignment) {
    block made;
#ifndef RTHEAP_NO_MALLOC
    if (!is_lent() && !has_allocator()) return made_at(realloc(at, size ? size : alignment));
#endif
    made = rattle_alloc(size, alignment);
    if (made.given) {
        memcpy(made.at, at, kept < size ? kept : size);
        rattle_dealloc(at);
    }
    return made;
}

void rattle_dealloc(void *at) {
    if (is_lent()) return;
    if (has_allocator()) now.source->memory.release(now.source->memory.context, at);
#ifndef RTHEAP_NO_MALLOC
    else free(at);
#endif
}
