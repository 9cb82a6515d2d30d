/* Ends a program that calls malloc, calloc, realloc or free. It is linked with
   -Wl,--wrap=malloc,--wrap=calloc,--wrap=realloc,--wrap=free, to show that heaps in lent memory
   call none of them. */
#include <stdio.h>
#include <stdlib.h>

void *__wrap_malloc(size_t size);
void *__wrap_calloc(size_t count, size_t size);
void *__wrap_realloc(void *block, size_t size);
void __wrap_free(void *block);

static void refuse(const char *name) {
    fprintf(stderr, "%s was called\n", name);
    abort();
}

void *__wrap_malloc(size_t size) {
    (void)size;
    refuse("malloc");
    return NULL;
}

void *__wrap_calloc(size_t count, size_t size) {
    (void)count;
    (void)size;
    refuse("calloc");
    return NULL;
}

void *__wrap_realloc(void *block, size_t size) {
    (void)block;
    (void)size;
    refuse("realloc");
    return NULL;
}

void __wrap_free(void *block) {
    (void)block;
    refuse("free");
}
