// Counts the allocations of the library, and refuses some of them. The library is linked with this file, and with `--wrap` for each of
// the three functions, so that its calls come here. One thread at a time may call.
#include <stdbool.h>
#include <stddef.h>

void *__real_malloc(size_t size);
void *__real_realloc(void *block, size_t size);
void __real_free(void *block);

static size_t counted, refused_from, refused_to;
static long held;

// From now on allocations are counted from 1, and those from one number to another are refused. None is refused from 0.
void refuse_allocations(size_t from, size_t to) {
    counted = 0;
    refused_from = from;
    refused_to = to;
}

// How many allocations there were.
size_t count_allocations(void) {
    return counted;
}

// How many blocks are held that were not freed.
long count_held(void) {
    return held;
}

static bool is_refused(void) {
    counted++;
    return refused_from > 0 && counted >= refused_from && counted <= refused_to;
}

void *__wrap_malloc(size_t size) {
    void *block = is_refused() ? NULL : __real_malloc(size);
    held += block != NULL;
    return block;
}

void *__wrap_realloc(void *block, size_t size) {
    void *moved = is_refused() ? NULL : __real_realloc(block, size);
    held += moved != NULL && block == NULL;
    return moved;
}

void __wrap_free(void *block) {
    held -= block != NULL;
    __real_free(block);
}
