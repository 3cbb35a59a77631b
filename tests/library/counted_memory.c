#include "counted_memory.h"

#include <stddef.h>

static long live, requests, refused_at;
static bool is_refused_later;

long live_blocks(void) { return __atomic_load_n(&live, __ATOMIC_SEQ_CST); }

void refuse_request(long number, bool and_later) {
    refused_at = number;
    is_refused_later = and_later;
    __atomic_store_n(&requests, 0, __ATOMIC_SEQ_CST);
}

long requests_made(void) { return __atomic_load_n(&requests, __ATOMIC_SEQ_CST); }

static bool is_refused(void) {
    long number = __atomic_add_fetch(&requests, 1, __ATOMIC_SEQ_CST);
    return refused_at && (number == refused_at || (is_refused_later && number > refused_at));
}

#ifdef __cplusplus
extern "C" {
#endif

void *__real_malloc(size_t size);
void *__real_realloc(void *block, size_t size);
void __real_free(void *block);
void *__wrap_malloc(size_t size);
void *__wrap_realloc(void *block, size_t size);
void __wrap_free(void *block);

void *__wrap_malloc(size_t size) {
    void *block = is_refused() ? NULL : __real_malloc(size);
    if (block) __atomic_add_fetch(&live, 1, __ATOMIC_SEQ_CST);
    return block;
}

void *__wrap_realloc(void *block, size_t size) {
    if (is_refused()) return NULL;
    void *moved = __real_realloc(block, size);
    if (moved && !block) __atomic_add_fetch(&live, 1, __ATOMIC_SEQ_CST);
    return moved;
}

void __wrap_free(void *block) {
    if (block) __atomic_sub_fetch(&live, 1, __ATOMIC_SEQ_CST);
    __real_free(block);
}

#ifdef __cplusplus
}
#endif
