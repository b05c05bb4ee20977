/* The memory of the proved code: malloc, realloc and free, as the Rattle kit's libc asks for them (libc/src/heap.rt). */
#include <stddef.h>
#include <stdlib.h>

/* Whether there is memory, and where; where there is none, a byte that nobody uses. */
struct tried {
    _Bool ok;
    void *place;
};

static unsigned char nowhere;

static struct tried tried(void *place) {
    struct tried answer = {place != NULL, place != NULL ? place : &nowhere};
    return answer;
}

/* Blocks of no bytes have as many as they are to be aligned to, at most 16, which malloc aligns to. */
struct tried rattle_alloc(size_t size, size_t alignment) {
    return tried(malloc(size != 0 ? size : alignment));
}

struct tried rattle_realloc(void *place, size_t kept, size_t size, size_t alignment) {
    (void)kept;
    return tried(realloc(place, size != 0 ? size : alignment));
}

void rattle_dealloc(void *place) {
    free(place);
}
