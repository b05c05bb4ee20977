/*
 * Memory that is counted, for what is linked with --wrap=malloc,--wrap=realloc,--wrap=free: how many growths there were, how many bytes are
 * held, and how many were at most; and one growth, or it and all later ones, can be refused.
 */
#include <malloc.h>
#include <stddef.h>
#include <stdint.h>

void *__real_malloc(size_t size);
void *__real_realloc(void *place, size_t size);
void __real_free(void *place);

/* The number of the growth that is refused, from 1; 0 for none. */
static uint64_t refused, growths;
static int refuse_on;
static size_t held, most_held;

static int refuses(void) {
    growths++;
    return refused != 0 && (growths == refused || (refuse_on && growths > refused));
}

static void *counted(void *place) {
    held += malloc_usable_size(place);
    most_held = held > most_held ? held : most_held;
    return place;
}

void *__wrap_malloc(size_t size) {
    return refuses() ? NULL : counted(__real_malloc(size));
}

/* While a block is moved both are held. */
void *__wrap_realloc(void *place, size_t size) {
    if (refuses()) {
        return NULL;
    }
    size_t before = malloc_usable_size(place);
    void *after = counted(__real_realloc(place, size));
    held -= after != NULL ? before : 0;
    return after;
}

void __wrap_free(void *place) {
    held -= malloc_usable_size(place);
    __real_free(place);
}
