/* The allocator of a test, in the place of the C library's: it counts the blocks that are held, and refuses the allocation whose turn it
 * is, alone or with all after it. counted_heap.c is heap.c over the three functions below. */
#ifndef REFUSING_H
#define REFUSING_H

#include <stdbool.h>
#include <stdlib.h>

/* How many allocations are left until one is refused, which 1 refuses at once and 0 for ever after; -1 where none is. */
static long left = -1;
static long live;
static bool all_after, is_hit;

static void *counted(void *at) {
    live += at != NULL;
    return at;
}

/* Whether this allocation is the one whose turn it is, or comes after it where all of these are refused too. */
static bool is_refused(void) {
    if (left < 0 || (left > 0 && --left > 0)) {
        return false;
    }
    is_hit = true;
    left = all_after ? 0 : -1;
    return true;
}

void *counted_malloc(size_t size) {
    return is_refused() ? NULL : counted(malloc(size));
}

void *counted_realloc(void *at, size_t size) {
    return is_refused() ? NULL : realloc(at, size);
}

void counted_free(void *at) {
    live -= at != NULL;
    free(at);
}

#endif
