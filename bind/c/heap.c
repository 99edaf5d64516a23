/* The functions of ilpstream_memory.h, over those of the C library. A block is overwritten before it is given back: keys, plain
 * text and what was output are not left in memory that is free. */
#include "ilpstream_memory.h"
#include "wipe.h"
#include <malloc.h>
#include <stdlib.h>
#include <string.h>

/* What `at` is if there is no block. */
static char nothing[16];

static rattle_tried tried(void *at) { return (rattle_tried){at != NULL, at != NULL ? at : nothing}; }

/* (malloc aligns to 16 wherever the archive runs; a block of no bytes is one of some) */
rattle_tried rattle_alloc(size_t size, size_t align) { return tried(malloc(size ? size : align)); }

/* (realloc would leave the old block as it is if it moves, and the end of one that shrinks) */
rattle_tried rattle_realloc(void *at, size_t kept, size_t size, size_t align) {
    rattle_tried moved = rattle_alloc(size, align);
    if (moved.is_taken) {
        memcpy(moved.at, at, kept);
        rattle_dealloc(at);
    }
    return moved;
}

void rattle_dealloc(void *at) {
    wipe(at, malloc_usable_size(at));
    free(at);
}
