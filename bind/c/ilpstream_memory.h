/* The three functions by which libilpstream.a allocates. The archive has them, over malloc and free (heap.c); they overwrite
 * each block before they give it back, since it may have had keys or plain text. A program may define all three itself, and is
 * linked with its own ones then: an allocator that counts, refuses or locks its pages. It has to overwrite blocks itself.
 * libilpstream.so has those of heap.c, and calls no others.
 *
 * They may be called by each thread that makes a call of ilpstream.h, and by several at once. They are called in no other way
 * than within such a call. */
#ifndef ILPSTREAM_MEMORY_H
#define ILPSTREAM_MEMORY_H
#include <stdbool.h>
#include <stddef.h>
#ifdef __cplusplus
extern "C" {
#endif

/* What a request gave: `at` is a block if `is_taken`; else there is no memory, and `at` is any pointer that is not null. It is
 * not read then. */
typedef struct rattle_tried {
    bool is_taken;
    void *at;
} rattle_tried;

/* Takes a block of `size` bytes at a multiple of `align`: 1, 2, 4, 8 or 16. `size` is below 2^63, and may be 0: the block of no
 * bytes has a pointer too, which is given back as any other. */
rattle_tried rattle_alloc(size_t size, size_t align);

/* Makes an allocated block one of `size` bytes. It may move: then `at` is given back by this call. Its first `kept` bytes
 * stay, which are no more than the block had and than `size`; the others have no meaning. If there is no memory, the block
 * is as before. */
rattle_tried rattle_realloc(void *at, size_t kept, size_t size, size_t align);

/* Gives back an allocated block. Its size is not passed. */
void rattle_dealloc(void *at);

#ifdef __cplusplus
}
#endif
#endif
