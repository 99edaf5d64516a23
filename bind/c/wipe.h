/* Overwriting bytes that are secret. */
#ifndef ILPSTREAM_WIPE_H
#define ILPSTREAM_WIPE_H
#include <stddef.h>
#include <string.h>

/* Overwrites bytes. The compiler keeps it, also if nothing reads them any more: the empty line of assembler may read any
 * memory. (explicit_bzero would want a C library of 2017.) */
static inline void wipe(void *at, size_t len) {
    memset(at, 0, len);
    __asm__ volatile("" : : "r"(at) : "memory");
}

#endif
