/* The handles of the calls for C, of which calls.c makes its calls: this file is included there alone.
 *
 * A handle is a number: a place in a table of slots, and the slot's generation. The slot has the object's address, which no
 * caller sees. A free ends the slot's generation, so that no handle of before, and no copy of it, is that of a later object. A
 * call has its slot alone until it returns: a second one meanwhile is refused. There is no lock, and no call waits. */
#ifndef ILPSTREAM_HANDLES_H
#define ILPSTREAM_HANDLES_H
#include "ilpstream.h"
#include "wipe.h"
#include <stdatomic.h>
#include <stdlib.h>

/* What a slot's state has in addition to its generation. */
enum { LIVE = 1, BUSY = 2, GENERATION = 4 };

/* Of a slot: its generation times GENERATION, LIVE if it has an object, BUSY if a call has it; the address of the object, as the
 * proved calls keep it; its own place; and the place of the next one that is free. A place is from 1 on, and 0 means no place. */
struct slot {
    _Atomic uint64_t state;
    void *object;
    uint32_t place;
    _Atomic uint32_t next;
};

/* The table: rows of 64, 128, 256 .. slots, which are never moved nor given back. */
enum { FIRST_BITS = 6, ROWS = 26 };

static struct slot first_row[1 << FIRST_BITS];
static _Atomic(struct slot *) rows[ROWS] = {first_row};

/* How many places were ever in use, and the first of those that are free again; above it, how often that changed. */
static _Atomic uint32_t used;
static _Atomic uint64_t free_places;

/* The row of a place, and its index there. */
static unsigned row_of(uint32_t place, uint64_t *within) {
    uint64_t number = (uint64_t)place - 1 + (1u << FIRST_BITS);
    unsigned bits = 63 - (unsigned)__builtin_clzll(number);
    *within = number - ((uint64_t)1 << bits);
    return bits - FIRST_BITS;
}

/* The slot at a place, or NULL where the table has no such row. */
static struct slot *slot_at(uint32_t place) {
    uint64_t within;
    if (place == 0) return NULL;
    unsigned row = row_of(place, &within);
    if (row >= ROWS) return NULL;
    struct slot *slots = atomic_load_explicit(&rows[row], memory_order_acquire);
    return slots ? slots + within : NULL;
}

/* The slot at a place that was never in use, for which memory may be refused. */
static struct slot *new_slot_at(uint32_t place) {
    uint64_t within;
    unsigned row = row_of(place, &within);
    if (row >= ROWS) return NULL;
    if (!atomic_load_explicit(&rows[row], memory_order_acquire)) {
        struct slot *none = NULL, *slots = calloc((size_t)1 << (row + FIRST_BITS), sizeof *slots);
        if (!slots) return NULL;
        if (!atomic_compare_exchange_strong(&rows[row], &none, slots)) free(slots);
    }
    return slot_at(place);
}

/* A slot that is free, for one caller alone; NULL if memory is refused. */
static struct slot *free_slot(void) {
    uint64_t head = atomic_load(&free_places);
    while ((uint32_t)head) {
        struct slot *slot = slot_at((uint32_t)head);
        uint64_t rest = ((head >> 32) + 1) << 32 | atomic_load(&slot->next);
        if (atomic_compare_exchange_weak(&free_places, &head, rest)) return slot;
    }
    uint32_t count = atomic_load(&used);
    for (;;) {
        struct slot *slot = count == UINT32_MAX ? NULL : new_slot_at(count + 1);
        if (!slot) return NULL;
        if (atomic_compare_exchange_weak(&used, &count, count + 1)) {
            slot->place = count + 1;
            return slot;
        }
    }
}

/* Gives a slot back, whose state is that of a slot without an object. */
static void give_back(struct slot *slot) {
    uint64_t head = atomic_load(&free_places), next;
    do {
        atomic_store(&slot->next, (uint32_t)head);
        next = ((head >> 32) + 1) << 32 | slot->place;
    } while (!atomic_compare_exchange_weak(&free_places, &head, next));
}

/* A call under way: its slot, or NULL and why it is refused. */
struct call {
    struct slot *slot;
    ilp_code code;
};

static struct call refused(ilp_code code) { return (struct call){NULL, code}; }

/* The number of a handle, which is its first and only member. */
static uint64_t number_of(const void *handle) { return __atomic_load_n((const uint64_t *)handle, __ATOMIC_RELAXED); }

static void set_number(void *handle, uint64_t number) {
    __atomic_store_n((uint64_t *)handle, number, __ATOMIC_RELAXED);
}

/* Begins a call on the object of a handle. */
static struct call begin_call(const void *handle) {
    if (!handle) return refused(ILP_MISUSE);
    uint64_t number = number_of(handle);
    struct slot *slot = slot_at((uint32_t)number);
    if (!slot) return refused(ILP_MISUSE);
    uint64_t live = (number >> 32) * GENERATION | LIVE, seen = live;
    if (atomic_compare_exchange_strong_explicit(&slot->state, &seen, live | BUSY, memory_order_acquire,
                                                memory_order_relaxed))
        return (struct call){slot, ILP_DONE};
    return refused(seen == (live | BUSY) ? ILP_BUSY : ILP_MISUSE);
}

/* Ends a call that began, and returns its code. */
static ilp_code end_call(struct call call, ilp_code code) {
    uint64_t state = atomic_load_explicit(&call.slot->state, memory_order_relaxed);
    atomic_store_explicit(&call.slot->state, state & ~(uint64_t)BUSY, memory_order_release);
    return code;
}

/* Begins a call that makes an object in an empty handle. */
static struct call begin_making(const void *handle, ilp_code no_memory) {
    if (!handle || number_of(handle)) return refused(ILP_MISUSE);
    struct slot *slot = free_slot();
    if (!slot) return refused(no_memory);
    slot->object = NULL;
    return (struct call){slot, ILP_DONE};
}

/* Ends it: if the object was made, the handle is that of its slot. */
static ilp_code end_making(struct call call, void *handle, ilp_code code) {
    if (code != ILP_DONE) {
        give_back(call.slot);
        return code;
    }
    uint64_t generation = atomic_load_explicit(&call.slot->state, memory_order_relaxed) / GENERATION;
    atomic_store_explicit(&call.slot->state, generation * GENERATION | LIVE, memory_order_release);
    set_number(handle, generation << 32 | call.slot->place);
    return ILP_DONE;
}

/* Ends a call that freed the object: the slot's next generation begins. A slot whose generations are all used is not used
 * again. */
static ilp_code end_freeing(struct call call, void *handle) {
    uint64_t next = atomic_load_explicit(&call.slot->state, memory_order_relaxed) / GENERATION + 1;
    set_number(handle, 0);
    atomic_store_explicit(&call.slot->state, next * GENERATION, memory_order_release);
    if (next <= UINT32_MAX) give_back(call.slot);
    return ILP_DONE;
}

/* Whether this number of elements of a size cannot be: they are some, and nowhere, or have more bytes than a memory. */
static int is_missing(const void *at, size_t count, size_t size) { return at ? count > PTRDIFF_MAX / size : count != 0; }

/* More than any struct of a later version has: a size above it was not set. */
enum { MOST = 65536 };

/* Whether a struct that is passed can be read: it has what this version knows, and beyond that nothing but zeros. */
static int is_read(const void *at, size_t size, size_t known) {
    if (size < known || size > MOST) return 0;
    for (size_t it = known; it < size; it++)
        if (((const uint8_t *)at)[it]) return 0;
    return 1;
}

/* Whether a struct has the size for what this version fills. */
static int is_filled(const void *at, size_t size, size_t known) {
    (void)at;
    return known <= size && size <= MOST;
}

/* How much of the stack the calls with a secret or keys use, in bytes: those that make an object, and all others. On 2026-11-28
 * wiped.c measured 152,472 and 12,904. It fails if a call goes deeper than this. */
enum { DEEPEST_MAKING = 163840, DEEPEST = 16384 };

/* Overwrites the stack below the caller, if the call that it made before was. */
__attribute__((noinline)) static void wipe_making(void) {
    uint8_t below[DEEPEST_MAKING];
    wipe(below, sizeof below);
}

__attribute__((noinline)) static void wipe_stack(void) {
    uint8_t below[DEEPEST];
    wipe(below, sizeof below);
}

/* If no bytes are: the proved calls want a pointer that is not null. */
static _Alignas(16) uint8_t nowhere[16];

static void *somewhere(const void *at) { return at ? (void *)at : nowhere; }

#endif
