/* What the library leaves in memory. Its arguments are patterns as hexadecimal digits, of which the first is a secret of 32 bytes
 * and the others are its keys, as tests/bindings.py computes them. Keys and ends of this secret are made, used and freed. Then no
 * pattern is in any memory of the process that can be written: heap, stack and static memory. And each block that was given to
 * `free` was all zeros (the linker passes the library's calls of `free` to __wrap_free), and no call with keys went deeper on the
 * stack than what is overwritten after it.
 *
 * Built with -DPLAIN it has an allocator that does not overwrite, and has to find the patterns. tests/bindings.py runs both. */
#include "ilpstream.h"
#include "ilpstream_memory.h"
#include <malloc.h>
#include <stdbool.h>
#include <stdio.h>
#include <stdlib.h>
#include <string.h>

enum { MOST = 64, LONGEST = 256, PART = 16, MASK = 0xa7, PAINT = 0xc3, PAINTED = 262144 };

/* How much of the stack is overwritten after a call that makes an object and after others (handles.h), and a little more: what the
 * call in front of it uses. */
enum { MAKING = 163840 + 512, USING = 16384 + 512 };

static void sure(bool holds, const char *what) {
    if (holds) return;
    fprintf(stderr, "%s\n", what);
    exit(1);
}

static void must(ilp_code code, const char *what) {
    if (code == ILP_DONE) return;
    fprintf(stderr, "%s: %u: %s\n", what, code, ilp_error_text(code));
    exit(1);
}

/* ---- blocks that are given back */

void __real_free(void *at);

static unsigned long blocks, unclean;

void __wrap_free(void *at) {
    size_t size = at ? malloc_usable_size(at) : 0;
    blocks++;
    for (size_t it = 0; it < size; it++) {
        if (!((uint8_t *)at)[it]) continue;
        unclean++;
        break;
    }
    __real_free(at);
}

#ifdef PLAIN
rattle_tried rattle_alloc(size_t size, size_t align) { return (rattle_tried){true, malloc(size ? size : align)}; }

rattle_tried rattle_realloc(void *at, size_t kept, size_t size, size_t align) {
    (void)kept;
    return (rattle_tried){true, realloc(at, size ? size : align)};
}

void rattle_dealloc(void *at) { free(at); }
#endif

/* ---- patterns, which this program has in no other way than with each byte changed */

static struct {
    size_t len;
    uint8_t bytes[LONGEST];
} patterns[MOST];
static size_t pattern_count;

static unsigned digit(char it) { return it <= '9' ? it - '0' : it - 'a' + 10; }

static void add_pattern(const char *text) {
    size_t len = strlen(text) / 2;
    sure(pattern_count < MOST && PART <= len && len <= LONGEST, "bad patterns");
    for (size_t at = 0; at < len; at++)
        patterns[pattern_count].bytes[at] = (uint8_t)(digit(text[2 * at]) << 4 | digit(text[2 * at + 1])) ^ MASK;
    patterns[pattern_count++].len = len;
}

static bool is_part(const volatile uint8_t *at, const uint8_t *part) {
    for (size_t it = 0; it < PART; it++)
        if (at[it] != (part[it] ^ MASK)) return false;
    return true;
}

/* How often a part of a pattern is in a range of memory. */
static unsigned long found_in(const volatile uint8_t *from, const volatile uint8_t *to) {
    unsigned long found = 0;
    for (const volatile uint8_t *at = from; at + PART <= to; at++)
        for (size_t it = 0; it < pattern_count; it++)
            for (size_t part = 0; part + PART <= patterns[it].len; part += PART) found += is_part(at, patterns[it].bytes + part);
    return found;
}

/* How often in all memory that can be written. */
static unsigned long found(void) {
    unsigned long from, to, sum = 0;
    char line[512], rights[5];
    FILE *maps = fopen("/proc/self/maps", "r");
    sure(maps != NULL, "/proc/self/maps");
    while (fgets(line, sizeof line, maps))
        if (sscanf(line, "%lx-%lx %4s", &from, &to, rights) == 3 && rights[0] == 'r' && rights[1] == 'w')
            sum += found_in((const volatile uint8_t *)from, (const volatile uint8_t *)to);
    fclose(maps);
    return sum;
}

/* ---- how much of the stack a call uses */

static size_t deepest_making, deepest;

/* Paints the stack below. */
__attribute__((noinline)) static void paint(void) {
    uint8_t *here = __builtin_frame_address(0);
    for (volatile uint8_t *at = here - PAINTED; at < here - 256; at++) *at = PAINT;
}

/* Looks how far the paint is gone. */
__attribute__((noinline)) static void look(size_t *most) {
    uint8_t *here = __builtin_frame_address(0);
    const volatile uint8_t *at = here - PAINTED;
    while (at < here && *at == PAINT) at++;
    if (*most < (size_t)(here - at)) *most = (size_t)(here - at);
}

#define DEEP(most, call)    \
    do {                    \
        paint();            \
        ilp_code it = call; \
        look(most);         \
        must(it, #call);    \
    } while (0)

/* ---- calls with keys */

/* Writes the secret to the caller's buffer. */
static void secret_to(uint8_t secret[32]) {
    for (size_t at = 0; at < 32; at++) ((volatile uint8_t *)secret)[at] = patterns[0].bytes[at] ^ MASK;
}

static void forget(void *at, size_t len) {
    for (size_t it = 0; it < len; it++) ((volatile uint8_t *)at)[it] = 0;
}

static void with_keys(unsigned long *alive) {
    uint8_t secret[32], payload[1000], text[1000], fulfillment[32];
    const uint8_t iv[12] = {1};
    ilp_keys keys = {0};
    size_t len;
    secret_to(secret);
    DEEP(&deepest_making, ilp_keys_new(&keys, secret));
    forget(secret, sizeof secret);
    *alive = found();
    DEEP(&deepest, ilp_keys_seal(&keys, iv, (const uint8_t *)"text", 4, &len));
    must(ilp_output(&keys, payload, sizeof payload, &len), "ilp_output");
    DEEP(&deepest, ilp_keys_open(&keys, payload, len, &len));
    must(ilp_output(&keys, text, sizeof text, &len), "ilp_output");
    sure(len == 4 && !memcmp(text, "text", 4), "the text");
    DEEP(&deepest, ilp_keys_fulfillment(&keys, payload, 32, fulfillment));
    DEEP(&deepest, ilp_free(&keys));
}

static ilp_end new_end(uint32_t role, const uint8_t secret[32], const char *own, const char *peer) {
    ilp_end end = {0};
    ilp_end_config config = {
        .size = sizeof config, .in_flight = 4, .packets = 100, .packet_limit = 9, .least_num = 1, .least_den = 1};
    DEEP(&deepest_making,
         ilp_end_new(&end, role, secret, (const uint8_t *)own, strlen(own), (const uint8_t *)peer, strlen(peer), &config));
    return end;
}

static void with_ends(void) {
    static uint8_t data[50000], packet[40000];
    uint8_t secret[32], iv[12] = {0};
    uint32_t stream, fulfilled;
    uint64_t flight;
    size_t len;
    ilp_received received;
    secret_to(secret);
    ilp_end client = new_end(ILP_CLIENT, secret, "test.a", "test.b"), server = new_end(ILP_SERVER, secret, "test.b", "test.a");
    forget(secret, sizeof secret);
    must(ilp_end_open_stream(&client, &stream), "ilp_end_open_stream");
    must(ilp_end_write(&client, stream, data, sizeof data), "ilp_end_write");
    for (;;) {
        iv[0]++;
        paint();
        ilp_code code = ilp_end_send(&client, iv, 0, &flight, &len);
        look(&deepest);
        if (code == ILP_IDLE) break;
        must(code, "ilp_end_send");
        must(ilp_output(&client, packet, sizeof packet, &len), "ilp_output");
        DEEP(&deepest, ilp_end_receive(&server, packet, len, 0, &received));
        must(ilp_output(&server, packet, sizeof packet, &len), "ilp_output");
        DEEP(&deepest, ilp_end_answer(&client, flight, packet, len, &fulfilled));
        sure(fulfilled, "a Fulfill");
    }
    DEEP(&deepest, ilp_free(&client));
    DEEP(&deepest, ilp_free(&server));
}

int main(int argc, char **argv) {
    unsigned long alive = 0;
    for (int at = 1; at < argc; at++) add_pattern(argv[at]);
    sure(pattern_count > 0 && patterns[0].len == 32, "usage: wiped SECRET PATTERN ..");
    with_keys(&alive);
    unsigned long keys = found();
    with_ends();
    unsigned long ends = found();
    printf("patterns: %lu while keys are in use, %lu after, %lu after ends; %lu of %lu blocks unclean; %zu and %zu bytes of stack\n",
           alive, keys, ends, unclean, blocks, deepest_making, deepest);
    sure(alive > 0, "the patterns are not those of the keys");
    sure(!keys && !ends, "keys are left in memory");
    sure(!unclean, "blocks were given back that are not overwritten");
    sure(deepest_making < MAKING && deepest < USING, "a call goes deeper on the stack than what is overwritten");
    return 0;
}
