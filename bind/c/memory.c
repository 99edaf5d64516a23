/* The functions by which the archive allocates, by an allocator that checks how they are called: it is linked in the place of
 * heap.c. Each request has a size and an alignment that the header allows, `kept` is within both blocks, what is given back was
 * allocated and is given back once, no byte is written after a block, and no call reads what it did not write. Then each request
 * of a transfer and of a hop is refused in turn: the call says so, the object is as before, and the call can be repeated.
 * tests/bindings.py runs it. */
#include "ilpstream.h"
#include "ilpstream_memory.h"
#include <stdint.h>
#include <stdio.h>
#include <stdlib.h>
#include <string.h>

enum { FENCE = 16, TAKEN = 0x7461, GIVEN = 0x6769, UNSET = 0xa5, BEHIND = 0x5a };

static void sure(int holds, const char *what) {
    if (holds) return;
    fprintf(stderr, "%s\n", what);
    exit(1);
}

/* In front of each block. */
struct front {
    uint64_t mark;
    uint64_t size;
};

static uint64_t asked, refused_number, in_use, blocks, moved, given;
static char nowhere;

static struct front *front_of(void *at) { return (struct front *)((char *)at - sizeof(struct front)); }

static void check_block(void *at) {
    struct front *front = front_of(at);
    sure(front->mark == TAKEN, "a block that was not allocated, or was given back");
    for (size_t it = 0; it < FENCE; it++) sure(((uint8_t *)at)[front->size + it] == BEHIND, "a byte after a block was written");
}

static void check_request(size_t size, size_t align) {
    sure(size < (size_t)1 << 63, "a size of 2^63 or more");
    sure(align == 1 || align == 2 || align == 4 || align == 8 || align == 16, "an alignment that no header has");
}

rattle_tried rattle_alloc(size_t size, size_t align) {
    check_request(size, align);
    if (++asked == refused_number) return (rattle_tried){false, &nowhere};
    struct front *front = malloc(sizeof *front + size + FENCE);
    sure(front != NULL, "no memory");
    *front = (struct front){TAKEN, size};
    uint8_t *at = (uint8_t *)(front + 1);
    memset(at, UNSET, size);
    memset(at + size, BEHIND, FENCE);
    blocks++;
    in_use++;
    return (rattle_tried){true, at};
}

rattle_tried rattle_realloc(void *at, size_t kept, size_t size, size_t align) {
    check_block(at);
    check_request(size, align);
    sure(kept <= front_of(at)->size && kept <= size, "more bytes are to be kept than a block has");
    rattle_tried new = rattle_alloc(size, align);
    if (!new.is_taken) return new;
    memcpy(new.at, at, kept);
    rattle_dealloc(at);
    moved++;
    return new;
}

void rattle_dealloc(void *at) {
    check_block(at);
    struct front *front = front_of(at);
    front->mark = GIVEN;
    memset(at, UNSET, front->size);
    in_use--;
    given++;
    free(front);
}

static void must(ilp_code code, const char *what) {
    if (code == ILP_DONE) return;
    fprintf(stderr, "%s: %u: %s\n", what, code, ilp_error_text(code));
    exit(1);
}

/* How many calls were refused memory, and repeated. */
static uint64_t refusals;

/* A call is made: if it is refused memory, once more. */
#define REPEATED(call)                                   \
    do {                                                 \
        ilp_code first = (call);                         \
        if (ilp_is_no_memory(first)) {                   \
            refusals++;                                  \
            first = (call);                              \
        }                                                \
        must(first, #call);                              \
    } while (0)

static const uint8_t *bytes_of(const char *text) { return (const uint8_t *)text; }

/* 20,000 bytes and 9 units between two ends. */
static void transfer(void) {
    static const uint8_t secret[32] = {1};
    static uint8_t data[20000], packet[40000];
    uint8_t iv[12] = {0};
    ilp_end_config config = {
        .size = sizeof config, .in_flight = 2, .packets = 100, .packet_limit = 5, .least_num = 1, .least_den = 1};
    ilp_end client = {0}, server = {0};
    uint32_t stream, fulfilled;
    uint64_t flight, reason;
    size_t len, total = 0;
    uint8_t ready[64];
    ilp_received received;
    ilp_totals totals;
    for (size_t at = 0; at < sizeof data; at++) data[at] = (uint8_t)(at * 3 + at / 256);
    REPEATED(ilp_end_new(&client, ILP_CLIENT, secret, bytes_of("test.a"), 6, bytes_of("test.b"), 6, &config));
    REPEATED(ilp_end_new(&server, ILP_SERVER, secret, bytes_of("test.b"), 6, bytes_of("test.a"), 6, &config));
    REPEATED(ilp_end_open_stream(&client, &stream));
    REPEATED(ilp_end_write(&client, stream, data, sizeof data));
    must(ilp_end_offer(&client, stream, 9), "ilp_end_offer");
    must(ilp_end_close(&client, stream), "ilp_end_close");
    must(ilp_end_set_receive_max(&server, stream, 9), "ilp_end_set_receive_max");
    for (;;) {
        iv[0]++;
        ilp_code code = ilp_end_send(&client, iv, 0, &flight, &len);
        if (code == ILP_IDLE) break;
        if (ilp_is_no_memory(code)) {
            refusals++;
            continue;
        }
        must(code, "ilp_end_send");
        must(ilp_output(&client, packet, sizeof packet, &len), "ilp_output");
        REPEATED(ilp_end_receive(&server, packet, len, 0, &received));
        must(ilp_output(&server, packet, sizeof packet, &len), "ilp_output");
        must(ilp_end_answer(&client, flight, packet, len, &fulfilled), "ilp_end_answer");
        REPEATED(ilp_end_ready(&server, ready, sizeof ready, &len));
        if (!len) continue;
        code = ilp_end_read(&server, ready[0], 9000, &len, &reason);
        if (ilp_is_no_memory(code)) {
            refusals++;
            code = ilp_end_read(&server, ready[0], 9000, &len, &reason);
        }
        if (code == ILP_ENDED) continue;
        must(code, "ilp_end_read");
        must(ilp_output(&server, packet, sizeof packet, &len), "ilp_output");
        sure(!memcmp(packet, data + total, len), "other bytes arrived");
        total += len;
    }
    for (;;) {
        ilp_code code = ilp_end_read(&server, stream, 9000, &len, &reason);
        if (ilp_is_no_memory(code)) {
            refusals++;
            continue;
        }
        if (code == ILP_ENDED) break;
        must(code, "ilp_end_read");
        must(ilp_output(&server, packet, sizeof packet, &len), "ilp_output");
        sure(!memcmp(packet, data + total, len), "other bytes arrived");
        total += len;
    }
    must(ilp_end_totals(&client, &totals), "ilp_end_totals");
    sure(total == sizeof data && totals.paid == 9, "something is missing");
    must(ilp_free(&client), "ilp_free");
    must(ilp_free(&server), "ilp_free");
}

/* A Prepare over a hop, a STREAM packet that is sealed and opened, and a message of HTTP. */
static void others(void) {
    static const uint8_t secret[32] = {2}, iv[12] = {3};
    const ilp_account accounts[] = {{100, 50}, {100, 50}};
    const ilp_route routes[] = {{6, 1, 1, 1}};
    const size_t token = 5;
    uint8_t fulfillment[32] = {4}, condition[32], packet[2000], text[3000];
    ilp_hop hop = {0};
    ilp_keys keys = {0};
    ilp_packet plain = {0}, read = {0};
    ilp_message request = {0};
    ilp_arrived arrived;
    ilp_booking booking;
    ilp_header header;
    ilp_reading reading;
    size_t len;
    must(ilp_condition(fulfillment, condition), "ilp_condition");
    REPEATED(ilp_prepare_write(7, 60000, condition, bytes_of("test.b"), 6, NULL, 0, packet, sizeof packet, &len));
    REPEATED(ilp_hop_new(&hop, bytes_of("test.h"), 6, accounts, 2, bytes_of("test.b"), 6, routes, 1));
    ilp_code code = ilp_hop_arrive(&hop, 0, packet, len, 0, &arrived);
    if (ilp_is_no_memory(code)) {
        refusals++;
        code = ilp_hop_arrive(&hop, 0, packet, len, 0, &arrived);
    }
    sure(code == ILP_ONWARD, "ilp_hop_arrive");
    REPEATED(ilp_fulfill_write(fulfillment, NULL, 0, packet, sizeof packet, &len));
    REPEATED(ilp_hop_books(&hop, arrived.ticket, packet, len, 0, &booking));
    REPEATED(ilp_hop_settle(&hop, arrived.ticket, packet, len, 0, &len));
    REPEATED(ilp_keys_new(&keys, secret));
    REPEATED(ilp_packet_new(&plain, 12, 1, 5));
    REPEATED(ilp_packet_push(&plain, &(ilp_frame){.kind = ILP_STREAM_DATA, .stream = 1}, bytes_of("bytes"), 5));
    REPEATED(ilp_packet_write(&plain, &len));
    must(ilp_output(&plain, text, sizeof text, &len), "ilp_output");
    REPEATED(ilp_keys_seal(&keys, iv, text, len, &len));
    must(ilp_output(&keys, packet, sizeof packet, &len), "ilp_output");
    REPEATED(ilp_keys_open(&keys, packet, len, &len));
    must(ilp_output(&keys, text, sizeof text, &len), "ilp_output");
    REPEATED(ilp_packet_read(&read, 12, text, len));
    must(ilp_packet_header(&read, &header), "ilp_packet_header");
    sure(header.frames == 1 && booking.claim == 7, "what was read");
    REPEATED(ilp_request_text(bytes_of("host"), 4, bytes_of("token"), 5, packet, 100, text, sizeof text, &len));
    REPEATED(ilp_request_new(&request, bytes_of("token"), 5, &token, 1));
    REPEATED(ilp_message_feed(&request, text, len, &reading));
    sure(reading.body_len == 100, "the body");
    must(ilp_free(&hop), "ilp_free");
    must(ilp_free(&keys), "ilp_free");
    must(ilp_free(&plain), "ilp_free");
    must(ilp_free(&read), "ilp_free");
    must(ilp_free(&request), "ilp_free");
}

int main(void) {
    transfer();
    others();
    uint64_t requests = asked;
    sure(in_use == 0, "a block was not given back");
    for (uint64_t number = 1; number <= requests; number++) {
        asked = 0;
        refused_number = number;
        uint64_t before = refusals;
        transfer();
        others();
        sure(refusals == before + 1, "a request was refused, and no call said so");
        sure(in_use == 0, "a block was not given back");
    }
    printf("%llu requests, each refused once; %llu blocks were allocated, %llu moved and %llu given back\n",
           (unsigned long long)requests, (unsigned long long)blocks, (unsigned long long)moved, (unsigned long long)given);
    return 0;
}
