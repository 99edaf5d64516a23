/* Twenty connections at once between pairs of ends, over a network that loses, repeats and delays packets: bytes and money are
 * sent both ways. What arrives is what was sent, in its order, and what is credited adds up. Each write is within the room of its
 * stream, and the streams to read are those that are ready. tests/bindings.py runs it, also under valgrind and with sanitizers. Its
 * argument is how many bytes each direction of a connection has. */
#include "ilpstream.h"
#include <stdbool.h>
#include <stdio.h>
#include <stdlib.h>
#include <string.h>

/* (a unit whose answer is lost is sent again: more arrives than was offered) */
enum { CONNECTIONS = 20, UNITS = 700, MOST = 20 * UNITS, PACKET = 40000, WAITING = 12 };

static size_t size = 60000;

static void must(ilp_code code, const char *what) {
    if (code == ILP_DONE) return;
    fprintf(stderr, "%s: %u: %s\n", what, code, ilp_error_text(code));
    exit(1);
}

static void sure(bool holds, const char *what) {
    if (holds) return;
    fprintf(stderr, "%s\n", what);
    exit(1);
}

static uint64_t state = 1;

/* A number below `most`, of a row that is the same in each run. */
static uint64_t below(uint64_t most) {
    state = state * 6364136223846793005u + 1442695040888963407u;
    return (state >> 33) % most;
}

/* A packet that waits: an answer, or a Prepare. */
struct waiting {
    uint64_t flight;
    size_t len;
    uint8_t bytes[PACKET];
};

/* An end, what it sent so far of its stream, what it received, and the answers to it that wait. */
struct side {
    ilp_end end;
    uint32_t own, other;
    size_t written, received;
    bool is_closed, has_ended;
    size_t count;
    struct waiting *answers;
};

struct connection {
    struct side sides[2];
    uint64_t number;
};

static uint8_t byte_at(uint64_t number, uint32_t stream, size_t at) { return (uint8_t)(number * 31 + stream * 7 + at + at / 251); }

static void begin(struct connection *it, uint64_t number) {
    uint8_t secret[32];
    const char *names[2] = {"example.alice", "example.bob"};
    ilp_end_config config = {
        .size = sizeof config, .in_flight = 4, .packets = 100000, .packet_limit = 50, .least_num = 1, .least_den = 1};
    memset(it, 0, sizeof *it);
    it->number = number;
    for (size_t at = 0; at < sizeof secret; at++) secret[at] = (uint8_t)below(256);
    for (uint32_t role = 0; role < 2; role++) {
        struct side *side = &it->sides[role];
        const char *own = names[role], *peer = names[1 - role];
        must(ilp_end_new(&side->end, role, secret, (const uint8_t *)own, strlen(own), (const uint8_t *)peer, strlen(peer), &config),
             "ilp_end_new");
        must(ilp_end_open_stream(&side->end, &side->own), "ilp_end_open_stream");
        side->other = side->own == 1 ? 2 : 1;
        must(ilp_end_set_receive_max(&side->end, side->other, MOST), "ilp_end_set_receive_max");
        must(ilp_end_offer(&side->end, side->own, UNITS), "ilp_end_offer");
        side->answers = calloc(WAITING, sizeof *side->answers);
        sure(side->answers != NULL, "no memory");
    }
}

/* Writes as much as the stream takes, and closes it after the last byte. */
static void write_some(struct connection *it, struct side *side) {
    static uint8_t bytes[300000];
    size_t room;
    if (side->is_closed) return;
    must(ilp_end_room(&side->end, side->own, &room), "ilp_end_room");
    size_t len = size - side->written < room ? size - side->written : room;
    len = len < 5000 ? len : 1 + below(5000);
    for (size_t at = 0; at < len; at++) bytes[at] = byte_at(it->number, side->own, side->written + at);
    must(ilp_end_write(&side->end, side->own, bytes, len), "ilp_end_write");
    side->written += len;
    if (side->written < size) return;
    must(ilp_end_close(&side->end, side->own), "ilp_end_close");
    side->is_closed = true;
}

/* Reads the streams that are ready. */
static void read_some(struct connection *it, struct side *side) {
    static uint8_t bytes[65536];
    uint8_t ready[64];
    size_t count, len;
    uint64_t reason;
    must(ilp_end_ready(&side->end, ready, sizeof ready, &count), "ilp_end_ready");
    for (size_t at = 0; at < count; at++) {
        sure(ready[at] == side->other, "only the peer's stream can be read");
        ilp_code code = ilp_end_read(&side->end, ready[at], 1 + below(9000), &len, &reason);
        if (code == ILP_ENDED) {
            sure(side->received == size, "the stream ended early");
            side->has_ended = true;
            continue;
        }
        must(code, "ilp_end_read");
        must(ilp_output(&side->end, bytes, sizeof bytes, &len), "ilp_output");
        for (size_t k = 0; k < len; k++)
            sure(bytes[k] == byte_at(it->number, side->other, side->received + k), "another byte arrived");
        side->received += len;
    }
}

/* The answer that waits longest, or any other, is given to the end: or it is lost. */
static void take_answer(struct side *side) {
    uint32_t fulfilled;
    if (!side->count) return;
    size_t at = below(side->count);
    struct waiting *it = &side->answers[at];
    if (below(100) < 10) must(ilp_end_fault(&side->end, it->flight), "ilp_end_fault");
    else must(ilp_end_answer(&side->end, it->flight, it->bytes, it->len, &fulfilled), "ilp_end_answer");
    sure(ilp_end_fault(&side->end, it->flight) == ILP_UNKNOWN, "a flight is reported once");
    *it = side->answers[--side->count];
}

/* One end sends: the Prepare arrives once, twice or never. Whether it had one. */
static bool send(struct connection *it, unsigned from) {
    static uint8_t packet[PACKET];
    struct side *side = &it->sides[from], *peer = &it->sides[1 - from];
    uint8_t iv[12];
    uint64_t flight;
    size_t len;
    ilp_received received;
    if (side->count == WAITING) return true;
    for (size_t at = 0; at < sizeof iv; at++) iv[at] = (uint8_t)below(256);
    ilp_code code = ilp_end_send(&side->end, iv, 1000, &flight, &len);
    if (code == ILP_IDLE) return false;
    must(code, "ilp_end_send");
    must(ilp_output(&side->end, packet, sizeof packet, &len), "ilp_output");
    if (below(100) < 8) {
        must(ilp_end_fault(&side->end, flight), "ilp_end_fault");
        return true;
    }
    struct waiting *answer = &side->answers[side->count++];
    unsigned times = 1 + (below(100) < 8);
    for (unsigned k = 0; k < times; k++) {
        must(ilp_end_receive(&peer->end, packet, len, 1000, &received), "ilp_end_receive");
        /* (of a packet that came twice the second answer is a Reject: the first one counts) */
        if (k) continue;
        must(ilp_output(&peer->end, answer->bytes, PACKET, &answer->len), "ilp_output");
        sure(answer->len == received.len, "the length of an answer");
        answer->flight = flight;
    }
    return true;
}

static bool is_done(const struct connection *it) {
    return it->sides[0].has_ended && it->sides[1].has_ended && !it->sides[0].count && !it->sides[1].count;
}

/* A step of a connection. */
static void turn(struct connection *it) {
    bool goes = false;
    for (unsigned from = 0; from < 2; from++) {
        struct side *side = &it->sides[from];
        write_some(it, side);
        goes |= send(it, from);
        if (!goes || below(3)) take_answer(side);
        read_some(it, side);
    }
}

static void end(struct connection *it) {
    ilp_totals totals[2];
    for (unsigned at = 0; at < 2; at++) {
        struct side *side = &it->sides[at];
        uint32_t failed;
        must(ilp_end_is_failed(&side->end, &failed), "ilp_end_is_failed");
        sure(!failed, "a connection failed");
        must(ilp_end_totals(&side->end, &totals[at]), "ilp_end_totals");
        sure(totals[at].accepted == size && totals[at].delivered == size, "bytes are missing");
        free(side->answers);
        must(ilp_free(&side->end), "ilp_free");
    }
    for (unsigned at = 0; at < 2; at++)
        sure(totals[at].paid == UNITS && UNITS <= totals[1 - at].credited && totals[1 - at].credited <= MOST,
             "the money does not add up");
}

int main(int argc, char **argv) {
    static struct connection all[CONNECTIONS];
    if (argc > 1) size = strtoul(argv[1], NULL, 10);
    for (uint64_t number = 0; number < CONNECTIONS; number++) begin(&all[number], number);
    size_t left = CONNECTIONS;
    for (unsigned long round = 0; left; round++) {
        sure(round < 1000000, "a connection does not end");
        left = 0;
        for (size_t at = 0; at < CONNECTIONS; at++) {
            if (is_done(&all[at])) continue;
            turn(&all[at]);
            left++;
        }
    }
    for (size_t at = 0; at < CONNECTIONS; at++) end(&all[at]);
    printf("%d lossy connections delivered %zu bytes each way\n", CONNECTIONS, size);
    return 0;
}
