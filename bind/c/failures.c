/* Why a Prepare failed, as ilp_end_last_failure reports it in C: of an answer that never came, of one that cannot be read, of a
 * Fulfill that does not fit, and of a Reject. tests/bindings.py runs it. */
#include "ilpstream.h"
#include <stdio.h>
#include <stdlib.h>
#include <string.h>

enum { TEXT = 9 };

static void sure(int holds, const char *what) {
    if (holds) return;
    fprintf(stderr, "%s\n", what);
    exit(1);
}

/* The flight of the next Prepare. */
static uint64_t next(ilp_end *end) {
    static const uint8_t iv[12];
    uint64_t flight;
    size_t len;
    sure(ilp_end_send(end, iv, 0, &flight, &len) == ILP_DONE, "ilp_end_send");
    return flight;
}

/* The next Prepare fails by these bytes. */
static void fails(ilp_end *end, uint8_t *bytes, size_t len, ilp_failure *failure) {
    uint32_t fulfilled;
    sure(ilp_end_answer(end, next(end), bytes, len, &fulfilled) == ILP_DONE && !fulfilled, "ilp_end_answer");
    sure(ilp_end_last_failure(end, failure) == ILP_DONE, "ilp_end_last_failure");
}

int main(void) {
    static const uint8_t secret[32];
    static uint8_t unfit[35] = {13, 33};
    uint8_t unread[] = {14};
    uint8_t reject[] = "\x0e\x13T04\x09" "example.c\x04" "full\0";
    ilp_end_config config = {.size = sizeof config, .in_flight = 1, .packets = 9, .packet_limit = 9, .least_num = 1, .least_den = 1};
    ilp_end end = {0};
    ilp_failure failure = {.size = sizeof failure};
    uint32_t stream;

    const uint8_t *own = (const uint8_t *)"test.a", *peer = (const uint8_t *)"test.b";
    sure(ilp_end_new(&end, ILP_CLIENT, secret, own, 6, peer, 6, &config) == ILP_DONE, "ilp_end_new");
    sure(ilp_end_open_stream(&end, &stream) == ILP_DONE, "ilp_end_open_stream");
    sure(ilp_end_write(&end, stream, (const uint8_t *)"hi", 2) == ILP_DONE, "ilp_end_write");
    sure(ilp_end_last_failure(&end, &failure) == ILP_IDLE, "none failed yet");

    sure(ilp_end_fault(&end, next(&end)) == ILP_DONE, "ilp_end_fault");
    sure(ilp_end_last_failure(&end, &failure) == ILP_DONE, "ilp_end_last_failure");
    sure(failure.kind == ILP_LOST && !failure.by_len && !failure.message_len, "an answer that never came");
    fails(&end, reject, sizeof reject - 1, &failure);
    sure(failure.kind == ILP_REJECTED && !memcmp(failure.code, "T04", 3), "a Reject");
    sure(failure.by_len == TEXT && !memcmp(failure.by, "example.c", TEXT), "its triggeredBy");
    sure(failure.message_len == 4 && !memcmp(failure.message, "full", 4), "its message");
    fails(&end, unread, sizeof unread, &failure);
    sure(failure.kind == ILP_UNREADABLE && !failure.code[0] && !failure.by_len, "bytes that are no answer");
    fails(&end, unfit, sizeof unfit, &failure);
    sure(failure.kind == ILP_UNFIT && !failure.message_len, "a Fulfill that does not fit");
    sure(ilp_free(&end) == ILP_DONE, "ilp_free");
    puts("4 causes were reported");
    return 0;
}
