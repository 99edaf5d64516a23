/* Two ends in memory: 1 MiB and 500 units are sent from a client to a server. */
#include "ilpstream.h"
#include <stdbool.h>
#include <stdio.h>
#include <stdlib.h>
#include <string.h>
#include <sys/random.h>
#include <time.h>

enum { SIZE = 1 << 20, UNITS = 500, PACKET = 40000 };

static void must(ilp_code code, const char *what) {
    if (code == ILP_DONE) return;
    fprintf(stderr, "%s: %u: %s\n", what, code, ilp_error_text(code));
    exit(1);
}

static void random_bytes(void *at, size_t len) {
    if (getrandom(at, len, 0) == (ssize_t)len) return;
    fputs("there are no random bytes\n", stderr);
    exit(1);
}

static int64_t now(void) {
    struct timespec time;
    clock_gettime(CLOCK_REALTIME, &time);
    return (int64_t)time.tv_sec * 1000 + time.tv_nsec / 1000000;
}

static ilp_end new_end(uint32_t role, const uint8_t secret[32], const char *own, const char *peer) {
    ilp_end end = {0};
    ilp_end_config config = {
        .size = sizeof config, .in_flight = 16, .packets = 10000, .packet_limit = 1000, .least_num = 1, .least_den = 1};
    must(ilp_end_new(&end, role, secret, (const uint8_t *)own, strlen(own), (const uint8_t *)peer,
                     strlen(peer), &config), "ilp_end_new");
    return end;
}

/* The client's next Prepare is given to the server, and the answer to the client. False if nothing is to be sent. */
static bool pass(ilp_end *client, ilp_end *server) {
    static uint8_t packet[PACKET];
    uint8_t iv[12];
    uint64_t flight;
    uint32_t fulfilled;
    size_t len;
    ilp_received received;

    random_bytes(iv, sizeof iv); /* never an IV twice */
    ilp_code code = ilp_end_send(client, iv, now(), &flight, &len);
    if (code == ILP_IDLE) return false;
    must(code, "ilp_end_send");
    must(ilp_output(client, packet, sizeof packet, &len), "ilp_output");
    must(ilp_end_receive(server, packet, len, now(), &received), "ilp_end_receive");
    must(ilp_output(server, packet, sizeof packet, &len), "ilp_output");
    must(ilp_end_answer(client, flight, packet, len, &fulfilled), "ilp_end_answer");
    return true;
}

/* Writes what the stream takes, up to `left` bytes: how many they were. None while too many wait for an acknowledgement. */
static size_t write_some(ilp_end *end, uint32_t stream, const uint8_t *bytes, size_t left) {
    size_t room;
    must(ilp_end_room(end, stream, &room), "ilp_end_room");
    size_t len = left < room ? left : room;
    must(ilp_end_write(end, stream, bytes, len), "ilp_end_write");
    return len;
}

/* Reads what has arrived into a buffer: how many bytes they are. */
static size_t read_some(ilp_end *end, uint32_t stream, uint8_t *bytes, size_t room) {
    size_t count = 0, len;
    uint64_t reason;
    while (count < room) {
        ilp_code code = ilp_end_read(end, stream, room - count, &len, &reason);
        if (code == ILP_IDLE || code == ILP_NO_STREAM) break;
        must(code, "ilp_end_read");
        must(ilp_output(end, bytes + count, room - count, &len), "ilp_output");
        count += len;
    }
    return count;
}

int main(void) {
    static uint8_t sent[SIZE], received[SIZE];
    uint8_t secret[32];
    uint32_t stream;
    ilp_totals paid, credited;
    random_bytes(secret, sizeof secret);
    for (size_t i = 0; i < SIZE; i++) sent[i] = (uint8_t)(i * 7 + i / 256);
    ilp_end client = new_end(ILP_CLIENT, secret, "example.alice", "example.bob");
    ilp_end server = new_end(ILP_SERVER, secret, "example.bob", "example.alice");

    must(ilp_end_open_stream(&client, &stream), "ilp_end_open_stream");
    must(ilp_end_set_receive_max(&server, stream, UNITS), "ilp_end_set_receive_max");
    must(ilp_end_offer(&client, stream, UNITS), "ilp_end_offer");
    size_t written = 0, read = 0;
    bool goes_on = true;
    while (goes_on) {
        if (written < SIZE) written += write_some(&client, stream, sent + written, SIZE - written);
        goes_on = pass(&client, &server) || written < SIZE;
        read += read_some(&server, stream, received + read, SIZE - read);
    }
    must(ilp_end_totals(&client, &paid), "ilp_end_totals");
    must(ilp_end_totals(&server, &credited), "ilp_end_totals");
    bool is_whole = read == SIZE && memcmp(sent, received, SIZE) == 0;
    printf("%zu bytes %s; paid %llu, credited %llu\n", read, is_whole ? "arrived intact" : "are not those sent",
           (unsigned long long)paid.paid, (unsigned long long)credited.credited);
    ilp_free(&client);
    ilp_free(&server);
    return is_whole && paid.paid == UNITS && credited.credited == UNITS ? 0 : 1;
}
