/* What a caller in C may get wrong, and the number by which it is refused: handles that are null, empty, freed, copied, never
 * made, of another kind, or in another thread's call; and null pointers. tests/bindings.py runs it, also under valgrind and
 * with sanitizers. Its argument is how many rounds the threads make. */
#include "ilpstream.h"
#include <pthread.h>
#include <semaphore.h>
#include <signal.h>
#include <stdatomic.h>
#include <stdio.h>
#include <stdlib.h>
#include <string.h>
#include <sys/mman.h>
#include <unistd.h>

enum { THREADS = 4, SHARED = 8 };

static unsigned tried;

#define IS(call, wanted)                                                                       \
    do {                                                                                       \
        ilp_code got = (call);                                                                 \
        tried++;                                                                               \
        if (got != (wanted)) {                                                                 \
            fprintf(stderr, "%s:%d: %s is %u, and not %s\n", __FILE__, __LINE__, #call, got, #wanted); \
            exit(1);                                                                           \
        }                                                                                      \
    } while (0)

static const uint8_t secret[32], iv[12];

static ilp_keys new_keys(void) {
    ilp_keys keys = {0};
    IS(ilp_keys_new(&keys, secret), ILP_DONE);
    return keys;
}

static ilp_end new_end(void) {
    ilp_end end = {0};
    ilp_end_config config = {
        .size = sizeof config, .in_flight = 1, .packets = 9, .packet_limit = 9, .least_num = 1, .least_den = 1};
    IS(ilp_end_new(&end, ILP_CLIENT, secret, (const uint8_t *)"test.a", 6, (const uint8_t *)"test.b", 6, &config), ILP_DONE);
    return end;
}

static ilp_code sealed(ilp_keys *keys) {
    size_t len;
    return ilp_keys_seal(keys, iv, (const uint8_t *)"text", 4, &len);
}

static void freed_twice(void) {
    ilp_keys keys = new_keys(), copy = keys;
    IS(sealed(&copy), ILP_DONE); /* copies are handles of one object */
    IS(ilp_free(&keys), ILP_DONE);
    IS(ilp_free(&keys), ILP_DONE); /* it is empty now */
    IS(sealed(&keys), ILP_MISUSE);
    IS(ilp_free(&copy), ILP_MISUSE);
    IS(ilp_free(NULL), ILP_DONE);
}

static void used_after_a_free(void) {
    ilp_keys keys = new_keys(), copy = keys;
    size_t len;
    IS(ilp_free(&keys), ILP_DONE);
    IS(sealed(&copy), ILP_MISUSE);
    /* the slot is used again: by keys, and then by an object of another kind */
    keys = new_keys();
    IS((uint32_t)keys.inner != (uint32_t)copy.inner, 0);
    IS(sealed(&copy), ILP_MISUSE);
    IS(ilp_free(&copy), ILP_MISUSE);
    IS(sealed(&keys), ILP_DONE);
    IS(ilp_free(&keys), ILP_DONE);
    ilp_end end = new_end();
    IS((uint32_t)end.inner != (uint32_t)copy.inner, 0);
    IS(sealed(&copy), ILP_MISUSE);
    IS(ilp_output(&copy, NULL, 0, &len), ILP_MISUSE);
    IS(ilp_free(&copy), ILP_MISUSE);
    IS(ilp_output(&end, NULL, 0, &len), ILP_DONE);
    IS(ilp_free(&end), ILP_DONE);
}

static void made_over_another(void) {
    ilp_keys keys = new_keys(), copy = keys;
    IS(ilp_keys_new(&keys, secret), ILP_MISUSE);
    IS(ilp_free(&copy), ILP_DONE);
    IS(ilp_keys_new(&keys, secret), ILP_MISUSE); /* it is freed, and not empty */
    keys = (ilp_keys){0};
    IS(ilp_keys_new(&keys, secret), ILP_DONE);
    IS(ilp_free(&keys), ILP_DONE);
}

static void of_another_kind(void) {
    ilp_keys keys = new_keys();
    ilp_end end = new_end();
    ilp_balances balances;
    ilp_header header;
    ilp_reading reading;
    IS(ilp_end_close((ilp_end *)&keys, 1), ILP_MISUSE);
    IS(ilp_hop_balances((ilp_hop *)&keys, 0, &balances), ILP_MISUSE);
    IS(ilp_hop_restart((ilp_hop *)&keys), ILP_MISUSE);
    IS(ilp_packet_header((ilp_packet *)&keys, &header), ILP_MISUSE);
    IS(ilp_message_feed((ilp_message *)&keys, NULL, 0, &reading), ILP_MISUSE);
    IS(sealed((ilp_keys *)&end), ILP_MISUSE);
    IS(sealed(&keys), ILP_DONE);
    IS(ilp_free(&keys), ILP_DONE);
    IS(ilp_free(&end), ILP_DONE);
}

static ilp_code restored(ilp_hop *hop, const uint64_t *claims, size_t claims_len, const uint64_t *dues, size_t dues_len) {
    const ilp_account account = {.limit = 100, .max_packet = 100};
    const uint8_t *own = (const uint8_t *)"test.hub";
    return ilp_hop_restored(hop, own, 8, &account, 1, NULL, 0, NULL, 0, claims, claims_len, dues, dues_len, 5);
}

static void hops_with_books(void) {
    const uint64_t claims[] = {40}, too_many[] = {104}, dues[] = {3};
    ilp_hop hop = {0};
    ilp_balances balances;
    ilp_booking booking;
    IS(restored(&hop, too_many, 1, dues, 1), ILP_BAD_BOOKS);
    IS(restored(&hop, claims, 0, dues, 1), ILP_BAD_BOOKS);
    IS(restored(&hop, claims, 1, dues, 0), ILP_BAD_BOOKS);
    IS(restored(&hop, NULL, 1, dues, 1), ILP_NULL);
    IS(restored(&hop, claims, 1, NULL, 1), ILP_NULL);
    IS(hop.inner != 0, 0);
    IS(restored(&hop, claims, 1, dues, 1), ILP_DONE);
    IS(restored(&hop, claims, 1, dues, 1), ILP_MISUSE);
    IS(ilp_hop_restart(&hop), ILP_DONE);
    IS(ilp_hop_balances(&hop, 0, &balances), ILP_DONE);
    IS(balances.claims != 40 || balances.dues != 3 || balances.held != 0, 0);
    IS(ilp_hop_books(&hop, 5, NULL, 0, 0, &booking), ILP_UNKNOWN);
    IS(ilp_hop_books(&hop, 5, NULL, 0, INT64_MIN, &booking), ILP_ARGUMENT);
    IS(ilp_hop_books(&hop, 5, NULL, 1, 0, &booking), ILP_NULL);
    IS(ilp_hop_books(&hop, 5, NULL, 0, 0, NULL), ILP_NULL);
    IS(ilp_free(&hop), ILP_DONE);
    IS(ilp_hop_restart(&hop), ILP_MISUSE);
}

static void never_made(void) {
    ilp_keys keys = new_keys();
    uint64_t state = 1;
    for (int round = 0; round < 100000; round++) {
        state = state * 6364136223846793005u + 1442695040888963407u;
        ilp_keys other = {state >> (round % 64)};
        if (other.inner == keys.inner) continue;
        IS(sealed(&other), ILP_MISUSE);
        IS(ilp_free(&other), other.inner ? ILP_MISUSE : ILP_DONE);
    }
    IS(sealed(&keys), ILP_DONE);
    IS(ilp_free(&keys), ILP_DONE);
}

static void null_pointers(void) {
    ilp_keys keys = new_keys();
    ilp_end end = new_end();
    size_t len;
    uint32_t stream;
    IS(sealed(NULL), ILP_MISUSE);
    IS(ilp_keys_new(NULL, secret), ILP_MISUSE);
    IS(ilp_keys_seal(&keys, NULL, NULL, 0, &len), ILP_NULL);
    IS(ilp_keys_seal(&keys, iv, NULL, 1, &len), ILP_NULL);
    IS(ilp_keys_seal(&keys, iv, (const uint8_t *)"", SIZE_MAX, &len), ILP_NULL);
    IS(ilp_keys_seal(&keys, iv, NULL, 0, NULL), ILP_NULL);
    IS(ilp_keys_seal(&keys, iv, NULL, 0, &len), ILP_DONE);
    IS(ilp_output(&keys, NULL, 1, &len), ILP_NULL);
    IS(ilp_output(&keys, NULL, 0, &len), ILP_ROOM);
    IS(len != 28, 0);
    IS(ilp_end_open_stream(&end, NULL), ILP_NULL);
    IS(ilp_end_open_stream(&end, &stream), ILP_DONE);
    IS(ilp_end_write(&end, 1, NULL, 0), ILP_DONE);
    IS(ilp_end_write(&end, 1, NULL, 1), ILP_NULL);
    IS(ilp_free(&keys), ILP_DONE);
    IS(ilp_free(&end), ILP_DONE);
}

/* Numbers of elements whose bytes are more than a memory has: 2^59 accounts have 2^63 bytes. */
static void too_many(void) {
    const ilp_account account = {1, 1};
    const ilp_route route = {0, 0, 1, 1};
    const uint64_t sum = 0;
    const size_t length = 0;
    const uint8_t *own = (const uint8_t *)"test.hub";
    ilp_hop hop = {0};
    ilp_message request = {0};
    for (unsigned bits = 59; bits < 64; bits++) {
        size_t many = (size_t)1 << bits;
        IS(ilp_hop_new(&hop, own, 8, &account, many, NULL, 0, NULL, 0), ILP_NULL);
        IS(ilp_hop_new(&hop, own, 8, &account, 1, NULL, 0, &route, many), ILP_NULL);
    }
    IS(ilp_hop_new(&hop, own, 8, &account, SIZE_MAX, NULL, 0, NULL, 0), ILP_NULL);
    IS(ilp_hop_restored(&hop, own, 8, &account, 1, NULL, 0, NULL, 0, &sum, (size_t)1 << 60, &sum, 1, 5), ILP_NULL);
    IS(ilp_hop_restored(&hop, own, 8, &account, 1, NULL, 0, NULL, 0, &sum, 1, &sum, (size_t)1 << 60, 5), ILP_NULL);
    IS(ilp_request_new(&request, NULL, 0, &length, (size_t)1 << 60), ILP_NULL);
    IS(hop.inner != 0 || request.inner != 0, 0);
}

static ilp_code made(const void *config) {
    ilp_end end = {0};
    const uint8_t *own = (const uint8_t *)"test.a", *peer = (const uint8_t *)"test.b";
    ilp_code code = ilp_end_new(&end, ILP_CLIENT, secret, own, 6, peer, 6, config);
    IS(ilp_free(&end), ILP_DONE);
    return code;
}

/* Structs that begin with their size: of this header, of an older one, and of a later one. */
static void sizes(void) {
    struct {
        ilp_end_config known;
        uint64_t later[2];
    } config = {.known = {.in_flight = 1, .packets = 9, .packet_limit = 9, .least_num = 1, .least_den = 1}};
    struct {
        ilp_failure known;
        uint64_t later;
    } failure = {.later = 7};
    IS(made(&config), ILP_ARGUMENT); /* the size was not set */
    config.known.size = sizeof config.known - 1;
    IS(made(&config), ILP_ARGUMENT);
    config.known.size = sizeof config.known;
    IS(made(&config), ILP_DONE);
    config.later[1] = 1; /* beyond the size: it is not checked */
    IS(made(&config), ILP_DONE);
    config.known.size = sizeof config;
    IS(made(&config), ILP_ARGUMENT); /* a field that this version does not know */
    config.later[1] = 0;
    IS(made(&config), ILP_DONE);
    config.known.size = SIZE_MAX;
    IS(made(&config), ILP_ARGUMENT);
    ilp_end end = new_end();
    IS(ilp_end_last_failure(&end, &failure.known), ILP_ARGUMENT);
    failure.known.size = sizeof failure.known - 1;
    IS(ilp_end_last_failure(&end, &failure.known), ILP_ARGUMENT);
    failure.known.size = sizeof failure;
    IS(ilp_end_last_failure(&end, &failure.known), ILP_IDLE);
    uint32_t stream;
    uint64_t flight;
    size_t len;
    IS(ilp_end_open_stream(&end, &stream), ILP_DONE);
    IS(ilp_end_write(&end, stream, (const uint8_t *)"hi", 2), ILP_DONE);
    IS(ilp_end_send(&end, iv, 0, &flight, &len), ILP_DONE);
    IS(ilp_end_fault(&end, flight), ILP_DONE);
    IS(ilp_end_last_failure(&end, &failure.known), ILP_DONE);
    IS(failure.known.size != sizeof failure.known || failure.later != 7 || failure.known.kind != ILP_LOST, 0);
    IS(ilp_free(&end), ILP_DONE);
}

/* Which streams are open and can be read, and how much one takes. */
static void asked(void) {
    ilp_end end = new_end();
    uint8_t streams[64];
    static uint8_t bytes[262144];
    uint32_t stream;
    size_t len, room;
    IS(ilp_end_streams(&end, NULL, 0, &len), ILP_DONE);
    IS(len != 0, 0);
    IS(ilp_end_room(&end, 1, &room), ILP_NO_STREAM);
    IS(ilp_end_room(&end, 256, &room), ILP_ARGUMENT);
    IS(ilp_end_room(&end, 1, NULL), ILP_NULL);
    IS(ilp_end_open_stream(&end, &stream), ILP_DONE);
    IS(ilp_end_open_stream(&end, &stream), ILP_DONE);
    IS(ilp_end_streams(&end, streams, 1, &len), ILP_ROOM);
    IS(len != 2, 0);
    IS(ilp_end_streams(&end, streams, 64, &len), ILP_DONE);
    IS(len != 2 || streams[0] != 1 || streams[1] != 3, 0);
    IS(ilp_end_ready(&end, streams, 64, &len), ILP_DONE);
    IS(len != 0, 0);
    IS(ilp_end_ready(&end, NULL, 1, &len), ILP_NULL);
    IS(ilp_end_room(&end, 1, &room), ILP_DONE);
    IS(room != sizeof bytes, 0);
    IS(ilp_end_write(&end, 1, bytes, room - 1), ILP_DONE);
    IS(ilp_end_room(&end, 1, &room), ILP_DONE);
    IS(room != 1, 0);
    IS(ilp_end_write(&end, 1, bytes, 2), ILP_FULL);
    IS(ilp_end_write(&end, 1, bytes, 1), ILP_DONE);
    IS(ilp_end_room(&end, 1, &room), ILP_DONE);
    IS(room != 0, 0);
    IS(ilp_end_close(&end, 1), ILP_DONE);
    IS(ilp_end_room(&end, 1, &room), ILP_CLOSED);
    IS(ilp_end_room(&end, 3, &room), ILP_DONE);
    IS(ilp_free(&end), ILP_DONE);
}

/* What is known without a handle. */
static void about(void) {
    IS(strcmp(ilp_version(), ILP_VERSION) != 0, 0);
    IS(strcmp(ilp_error_text(ILP_MISUSE), ilp_error_text(ILP_ARGUMENT)) == 0, 0);
    for (ilp_code code = 0; code < 300; code++) IS(strlen(ilp_error_text(code)) < 10, 0);
    IS(strcmp(ilp_error_text(UINT32_MAX), ilp_error_text(1)) != 0, 0);
    IS(ilp_is_no_memory(ILP_NO_MEMORY) && ilp_is_no_memory(ILP_HOP_NO_MEMORY) && ilp_is_no_memory(ILP_KEYS_NO_MEMORY), 1);
    IS(ilp_is_no_memory(ILP_DONE) || ilp_is_no_memory(ILP_IDLE) || ilp_is_no_memory(UINT32_MAX), 0);
}

/* Frames that are malformed. */
static void bad_frames(void) {
    ilp_packet packet = {0};
    const uint8_t *text = (const uint8_t *)"\xff";
    ilp_header header;
    IS(ilp_packet_new(&packet, 11, 1, 0), ILP_ARGUMENT);
    IS(ilp_packet_read(&packet, 15, text, 1), ILP_ARGUMENT);
    IS(ilp_packet_new(&packet, 12, 1, 0), ILP_DONE);
    IS(ilp_packet_push(&packet, &(ilp_frame){.kind = 0x05}, NULL, 0), ILP_ARGUMENT);
    IS(ilp_packet_push(&packet, &(ilp_frame){.kind = 0x101}, NULL, 0), ILP_ARGUMENT);
    IS(ilp_packet_push(&packet, &(ilp_frame){.kind = ILP_CONNECTION_CLOSE, .code = 256}, NULL, 0), ILP_ARGUMENT);
    IS(ilp_packet_push(&packet, &(ilp_frame){.kind = ILP_CONNECTION_CLOSE, .code = 1}, text, 1), ILP_ARGUMENT);
    IS(ilp_packet_push(&packet, &(ilp_frame){.kind = ILP_CONNECTION_CLOSE, .stream = 1}, NULL, 0), ILP_ARGUMENT);
    IS(ilp_packet_push(&packet, &(ilp_frame){.kind = ILP_STREAM_MONEY, .second = 1}, NULL, 0), ILP_ARGUMENT);
    IS(ilp_packet_push(&packet, &(ilp_frame){.kind = ILP_STREAM_DATA, .code = 1}, NULL, 0), ILP_ARGUMENT);
    IS(ilp_packet_push(&packet, &(ilp_frame){.kind = ILP_STREAM_MONEY, .stream = 1}, text, 1), ILP_ARGUMENT);
    IS(ilp_packet_push(&packet, &(ilp_frame){.kind = ILP_CONNECTION_NEW_ADDRESS}, (const uint8_t *)".", 1), ILP_FRAME);
    IS(ilp_packet_push(&packet, &(ilp_frame){.kind = ILP_STREAM_DATA, .stream = 1}, text, 1), ILP_DONE);
    IS(ilp_packet_header(&packet, &header), ILP_DONE);
    IS(header.frames != 1, 0);
    IS(ilp_free(&packet), ILP_DONE);
}

/* ---- threads */

static ilp_keys busy;
static uint8_t *page;
static sem_t is_inside, goes_on;

enum { PAGE = 4096 };

/* The thread that reads the page waits here, in the middle of its call, until it may continue. */
static void stands(int unused) {
    (void)unused;
    sem_post(&is_inside);
    while (sem_wait(&goes_on)) continue;
    if (mprotect(page, PAGE, PROT_READ | PROT_WRITE)) _exit(1);
}

static void *seals(void *unused) {
    size_t len;
    (void)unused;
    if (ilp_keys_seal(&busy, iv, page, PAGE, &len) != ILP_DONE) exit(1);
    return NULL;
}

/* A call on an object that another thread's call has is refused, and so is a free; then it can be repeated. */
static void in_use(void) {
    pthread_t thread;
    uint8_t fulfillment[32];
    struct sigaction action = {.sa_handler = stands}, before;
    busy = new_keys();
    ilp_keys copy = busy;
    page = mmap(NULL, PAGE, PROT_READ | PROT_WRITE, MAP_PRIVATE | MAP_ANONYMOUS, -1, 0);
    if (page == MAP_FAILED || sem_init(&is_inside, 0, 0) || sem_init(&goes_on, 0, 0)) exit(1);
    /* (only now: valgrind takes each read of a page that never was readable for an error) */
    if (mprotect(page, PAGE, PROT_NONE)) exit(1);
    if (sigaction(SIGSEGV, &action, &before) || pthread_create(&thread, NULL, seals, NULL)) exit(1);
    while (sem_wait(&is_inside)) continue;
    IS(ilp_keys_fulfillment(&busy, NULL, 0, fulfillment), ILP_BUSY);
    IS(ilp_free(&copy), ILP_BUSY);
    sem_post(&goes_on);
    pthread_join(thread, NULL);
    if (sigaction(SIGSEGV, &before, NULL) || munmap(page, PAGE)) exit(1);
    IS(ilp_keys_fulfillment(&busy, NULL, 0, fulfillment), ILP_DONE);
    IS(ilp_free(&busy), ILP_DONE);
}

static _Atomic uint64_t shared[SHARED];
static unsigned long rounds = 20000;

/* Makes, uses and frees the objects of handles that all threads have. */
static void *works(void *given) {
    uint64_t state = (uint64_t)(size_t)given;
    for (unsigned long round = 0; round < rounds; round++) {
        state = state * 6364136223846793005u + 1442695040888963407u;
        _Atomic uint64_t *place = &shared[(state >> 33) % SHARED];
        ilp_keys keys = {*place};
        ilp_code code;
        if (keys.inner == 0) {
            ilp_packet packet = {0};
            if (state >> 63) {
                code = ilp_packet_new(&packet, 12, 1, 0);
                keys.inner = packet.inner;
            } else {
                code = ilp_keys_new(&keys, secret);
            }
            uint64_t none = 0;
            if (code != ILP_DONE) exit(1);
            if (!atomic_compare_exchange_strong(place, &none, keys.inner) && ilp_free(&keys) != ILP_DONE) exit(1);
        } else if (state >> 62) {
            code = sealed(&keys);
            if (code != ILP_DONE && code != ILP_MISUSE && code != ILP_BUSY) exit(1);
        } else {
            uint64_t number = keys.inner;
            code = ilp_free(&keys);
            if (code == ILP_DONE) atomic_compare_exchange_strong(place, &number, 0);
            else if (code != ILP_MISUSE && code != ILP_BUSY) exit(1);
        }
    }
    return NULL;
}

static void shared_by_threads(void) {
    pthread_t threads[THREADS];
    for (size_t it = 0; it < THREADS; it++)
        if (pthread_create(&threads[it], NULL, works, (void *)(it + 1))) exit(1);
    for (size_t it = 0; it < THREADS; it++) pthread_join(threads[it], NULL);
    for (size_t it = 0; it < SHARED; it++) {
        ilp_keys keys = {shared[it]};
        IS(ilp_free(&keys), ILP_DONE);
    }
}

/* More objects than the first row of the table has slots, and all of them at once. */
static void many(void) {
    enum { COUNT = 3000 };
    static ilp_keys keys[COUNT];
    for (size_t it = 0; it < COUNT; it++) keys[it] = new_keys();
    for (size_t it = 0; it < COUNT; it++) IS(sealed(&keys[it]), ILP_DONE);
    for (size_t it = 0; it < COUNT; it++) IS(ilp_free(&keys[it]), ILP_DONE);
}

int main(int argc, char **argv) {
    if (argc > 1) rounds = strtoul(argv[1], NULL, 10);
    freed_twice();
    used_after_a_free();
    made_over_another();
    of_another_kind();
    hops_with_books();
    never_made();
    null_pointers();
    too_many();
    sizes();
    asked();
    about();
    bad_frames();
    in_use();
    many();
    shared_by_threads();
    printf("%u calls were answered as they should be\n", tried);
    return 0;
}
