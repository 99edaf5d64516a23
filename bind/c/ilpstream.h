/* Interledger STREAM (RFC 0029) and the connector between its ends (RFC 0027): ends of a connection and hops, proved in Rattle,
 * for hosts in C. There is no I/O here, no clock, no thread and no random number: bytes, times and IVs are arguments.
 * docs/EMBEDDING.md says how to build it, and docs/COMPARED.md compares the calls with those of other libraries.
 *
 * Handles. A handle is a struct of one number. It begins as {0}, which is the handle of nothing, and *_new fills it. It may be
 * moved and copied: copies are handles of one object. ilp_free frees the object and makes its own copy {0}; for the others, and
 * for any number that no call gave, each call is ILP_MISUSE from then on, also when new objects were made since. The same holds
 * of a call on {0}, on a handle of another kind, and on a null pointer. An object may be used by any thread, and has one call at
 * a time: a second one meanwhile is ILP_BUSY, and can be repeated. A call whose handle is `const` only asks: it leaves the object
 * as it is, but it is one call at a time as well.
 *
 * Codes. Each call returns ILP_DONE or another number. ILP_IDLE, ILP_ENDED, ILP_ABORTED and ILP_ONWARD are answers. All others
 * are refusals: the handle's object is then as before the call. A number out of its range, as a stream above 255 or a negative
 * time, is ILP_ARGUMENT. If a call does not return the code for which a parameter is described, what that parameter points to has
 * no meaning. ilp_error_text has each code in words, and ilp_is_no_memory says of a refusal whether the call can be repeated once
 * there is memory.
 *
 * Structs that may grow, ilp_end_config and ilp_failure, begin with their size, which the caller sets: `sizeof` of the struct. A
 * size that is smaller than this header's is ILP_ARGUMENT. The same holds of a config that is larger and has other bytes than 0
 * beyond what the library knows. Of a larger failure the library fills what it knows, and sets `size` to how many bytes that are.
 *
 * Output. Bytes that a call returns are its output: they stay in the object until the next call that outputs bytes, and
 * ilp_output copies them, as often as it is called. A call that outputs bytes also says how many.
 *
 * Flights and tickets. ilp_end_send says a number of the flight, and ilp_hop_arrive a number of the ticket. Each is settled once:
 * by ilp_end_answer or ilp_end_fault, and by ilp_hop_settle, ilp_hop_fault or ilp_hop_abandon. Afterwards, and for any other
 * number, the answer is ILP_UNKNOWN.
 *
 * Pointers. A null pointer is ILP_NULL if an object is needed there; the pointer to zero bytes may be null.
 *
 * What no number refuses, and the caller has to take care of: a pointer that dangles, or to fewer bytes than is said; parameters
 * that overlap; memory that malloc and free do not give and take as the C standard says. Two packets of a connection with the
 * same IV give away their contents and the key of their authentication: see ilp_end_send.
 *
 * Memory. Each block that the library gives back was overwritten, and so was the part of the stack that a call with keys used. A
 * thread needs 160 KiB of stack for ilp_end_new and ilp_keys_new, and 20 KiB for the other calls, in addition to its own.
 * ilpstream_memory.h has the functions by which libilpstream.a allocates, which a program may define itself.
 *
 * Units. Amounts are in the smallest unit of the asset of their link. Times are milliseconds since 1970-01-01 00:00 UTC, from 0
 * to 253,402,300,000,000. */
#ifndef ILPSTREAM_H
#define ILPSTREAM_H
#include <stddef.h>
#include <stdint.h>
#ifdef __cplusplus
extern "C" {
#endif

/* The version of this header. While MAJOR is 0, a higher MINOR may change calls. */
#define ILP_VERSION "0.1.0"
#define ILP_VERSION_MAJOR 0
#define ILP_VERSION_MINOR 1
#define ILP_VERSION_PATCH 0

/* What a call returns; docs/ERRORS.md says more of each. */
typedef uint32_t ilp_code;
enum {
    ILP_DONE = 0,            /* the call did what it is for */
    /* refusals of reading and writing ILP packets */
    ILP_OER = 10,              /* a field, or the octets around the fields, are malformed (RFC 0030) */
    ILP_KIND = 11,             /* the packet is of another kind */
    ILP_EXPIRY = 12,           /* an expiry is not a date and time of the years 0000 to 9999 */
    ILP_ADDRESS = 13,          /* an address is malformed */
    ILP_DATA_TOO_LONG = 14,    /* the data has more than 32,767 bytes, or a message to be written more than 8,191 */
    ILP_NOT_UTF8 = 15,         /* a message is not UTF-8 */
    ILP_CODE = 16,             /* an error code has a character outside ! to ~ */
    ILP_TRAILING = 17,         /* bytes follow the last field or the packet */
    ILP_PACKET_NO_MEMORY = 18, /* out of memory */
    /* refusals of STREAM packets */
    ILP_STREAM_VERSION = 20,   /* the packet is of another version of STREAM than 1 */
    ILP_STREAM_KIND = 21,      /* the packet is of another kind than the ILP packet that carried it */
    ILP_STREAM_OER = 22,       /* a number, a frame's type or a frame's length is malformed (RFC 0030) */
    ILP_FRAME = 23,            /* a frame's contents are malformed, or its address is not an address */
    ILP_STREAM_TOO_LONG = 24,  /* the packet has more than 32,739 bytes */
    ILP_STREAM_NO_MEMORY = 25, /* out of memory */
    /* refusals of keys */
    ILP_SHORT = 30,            /* the payload has fewer than 28 bytes: no IV and tag */
    ILP_TAG = 31,              /* the tag of the payload is wrong */
    ILP_KEYS_NO_MEMORY = 33,   /* out of memory */
    /* refusals of a hop */
    ILP_BAD_TABLE = 34,      /* a prefix is there twice, a route names no account, or a limit is above 2^63 - 1 */
    ILP_HOP_NO_MEMORY = 35,  /* out of memory */
    ILP_NO_ACCOUNT = 36,     /* there is no account of this number */
    ILP_BAD_BOOKS = 37,      /* an account lacks its claim or due or is past its limit, or a sum is above 2^63 - 1 */
    /* refusals of an end */
    ILP_NO_STREAM = 50,      /* the stream is not open, or all stream numbers of this end are used: 32 */
    ILP_CLOSED = 51,         /* the stream was closed or aborted at this end, or the peer closed the connection */
    ILP_FULL = 52,           /* more than 262,144 bytes of the stream would wait for an acknowledgement */
    ILP_AMOUNT = 53,         /* all offers together would be 2^63 units or more */
    ILP_NO_MEMORY = 54,      /* out of memory */
    ILP_FAILED = 58,         /* the connection failed */
    /* refusals of a message of HTTP */
    ILP_BAD_HEAD = 82,         /* the head of a response is malformed */
    ILP_STATUS = 83,           /* a request is refused by a status, or a response has a status other than 200 */
    ILP_TOO_LONG = 84,         /* the body of a response is longer than 65,535 bytes */
    ILP_HTTP_NO_MEMORY = 87,   /* out of memory */
    /* answers and refusals of this boundary */
    ILP_IDLE = 100,          /* nothing is to be sent, or can be read yet */
    ILP_MISUSE = 101,        /* the handle is empty, freed, or of another kind; for *_new, it is not empty */
    ILP_ARGUMENT = 102,      /* an argument is out of its range */
    ILP_ROOM = 103,          /* the buffer is too small; nothing was copied */
    ILP_UNKNOWN = 104,       /* there is no such open flight or ticket */
    ILP_ENDED = 105,         /* all bytes were read, and the peer closed the stream */
    ILP_ABORTED = 106,       /* the peer aborted the stream */
    ILP_ONWARD = 107,        /* the bytes are to be forwarded to another account */
    ILP_BUSY = 108,          /* another call has the object */
    ILP_NULL = 109           /* a pointer is null, or a length is above 2^63 - 1 bytes */
};

/* ---- without a handle
 *
 * These calls may be made at any time, by any thread. What they return stays valid. */

/* The version of the library, which is ILP_VERSION of the header that it was built with. */
const char *ilp_version(void);

/* A code in English, in one sentence or two. Never null: there is a text for any other number too. */
const char *ilp_error_text(ilp_code code);

/* 1 if the code says that memory was refused, whichever part of the library was refused it: ILP_NO_MEMORY, ILP_HOP_NO_MEMORY,
 * ILP_KEYS_NO_MEMORY, ILP_STREAM_NO_MEMORY, ILP_PACKET_NO_MEMORY, ILP_HTTP_NO_MEMORY. Otherwise 0. */
int ilp_is_no_memory(ilp_code code);

/* ---- handles of any kind */

/* Frees the handle's object, and leaves the handle empty. The parameter is the address of a handle: ilp_free(&end). ILP_DONE
 * also for a null pointer and for an empty handle, so that a second ilp_free of one variable does nothing. ILP_MISUSE for a
 * copy of a handle that was freed; ILP_BUSY, after which it is not freed. */
ilp_code ilp_free(void *handle);

/* Copies the bytes that the last call output to the front of a buffer of `room` bytes; `len` is how many they are. ILP_ROOM
 * if the buffer has fewer: then nothing is copied, and `len` is how many are needed. Before the first call that outputs
 * bytes there are none. The bytes stay output. */
ilp_code ilp_output(const void *handle, uint8_t *out, size_t room, size_t *len);

/* ---- an end of a STREAM connection (RFC 0029) */

typedef struct ilp_end { uint64_t inner; } ilp_end;

enum { ILP_CLIENT = 0, ILP_SERVER = 1 };

/* How an end sends. `size` is sizeof(ilp_end_config). `in_flight` is how many Prepares may wait for their answer at once, 1 to
 * 64; `packets` how many it sends in all, 1 to 2^31 - 1; `packet_limit` the greatest amount of one Prepare at the start, 1 to
 * 2^63 - 1. The prepare amount of a packet, which is the least that has to arrive (RFC 0029, section 5.2), is its amount times
 * `least_num` / `least_den`, rounded down; neither of the two is 0, and 1 / 1 has all of it arrive. */
typedef struct ilp_end_config {
    size_t size;
    size_t in_flight;
    uint64_t packets;
    uint64_t packet_limit;
    uint32_t least_num;
    uint32_t least_den;
} ilp_end_config;

/* Makes an end in an empty handle. `role` is ILP_CLIENT, whose streams are odd, or ILP_SERVER, whose streams are even.
 * `secret` has 32 bytes, which both ends share. `own` and `peer` are the ILP addresses (RFC 0015) of this end and of the
 * other, of `own_len` and `peer_len` bytes. ILP_ARGUMENT if one of them is not an address, or a number is out of its range;
 * ILP_MISUSE if the handle is not empty; ILP_NO_MEMORY. */
ilp_code ilp_end_new(ilp_end *end, uint32_t role, const uint8_t secret[32], const uint8_t *own, size_t own_len,
                     const uint8_t *peer, size_t peer_len, const ilp_end_config *config);

/* Opens the next of this end's own streams, of which `stream` is the number: 1, 3, .. of a client and 2, 4, .. of a server,
 * at most 64. ILP_NO_STREAM if all are used; ILP_CLOSED, ILP_FAILED, ILP_NO_MEMORY. */
ilp_code ilp_end_open_stream(ilp_end *end, uint32_t *stream);

/* Accepts `len` bytes that are to be sent on a stream: all of them, or none if it is refused. ILP_NO_STREAM, ILP_CLOSED,
 * ILP_FULL, ILP_FAILED, ILP_NO_MEMORY. */
ilp_code ilp_end_write(ilp_end *end, uint32_t stream, const uint8_t *bytes, size_t len);

/* How many bytes ilp_end_write accepts on a stream at most: `room`, 0 to 262,144. A longer write is ILP_FULL; one of `room` bytes
 * or fewer is not, until the end sends or writes again. To write a part of what there is, ask for the room first. ILP_NO_STREAM,
 * ILP_CLOSED, ILP_FAILED. */
ilp_code ilp_end_room(const ilp_end *end, uint32_t stream, size_t *room);

/* Closes a stream once all that was written and offered is delivered. ILP_NO_STREAM, ILP_CLOSED, ILP_FAILED. */
ilp_code ilp_end_close(ilp_end *end, uint32_t stream);

/* Aborts a stream with a code of RFC 0029, section 5.4, other than 1: 0 to 255. ILP_NO_STREAM, ILP_CLOSED, ILP_FAILED. */
ilp_code ilp_end_abort(ilp_end *end, uint32_t stream, uint32_t code);

/* Offers `amount` units on a stream, in addition to what was offered before. ILP_NO_STREAM, ILP_CLOSED, ILP_AMOUNT,
 * ILP_FAILED. */
ilp_code ilp_end_offer(ilp_end *end, uint32_t stream, uint64_t amount);

/* Lets a stream receive up to `amount` units in all; before the first such call it receives none. The stream is open, or one
 * that the peer may open. ILP_NO_STREAM. */
ilp_code ilp_end_set_receive_max(ilp_end *end, uint32_t stream, uint64_t amount);

/* Outputs the first bytes that can be read on a stream, at most `max`, which is not 0. ILP_DONE: `len` is how many, at least
 * 1. ILP_IDLE: none yet. ILP_ENDED: all were read, and the peer closed the stream. ILP_ABORTED: the peer aborted the stream,
 * and `code` is its code. ILP_NO_STREAM, ILP_NO_MEMORY. */
ilp_code ilp_end_read(ilp_end *end, uint32_t stream, size_t max, size_t *len, uint64_t *code);

/* Which streams can be read: copies their numbers to the front of a buffer of `room` bytes, a byte each, rising; `len` is how
 * many they are, and 64 bytes always suffice. On each of them ilp_end_read would be ILP_DONE, ILP_ENDED or ILP_ABORTED, and on
 * all others ILP_IDLE or ILP_NO_STREAM. A stream whose end was read stays in the list. ILP_ROOM if the buffer has fewer bytes:
 * then nothing is copied, and `len` is how many are needed. ILP_NO_MEMORY. */
ilp_code ilp_end_ready(const ilp_end *end, uint8_t *streams, size_t room, size_t *len);

/* Which streams are open, those of both ends, in the same way. A stream that a caller does not know yet was opened by the peer
 * meanwhile. */
ilp_code ilp_end_streams(const ilp_end *end, uint8_t *streams, size_t room, size_t *len);

/* Outputs the bytes of the next ILP Prepare, which is to be sent to the peer: `len` is how many, and `flight` the number by
 * which the answer is reported. `iv` has 12 bytes: no two packets of a connection, of either end, may have the same, so take
 * them from the system's random bytes. `now` is the time; the Prepare expires 30 seconds later. ILP_IDLE: nothing is to
 * be sent now. ILP_NO_MEMORY. */
ilp_code ilp_end_send(ilp_end *end, const uint8_t iv[12], int64_t now, uint64_t *flight, size_t *len);

/* Takes the `len` bytes of the answer to a flight: `fulfilled` is 1 if they are a Fulfill whose fulfillment fits, else 0.
 * The bytes are decrypted where they lie. ILP_UNKNOWN. */
ilp_code ilp_end_answer(ilp_end *end, uint64_t flight, uint8_t *bytes, size_t len, uint32_t *fulfilled);

/* No answer arrived to a flight, and none is waited for: what it carries is sent again. ILP_UNKNOWN. */
ilp_code ilp_end_fault(ilp_end *end, uint64_t flight);

/* What an end did with a Prepare. `len` is how many bytes its answer has. `reason` is 0 for a Fulfill, and else why it is a
 * Reject (docs/ERRORS.md, "Of an end"). `amount` is the amount of the Prepare, 0 if it cannot be read. `opened` is 1 if
 * its STREAM packet was decrypted and read, else 0; `sequence` is then the number of that packet. */
typedef struct ilp_received {
    size_t len;
    uint64_t amount;
    uint64_t sequence;
    uint32_t reason;
    uint32_t opened;
} ilp_received;

/* Outputs the answer to the `len` bytes of an ILP Prepare that came from the peer at the time `now`; the answer is to be sent
 * back. ILP_NO_MEMORY: answer it with the bytes of ilp_end_t00, and the peer sends again. */
ilp_code ilp_end_receive(ilp_end *end, const uint8_t *bytes, size_t len, int64_t now, ilp_received *received);

/* Copies a Reject T00 that is kept ready, for use if memory is refused, as ilp_output does. */
ilp_code ilp_end_t00(const ilp_end *end, uint8_t *out, size_t room, size_t *len);

/* What an end did so far. `accepted` is how many bytes were written at this end, and `delivered` how many it gave to its
 * reader; `credited` is how many units it received, and `paid` how many of its own were fulfilled. */
typedef struct ilp_totals {
    uint64_t accepted;
    uint64_t delivered;
    uint64_t credited;
    uint64_t paid;
} ilp_totals;

ilp_code ilp_end_totals(const ilp_end *end, ilp_totals *totals);

/* `answer` is 1 if a stream is open at this end, else 0. */
ilp_code ilp_end_has_stream(const ilp_end *end, uint32_t stream, uint32_t *answer);

/* `answer` is 1 if this end's own close of a stream was fulfilled, else 0. */
ilp_code ilp_end_settled(const ilp_end *end, uint32_t stream, uint32_t *answer);

/* `answer` is 1 if the connection failed, else 0: 200 Prepares in a row without a Fulfill, or a final Reject code. */
ilp_code ilp_end_is_failed(const ilp_end *end, uint32_t *answer);

/* What `kind` is of an ilp_failure. */
enum {
    ILP_LOST = 1,       /* no answer arrived */
    ILP_UNREADABLE = 2, /* what arrived is neither a Fulfill nor a Reject */
    ILP_UNFIT = 3,      /* a Fulfill arrived whose fulfillment does not fit the condition */
    ILP_REJECTED = 4    /* a Reject arrived */
};

/* Why a Prepare failed. `size` is sizeof(ilp_failure), set before the call. Of a Reject it has the code, such as T04;
 * triggeredBy, the ILP address of whoever refused, in the first `by_len` bytes of `by`; and the first 255 bytes of the message,
 * in the first `message_len` bytes of `message`. Whoever refused chose the message: it may have any characters, and its last
 * one may be cut. Of anything else all of these are 0. No text ends with a 0. */
typedef struct ilp_failure {
    size_t size;
    uint32_t kind;
    uint8_t code[3];
    size_t by_len;
    size_t message_len;
    uint8_t by[1023];
    uint8_t message[255];
} ilp_failure;

/* Why the last Prepare of this end that failed did so. A later Fulfill does not change it. ILP_IDLE: none failed yet.
 * ILP_ARGUMENT: `size` of the failure was not set. */
ilp_code ilp_end_last_failure(const ilp_end *end, ilp_failure *failure);

/* ---- a hop: the connector between a sender and a receiver (RFC 0027) */

typedef struct ilp_hop { uint64_t inner; } ilp_hop;

/* A neighbour's terms. `limit` is how much it may owe the hop beyond what the hop owes it, at most 2^63 - 1; `max_packet` the
 * greatest amount of one Prepare from it. Both in units of its link. */
typedef struct ilp_account {
    uint64_t limit;
    uint64_t max_packet;
} ilp_account;

/* A route. Its prefix, an ILP address, is the next `prefix_len` bytes of a text that all routes share. `account` is the one that
 * a Prepare is forwarded to whose destination has the prefix; if several do, the longest one counts. The amount that is forwarded
 * is that which arrived times `num` / `den`, rounded down; neither of the two is 0. */
typedef struct ilp_route {
    size_t prefix_len;
    size_t account;
    uint32_t num;
    uint32_t den;
} ilp_route;

/* Makes a hop in an empty handle: its own ILP address, its accounts, numbered from 0, and its routes, whose prefixes are one
 * after another in `prefixes`. Nothing is owed yet. ILP_ARGUMENT if `own` or a prefix is not an ILP address, a `num` or `den` is
 * 0, or the lengths of the prefixes are not together `prefixes_len`; ILP_BAD_TABLE; ILP_MISUSE if the handle is not empty;
 * ILP_HOP_NO_MEMORY. */
ilp_code ilp_hop_new(ilp_hop *hop, const uint8_t *own, size_t own_len, const ilp_account *accounts, size_t accounts_len,
                     const uint8_t *prefixes, size_t prefixes_len, const ilp_route *routes, size_t routes_len);

/* The same with the books of an earlier hop: `claims` is what each account owes the hop, by its number, and `dues` what the hop
 * owes it. No ticket is open. Tickets are numbered from `next` on, which has to be above each number that an earlier hop with
 * these books gave out, so that no late answer settles another ticket. Refused as ilp_hop_new is, and ILP_BAD_BOOKS if not
 * each account has a claim and a due, one owes more than its limit beyond its due, or a sum is above 2^63 - 1. */
ilp_code ilp_hop_restored(ilp_hop *hop, const uint8_t *own, size_t own_len, const ilp_account *accounts, size_t accounts_len,
                          const uint8_t *prefixes, size_t prefixes_len, const ilp_route *routes, size_t routes_len,
                          const uint64_t *claims, size_t claims_len, const uint64_t *dues, size_t dues_len, uint64_t next);

/* Forgets every open ticket, as a crash and a start with the same books do. Claims and dues stay, nothing is reserved any more,
 * and the numbers of tickets continue: the answer to an earlier Prepare is ILP_UNKNOWN. */
ilp_code ilp_hop_restart(ilp_hop *hop);

/* What a hop did with a Prepare. `len` is how many bytes were output. If they are to be forwarded, `ticket` is the number by
 * which the answer is reported, and `account` the one to forward them to. */
typedef struct ilp_arrived {
    size_t len;
    size_t account;
    uint64_t ticket;
} ilp_arrived;

/* Takes the `len` bytes of an ILP Prepare that came from an account at the time `now`. ILP_DONE: what was output is a Reject,
 * which is to be sent back. ILP_ONWARD: it is a Prepare, which is to be sent on to another account; the amount is reserved
 * against the first one until the ticket is settled. ILP_NO_ACCOUNT. ILP_HOP_NO_MEMORY: answer it with the bytes of
 * ilp_hop_t00, and the sender sends again. */
ilp_code ilp_hop_arrive(ilp_hop *hop, size_t account, const uint8_t *bytes, size_t len, int64_t now, ilp_arrived *arrived);

/* What a ticket books: the account `payer`, from which the Prepare arrived, owes `claim` more, and `payee`, to which it was
 * forwarded, is owed `due` more, each in units of its link. `books` is 1; if nothing is booked, all are 0. */
typedef struct ilp_booking {
    size_t payer;
    uint64_t claim;
    size_t payee;
    uint64_t due;
    uint32_t books;
} ilp_booking;

/* What ilp_hop_settle would book with the same arguments. It changes nothing. A host that keeps books of its own asks this,
 * stores the booking, settles the ticket with the same bytes and the same `now`, and then sends the answer back. ILP_UNKNOWN,
 * ILP_HOP_NO_MEMORY. */
ilp_code ilp_hop_books(const ilp_hop *hop, uint64_t ticket, const uint8_t *bytes, size_t len, int64_t now, ilp_booking *booking);

/* Takes the `len` bytes of the answer to a Prepare that was forwarded under a ticket, and outputs the answer to the Prepare
 * that had come: `answer_len` is how many bytes it has. A Fulfill that fits and came in time is booked; all else is a Reject.
 * What was reserved is released. ILP_UNKNOWN, ILP_HOP_NO_MEMORY. */
ilp_code ilp_hop_settle(ilp_hop *hop, uint64_t ticket, const uint8_t *bytes, size_t len, int64_t now, size_t *answer_len);

/* The same if no answer arrived, and none is waited for: what is output is a Reject T01. ILP_UNKNOWN. */
ilp_code ilp_hop_fault(ilp_hop *hop, uint64_t ticket, size_t *answer_len);

/* Gives up a ticket without an answer. The amount stays reserved. ILP_UNKNOWN. */
ilp_code ilp_hop_abandon(ilp_hop *hop, uint64_t ticket);

/* Copies a Reject T00 that is kept ready, for use if memory is refused, as ilp_output does. */
ilp_code ilp_hop_t00(const ilp_hop *hop, uint8_t *out, size_t room, size_t *len);

/* What an account owes the hop, what the hop owes it, and what is reserved of it, in units of its link. */
typedef struct ilp_balances {
    uint64_t claims;
    uint64_t dues;
    uint64_t held;
} ilp_balances;

/* ILP_NO_ACCOUNT. */
ilp_code ilp_hop_balances(const ilp_hop *hop, size_t account, ilp_balances *balances);

/* ---- keys of a connection: sealed packets, fulfillments and conditions (RFC 0029, RFC 0027) */

typedef struct ilp_keys { uint64_t inner; } ilp_keys;

/* Makes the keys of a connection in an empty handle, from the shared secret. The secret is not stored. ILP_MISUSE if the
 * handle is not empty; ILP_KEYS_NO_MEMORY. */
ilp_code ilp_keys_new(ilp_keys *keys, const uint8_t secret[32]);

/* Outputs the payload of a plain text of `len` bytes: the IV, the tag of 16 bytes, and the ciphertext. `payload_len` is how
 * many bytes it has: 28 more than the text. The text is not inspected: mostly it is what ilp_packet_write outputs.
 * No two payloads of a connection may have the same IV. ILP_KEYS_NO_MEMORY. */
ilp_code ilp_keys_seal(ilp_keys *keys, const uint8_t iv[12], const uint8_t *text, size_t len, size_t *payload_len);

/* Outputs the plain text of a payload of `len` bytes. `text_len` is how many bytes it has: 28 less than the payload.
 * ILP_SHORT: the payload has fewer than 28 bytes. ILP_TAG: its tag does not match its ciphertext. ILP_KEYS_NO_MEMORY. */
ilp_code ilp_keys_open(ilp_keys *keys, const uint8_t *payload, size_t len, size_t *text_len);

/* The fulfillment of a Prepare whose data is this payload of `len` bytes, as it is sent. */
ilp_code ilp_keys_fulfillment(const ilp_keys *keys, const uint8_t *payload, size_t len, uint8_t fulfillment[32]);

/* The condition of a fulfillment: its SHA-256 digest. It needs no handle. */
ilp_code ilp_condition(const uint8_t fulfillment[32], uint8_t condition[32]);

/* ---- plain STREAM packets, frame by frame (RFC 0029, sections 5.2 and 5.3)
 *
 * A plain packet is what ilp_keys_seal encrypts and ilp_keys_open decrypts: the payload of an ILP packet. */

typedef struct ilp_packet { uint64_t inner; } ilp_packet;

/* The frame types. Frames of other types are skipped by a reader, and cannot be added. */
enum {
    ILP_CONNECTION_CLOSE = 0x01,        /* code; the data is a message */
    ILP_CONNECTION_NEW_ADDRESS = 0x02,  /* the data is an ILP address, or empty */
    ILP_CONNECTION_MAX_DATA = 0x03,     /* first: max offset */
    ILP_CONNECTION_DATA_BLOCKED = 0x04, /* first: max offset */
    ILP_STREAM_CLOSE = 0x10,            /* stream, code; the data is a message */
    ILP_STREAM_MONEY = 0x11,            /* stream; first: shares */
    ILP_STREAM_MAX_MONEY = 0x12,        /* stream; first: receive max, second: total received */
    ILP_STREAM_MONEY_BLOCKED = 0x13,    /* stream; first: send max, second: total sent */
    ILP_STREAM_DATA = 0x14,             /* stream; first: offset; the data is bytes of the stream */
    ILP_STREAM_MAX_DATA = 0x15,         /* stream; first: max offset */
    ILP_STREAM_DATA_BLOCKED = 0x16      /* stream; first: max offset */
};

/* A frame: its type `kind`, and what that has of a stream number, of two numbers and of a code of 0 to 255. What it does not
 * have is 0. A max offset, receive max, total received, send max or total sent is 2^64 - 1 if the packet that was read has
 * a greater number. The frame's text, address or data lies outside. */
typedef struct ilp_frame {
    uint64_t stream;
    uint64_t first;
    uint64_t second;
    uint32_t kind;
    uint32_t code;
} ilp_frame;

/* The numbers of a packet. `kind` is that of the ILP packet that carries it: 12 Prepare, 13 Fulfill, 14 Reject. A reply has the
 * `sequence` of its request. `amount` is in a Prepare the least that the receiver should accept, in a reply what arrived, in
 * units of the receiver's asset. `frames` is how many frames of known types it has. */
typedef struct ilp_header {
    uint64_t sequence;
    uint64_t amount;
    size_t frames;
    uint32_t kind;
} ilp_header;

/* Makes a packet without frames in an empty handle. ILP_ARGUMENT if the kind is not 12, 13 or 14; ILP_MISUSE if the handle
 * is not empty; ILP_STREAM_NO_MEMORY. */
ilp_code ilp_packet_new(ilp_packet *packet, uint32_t kind, uint64_t sequence, uint64_t amount);

/* Reads all of the `len` bytes as a plain packet that an ILP packet of this kind carried, and makes it in an empty handle. Bytes
 * after the last frame are ignored. ILP_STREAM_TOO_LONG, ILP_STREAM_VERSION, ILP_STREAM_KIND, ILP_STREAM_OER, ILP_FRAME: the
 * first fault, in this order. ILP_ARGUMENT if the kind is not 12, 13 or 14; ILP_MISUSE if the handle is not empty;
 * ILP_STREAM_NO_MEMORY. */
ilp_code ilp_packet_read(ilp_packet *packet, uint32_t kind, const uint8_t *bytes, size_t len);

ilp_code ilp_packet_header(const ilp_packet *packet, ilp_header *header);

/* Adds a frame, whose text, address or data has `len` bytes, after the others. ILP_ARGUMENT if the type is not known, a value
 * is given that the type does not have, the code is above 255, or a message or an address is not UTF-8. ILP_FRAME if an
 * address is neither empty nor an ILP address. ILP_STREAM_NO_MEMORY. */
ilp_code ilp_packet_push(ilp_packet *packet, const ilp_frame *frame, const uint8_t *data, size_t len);

/* Reports the known frame at a place, counted from 0, and outputs its text, address or data: `len` is how many bytes that are.
 * `index` is counted over all frames, also those that were skipped, of the packet that was read; that of a frame that was added
 * is how many known frames there were. ILP_ARGUMENT if there are fewer known frames; ILP_STREAM_NO_MEMORY. */
ilp_code ilp_packet_frame(ilp_packet *packet, size_t place, ilp_frame *frame, uint64_t *index, size_t *len);

/* Outputs the bytes of the packet, in the shortest encoding: `len` is how many they are. ILP_STREAM_TOO_LONG if they would
 * be more than 32,739; ILP_STREAM_NO_MEMORY. */
ilp_code ilp_packet_write(ilp_packet *packet, size_t *len);

/* ---- ILP packets (RFC 0027, RFC 0030)
 *
 * These calls need no handle and keep nothing. In a struct, a part of a packet is `.._at`, at which offset it begins in the bytes
 * that were read, and `.._len`, how many bytes it has. What is written goes to the front of the caller's buffer of `room` bytes,
 * and `len` is how many bytes that are. ILP_ROOM if the buffer has fewer: then nothing is written, and `len` is how many are
 * needed. */

/* An ILP Prepare. `amount` is in units of the asset that the two neighbours share, `expiry` a time. `condition` is the SHA-256
 * digest of the fulfillment. The destination is the ILP address of the receiver (RFC 0015), and the payload is data for it:
 * at most 32,767 bytes. */
typedef struct ilp_prepare {
    uint64_t amount;
    int64_t expiry;
    uint8_t condition[32];
    size_t destination_at;
    size_t destination_len;
    size_t payload_at;
    size_t payload_len;
} ilp_prepare;

/* The answer to a Prepare. `kind` is 13 for a Fulfill, which has a fulfillment, and 14 for a Reject. A Reject has a code of
 * three characters, such as F02; triggeredBy (`by`), the address of the node that made it, or nothing; and a message for
 * people, in UTF-8. The parts that the other kind has are 0. The payload is data for the sender of the Prepare: at most 32,767
 * bytes. */
typedef struct ilp_answer {
    uint32_t kind;
    uint8_t fulfillment[32];
    uint8_t code[3];
    size_t by_at;
    size_t by_len;
    size_t message_at;
    size_t message_len;
    size_t payload_at;
    size_t payload_len;
} ilp_answer;

/* Reads all of the `len` bytes as a Prepare. ILP_OER, ILP_KIND, ILP_EXPIRY, ILP_ADDRESS, ILP_DATA_TOO_LONG, ILP_TRAILING: the
 * first fault. */
ilp_code ilp_prepare_read(const uint8_t *bytes, size_t len, ilp_prepare *prepare);

/* Reads all of the `len` bytes as a Fulfill or a Reject. ILP_OER, ILP_KIND, ILP_CODE, ILP_ADDRESS, ILP_NOT_UTF8,
 * ILP_DATA_TOO_LONG, ILP_TRAILING: the first fault. */
ilp_code ilp_answer_read(const uint8_t *bytes, size_t len, ilp_answer *answer);

/* Writes a Prepare. ILP_ARGUMENT if the destination is not UTF-8; ILP_EXPIRY if the year is outside 0000 to 9999;
 * ILP_ADDRESS if the destination is not an ILP address; ILP_DATA_TOO_LONG; ILP_PACKET_NO_MEMORY. */
ilp_code ilp_prepare_write(uint64_t amount, int64_t expiry, const uint8_t condition[32], const uint8_t *destination,
                           size_t destination_len, const uint8_t *payload, size_t payload_len, uint8_t *out, size_t room,
                           size_t *len);

/* Writes a Fulfill. ILP_DATA_TOO_LONG, ILP_PACKET_NO_MEMORY. */
ilp_code ilp_fulfill_write(const uint8_t fulfillment[32], const uint8_t *payload, size_t payload_len, uint8_t *out,
                           size_t room, size_t *len);

/* Writes a Reject. ILP_ARGUMENT if `by` or the message is not UTF-8; ILP_CODE if the code has a character outside ! to ~;
 * ILP_ADDRESS if `by` is neither empty nor an ILP address; ILP_DATA_TOO_LONG if the message has more than 8,191 bytes or
 * the payload more than 32,767; ILP_PACKET_NO_MEMORY. */
ilp_code ilp_reject_write(const uint8_t code[3], const uint8_t *by, size_t by_len, const uint8_t *message, size_t message_len,
                          const uint8_t *payload, size_t payload_len, uint8_t *out, size_t room, size_t *len);

/* ---- ILP over HTTP (RFC 0035): messages that come in chunks, and the texts that are sent
 *
 * A head has at most 8,192 bytes and 64 fields, a body at most 65,535 bytes. A stream carries one exchange. */

typedef struct ilp_message { uint64_t inner; } ilp_message;

/* Begins to read a request in an empty handle. `lengths[i]` is how many bytes the bearer token of account i has; the tokens
 * are one after another in `tokens`, and are copied. ILP_ARGUMENT if the lengths are not together `tokens_len`, or a
 * token is not UTF-8; ILP_MISUSE if the handle is not empty; ILP_HTTP_NO_MEMORY. */
ilp_code ilp_request_new(ilp_message *request, const uint8_t *tokens, size_t tokens_len, const size_t *lengths,
                         size_t lengths_len);

/* Begins to read a response in an empty handle. ILP_MISUSE if the handle is not empty; ILP_HTTP_NO_MEMORY. */
ilp_code ilp_response_new(ilp_message *response);

/* What the bytes of a message are so far. ILP_DONE: `taken` is how many of them are the message, `body_len` how many bytes were
 * output, and `account` that of a request, by the place of its token. ILP_IDLE: `wants` is how many bytes to ask for next:
 * at least 1, and never more than the message must still have. ILP_STATUS: `status` is the status that answers a request, or
 * that a response has. All else is 0. */
typedef struct ilp_reading {
    size_t wants;
    size_t taken;
    size_t account;
    size_t body_len;
    uint32_t status;
} ilp_reading;

/* Reads the next `len` bytes of a message. ILP_DONE: it is whole, and its body is output. ILP_IDLE: it is not whole yet.
 * ILP_STATUS: a request is refused by a status, or a response has a status other than 200. ILP_BAD_HEAD, ILP_TOO_LONG: a
 * response is refused. If it is refused, or ILP_HTTP_NO_MEMORY, no byte was accepted. Each call reads the message from its
 * start, so that some thousand bytes at once cost less than single ones. */
ilp_code ilp_message_feed(ilp_message *message, const uint8_t *bytes, size_t len, ilp_reading *reading);

/* Writes a POST request, a response 200, and a response of another status, as ilp_prepare_write writes a packet.
 * ILP_ARGUMENT if the host or the token is not 1 to 255 characters from ! to ~, or the status is not 400 to 599;
 * ILP_HTTP_NO_MEMORY. */
ilp_code ilp_request_text(const uint8_t *host, size_t host_len, const uint8_t *token, size_t token_len, const uint8_t *body,
                          size_t body_len, uint8_t *out, size_t room, size_t *len);
ilp_code ilp_answer_text(const uint8_t *body, size_t body_len, uint8_t *out, size_t room, size_t *len);
ilp_code ilp_refusal_text(uint32_t status, uint8_t *out, size_t room, size_t *len);

#ifdef __cplusplus
}
#endif
#endif
