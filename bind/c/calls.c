/* The calls of ilpstream.h. Each tests its pointers and its handle, and then makes the proved call, which has the same name
 * after `proved_`. Written by bind/calls from the header's declarations. */
#include "handles.h"

void proved_ilp_free(void **handle);

ilp_code ilp_free(void *handle) {
    if (!handle || !number_of(handle)) return ILP_DONE;
    struct call call = begin_call(handle);
    if (!call.slot) return call.code;
    proved_ilp_free(&call.slot->object);
    wipe_stack();
    return end_freeing(call, handle);
}

ilp_code proved_ilp_output(void **handle, uint8_t *out, size_t room, size_t *len);

ilp_code ilp_output(const void *handle, uint8_t *out, size_t room, size_t *len) {
    if (is_missing(out, room, sizeof *out) || !len) return ILP_NULL;
    struct call call = begin_call(handle);
    if (!call.slot) return call.code;
    ilp_code result = proved_ilp_output(&call.slot->object, somewhere(out), room, len);
    return end_call(call, result);
}

ilp_code proved_ilp_end_new(void **handle, uint32_t role, const uint8_t secret[32], const uint8_t *own, size_t own_len,
        const uint8_t *peer, size_t peer_len, const void *config);

ilp_code ilp_end_new(ilp_end *end, uint32_t role, const uint8_t secret[32], const uint8_t *own, size_t own_len,
        const uint8_t *peer, size_t peer_len, const ilp_end_config *config) {
    if (!secret || is_missing(own, own_len, sizeof *own) || is_missing(peer, peer_len, sizeof *peer) ||
        !config) return ILP_NULL;
    if (!is_read(config, config->size, sizeof *config)) return ILP_ARGUMENT;
    struct call call = begin_making(end, ILP_NO_MEMORY);
    if (!call.slot) return call.code;
    ilp_code result = proved_ilp_end_new(&call.slot->object, role, secret, somewhere(own), own_len, somewhere(peer),
        peer_len, &config->in_flight);
    wipe_making();
    return end_making(call, end, result);
}

ilp_code proved_ilp_end_open_stream(void **handle, uint32_t *stream);

ilp_code ilp_end_open_stream(ilp_end *end, uint32_t *stream) {
    if (!stream) return ILP_NULL;
    struct call call = begin_call(end);
    if (!call.slot) return call.code;
    ilp_code result = proved_ilp_end_open_stream(&call.slot->object, stream);
    return end_call(call, result);
}

ilp_code proved_ilp_end_write(void **handle, uint32_t stream, const uint8_t *bytes, size_t len);

ilp_code ilp_end_write(ilp_end *end, uint32_t stream, const uint8_t *bytes, size_t len) {
    if (is_missing(bytes, len, sizeof *bytes)) return ILP_NULL;
    struct call call = begin_call(end);
    if (!call.slot) return call.code;
    ilp_code result = proved_ilp_end_write(&call.slot->object, stream, somewhere(bytes), len);
    return end_call(call, result);
}

ilp_code proved_ilp_end_room(void **handle, uint32_t stream, size_t *room);

ilp_code ilp_end_room(const ilp_end *end, uint32_t stream, size_t *room) {
    if (!room) return ILP_NULL;
    struct call call = begin_call(end);
    if (!call.slot) return call.code;
    ilp_code result = proved_ilp_end_room(&call.slot->object, stream, room);
    return end_call(call, result);
}

ilp_code proved_ilp_end_close(void **handle, uint32_t stream);

ilp_code ilp_end_close(ilp_end *end, uint32_t stream) {
    struct call call = begin_call(end);
    if (!call.slot) return call.code;
    ilp_code result = proved_ilp_end_close(&call.slot->object, stream);
    return end_call(call, result);
}

ilp_code proved_ilp_end_abort(void **handle, uint32_t stream, uint32_t code);

ilp_code ilp_end_abort(ilp_end *end, uint32_t stream, uint32_t code) {
    struct call call = begin_call(end);
    if (!call.slot) return call.code;
    ilp_code result = proved_ilp_end_abort(&call.slot->object, stream, code);
    return end_call(call, result);
}

ilp_code proved_ilp_end_offer(void **handle, uint32_t stream, uint64_t amount);

ilp_code ilp_end_offer(ilp_end *end, uint32_t stream, uint64_t amount) {
    struct call call = begin_call(end);
    if (!call.slot) return call.code;
    ilp_code result = proved_ilp_end_offer(&call.slot->object, stream, amount);
    return end_call(call, result);
}

ilp_code proved_ilp_end_set_receive_max(void **handle, uint32_t stream, uint64_t amount);

ilp_code ilp_end_set_receive_max(ilp_end *end, uint32_t stream, uint64_t amount) {
    struct call call = begin_call(end);
    if (!call.slot) return call.code;
    ilp_code result = proved_ilp_end_set_receive_max(&call.slot->object, stream, amount);
    return end_call(call, result);
}

ilp_code proved_ilp_end_read(void **handle, uint32_t stream, size_t max, size_t *len, uint64_t *code);

ilp_code ilp_end_read(ilp_end *end, uint32_t stream, size_t max, size_t *len, uint64_t *code) {
    if (!len || !code) return ILP_NULL;
    struct call call = begin_call(end);
    if (!call.slot) return call.code;
    ilp_code result = proved_ilp_end_read(&call.slot->object, stream, max, len, code);
    return end_call(call, result);
}

ilp_code proved_ilp_end_ready(void **handle, uint8_t *streams, size_t room, size_t *len);

ilp_code ilp_end_ready(const ilp_end *end, uint8_t *streams, size_t room, size_t *len) {
    if (is_missing(streams, room, sizeof *streams) || !len) return ILP_NULL;
    struct call call = begin_call(end);
    if (!call.slot) return call.code;
    ilp_code result = proved_ilp_end_ready(&call.slot->object, somewhere(streams), room, len);
    return end_call(call, result);
}

ilp_code proved_ilp_end_streams(void **handle, uint8_t *streams, size_t room, size_t *len);

ilp_code ilp_end_streams(const ilp_end *end, uint8_t *streams, size_t room, size_t *len) {
    if (is_missing(streams, room, sizeof *streams) || !len) return ILP_NULL;
    struct call call = begin_call(end);
    if (!call.slot) return call.code;
    ilp_code result = proved_ilp_end_streams(&call.slot->object, somewhere(streams), room, len);
    return end_call(call, result);
}

ilp_code proved_ilp_end_send(void **handle, const uint8_t iv[12], int64_t now, uint64_t *flight, size_t *len);

ilp_code ilp_end_send(ilp_end *end, const uint8_t iv[12], int64_t now, uint64_t *flight, size_t *len) {
    if (!iv || !flight || !len) return ILP_NULL;
    struct call call = begin_call(end);
    if (!call.slot) return call.code;
    ilp_code result = proved_ilp_end_send(&call.slot->object, iv, now, flight, len);
    wipe_stack();
    return end_call(call, result);
}

ilp_code proved_ilp_end_answer(void **handle, uint64_t flight, uint8_t *bytes, size_t len, uint32_t *fulfilled);

ilp_code ilp_end_answer(ilp_end *end, uint64_t flight, uint8_t *bytes, size_t len, uint32_t *fulfilled) {
    if (is_missing(bytes, len, sizeof *bytes) || !fulfilled) return ILP_NULL;
    struct call call = begin_call(end);
    if (!call.slot) return call.code;
    ilp_code result = proved_ilp_end_answer(&call.slot->object, flight, somewhere(bytes), len, fulfilled);
    wipe_stack();
    return end_call(call, result);
}

ilp_code proved_ilp_end_fault(void **handle, uint64_t flight);

ilp_code ilp_end_fault(ilp_end *end, uint64_t flight) {
    struct call call = begin_call(end);
    if (!call.slot) return call.code;
    ilp_code result = proved_ilp_end_fault(&call.slot->object, flight);
    return end_call(call, result);
}

ilp_code proved_ilp_end_receive(void **handle, const uint8_t *bytes, size_t len, int64_t now, ilp_received *received);

ilp_code ilp_end_receive(ilp_end *end, const uint8_t *bytes, size_t len, int64_t now, ilp_received *received) {
    if (is_missing(bytes, len, sizeof *bytes) || !received) return ILP_NULL;
    struct call call = begin_call(end);
    if (!call.slot) return call.code;
    ilp_code result = proved_ilp_end_receive(&call.slot->object, somewhere(bytes), len, now, received);
    wipe_stack();
    return end_call(call, result);
}

ilp_code proved_ilp_end_t00(void **handle, uint8_t *out, size_t room, size_t *len);

ilp_code ilp_end_t00(const ilp_end *end, uint8_t *out, size_t room, size_t *len) {
    if (is_missing(out, room, sizeof *out) || !len) return ILP_NULL;
    struct call call = begin_call(end);
    if (!call.slot) return call.code;
    ilp_code result = proved_ilp_end_t00(&call.slot->object, somewhere(out), room, len);
    return end_call(call, result);
}

ilp_code proved_ilp_end_totals(void **handle, ilp_totals *totals);

ilp_code ilp_end_totals(const ilp_end *end, ilp_totals *totals) {
    if (!totals) return ILP_NULL;
    struct call call = begin_call(end);
    if (!call.slot) return call.code;
    ilp_code result = proved_ilp_end_totals(&call.slot->object, totals);
    return end_call(call, result);
}

ilp_code proved_ilp_end_has_stream(void **handle, uint32_t stream, uint32_t *answer);

ilp_code ilp_end_has_stream(const ilp_end *end, uint32_t stream, uint32_t *answer) {
    if (!answer) return ILP_NULL;
    struct call call = begin_call(end);
    if (!call.slot) return call.code;
    ilp_code result = proved_ilp_end_has_stream(&call.slot->object, stream, answer);
    return end_call(call, result);
}

ilp_code proved_ilp_end_settled(void **handle, uint32_t stream, uint32_t *answer);

ilp_code ilp_end_settled(const ilp_end *end, uint32_t stream, uint32_t *answer) {
    if (!answer) return ILP_NULL;
    struct call call = begin_call(end);
    if (!call.slot) return call.code;
    ilp_code result = proved_ilp_end_settled(&call.slot->object, stream, answer);
    return end_call(call, result);
}

ilp_code proved_ilp_end_is_failed(void **handle, uint32_t *answer);

ilp_code ilp_end_is_failed(const ilp_end *end, uint32_t *answer) {
    if (!answer) return ILP_NULL;
    struct call call = begin_call(end);
    if (!call.slot) return call.code;
    ilp_code result = proved_ilp_end_is_failed(&call.slot->object, answer);
    return end_call(call, result);
}

ilp_code proved_ilp_end_last_failure(void **handle, void *failure);

ilp_code ilp_end_last_failure(const ilp_end *end, ilp_failure *failure) {
    if (!failure) return ILP_NULL;
    if (!is_filled(failure, failure->size, sizeof *failure)) return ILP_ARGUMENT;
    struct call call = begin_call(end);
    if (!call.slot) return call.code;
    ilp_code result = proved_ilp_end_last_failure(&call.slot->object, &failure->kind);
    if (result == ILP_DONE) failure->size = sizeof *failure;
    return end_call(call, result);
}

ilp_code proved_ilp_hop_new(void **handle, const uint8_t *own, size_t own_len, const ilp_account *accounts,
        size_t accounts_len, const uint8_t *prefixes, size_t prefixes_len, const ilp_route *routes, size_t routes_len);

ilp_code ilp_hop_new(ilp_hop *hop, const uint8_t *own, size_t own_len, const ilp_account *accounts, size_t accounts_len,
        const uint8_t *prefixes, size_t prefixes_len, const ilp_route *routes, size_t routes_len) {
    if (is_missing(own, own_len, sizeof *own) || is_missing(accounts, accounts_len, sizeof *accounts) ||
        is_missing(prefixes, prefixes_len, sizeof *prefixes) ||
        is_missing(routes, routes_len, sizeof *routes)) return ILP_NULL;
    struct call call = begin_making(hop, ILP_HOP_NO_MEMORY);
    if (!call.slot) return call.code;
    ilp_code result = proved_ilp_hop_new(&call.slot->object, somewhere(own), own_len, somewhere(accounts), accounts_len,
        somewhere(prefixes), prefixes_len, somewhere(routes), routes_len);
    return end_making(call, hop, result);
}

ilp_code proved_ilp_hop_restored(void **handle, const uint8_t *own, size_t own_len, const ilp_account *accounts,
        size_t accounts_len, const uint8_t *prefixes, size_t prefixes_len, const ilp_route *routes, size_t routes_len,
        const uint64_t *claims, size_t claims_len, const uint64_t *dues, size_t dues_len, uint64_t next);

ilp_code ilp_hop_restored(ilp_hop *hop, const uint8_t *own, size_t own_len, const ilp_account *accounts,
        size_t accounts_len, const uint8_t *prefixes, size_t prefixes_len, const ilp_route *routes, size_t routes_len,
        const uint64_t *claims, size_t claims_len, const uint64_t *dues, size_t dues_len, uint64_t next) {
    if (is_missing(own, own_len, sizeof *own) || is_missing(accounts, accounts_len, sizeof *accounts) ||
        is_missing(prefixes, prefixes_len, sizeof *prefixes) || is_missing(routes, routes_len, sizeof *routes) ||
        is_missing(claims, claims_len, sizeof *claims) || is_missing(dues, dues_len, sizeof *dues)) return ILP_NULL;
    struct call call = begin_making(hop, ILP_HOP_NO_MEMORY);
    if (!call.slot) return call.code;
    ilp_code result = proved_ilp_hop_restored(&call.slot->object, somewhere(own), own_len, somewhere(accounts),
        accounts_len, somewhere(prefixes), prefixes_len, somewhere(routes), routes_len, somewhere(claims), claims_len,
        somewhere(dues), dues_len, next);
    return end_making(call, hop, result);
}

ilp_code proved_ilp_hop_restart(void **handle);

ilp_code ilp_hop_restart(ilp_hop *hop) {
    struct call call = begin_call(hop);
    if (!call.slot) return call.code;
    ilp_code result = proved_ilp_hop_restart(&call.slot->object);
    return end_call(call, result);
}

ilp_code proved_ilp_hop_arrive(void **handle, size_t account, const uint8_t *bytes, size_t len, int64_t now,
        ilp_arrived *arrived);

ilp_code ilp_hop_arrive(ilp_hop *hop, size_t account, const uint8_t *bytes, size_t len, int64_t now,
        ilp_arrived *arrived) {
    if (is_missing(bytes, len, sizeof *bytes) || !arrived) return ILP_NULL;
    struct call call = begin_call(hop);
    if (!call.slot) return call.code;
    ilp_code result = proved_ilp_hop_arrive(&call.slot->object, account, somewhere(bytes), len, now, arrived);
    return end_call(call, result);
}

ilp_code proved_ilp_hop_books(void **handle, uint64_t ticket, const uint8_t *bytes, size_t len, int64_t now,
        ilp_booking *booking);

ilp_code ilp_hop_books(const ilp_hop *hop, uint64_t ticket, const uint8_t *bytes, size_t len, int64_t now,
        ilp_booking *booking) {
    if (is_missing(bytes, len, sizeof *bytes) || !booking) return ILP_NULL;
    struct call call = begin_call(hop);
    if (!call.slot) return call.code;
    ilp_code result = proved_ilp_hop_books(&call.slot->object, ticket, somewhere(bytes), len, now, booking);
    return end_call(call, result);
}

ilp_code proved_ilp_hop_settle(void **handle, uint64_t ticket, const uint8_t *bytes, size_t len, int64_t now,
        size_t *answer_len);

ilp_code ilp_hop_settle(ilp_hop *hop, uint64_t ticket, const uint8_t *bytes, size_t len, int64_t now,
        size_t *answer_len) {
    if (is_missing(bytes, len, sizeof *bytes) || !answer_len) return ILP_NULL;
    struct call call = begin_call(hop);
    if (!call.slot) return call.code;
    ilp_code result = proved_ilp_hop_settle(&call.slot->object, ticket, somewhere(bytes), len, now, answer_len);
    return end_call(call, result);
}

ilp_code proved_ilp_hop_fault(void **handle, uint64_t ticket, size_t *answer_len);

ilp_code ilp_hop_fault(ilp_hop *hop, uint64_t ticket, size_t *answer_len) {
    if (!answer_len) return ILP_NULL;
    struct call call = begin_call(hop);
    if (!call.slot) return call.code;
    ilp_code result = proved_ilp_hop_fault(&call.slot->object, ticket, answer_len);
    return end_call(call, result);
}

ilp_code proved_ilp_hop_abandon(void **handle, uint64_t ticket);

ilp_code ilp_hop_abandon(ilp_hop *hop, uint64_t ticket) {
    struct call call = begin_call(hop);
    if (!call.slot) return call.code;
    ilp_code result = proved_ilp_hop_abandon(&call.slot->object, ticket);
    return end_call(call, result);
}

ilp_code proved_ilp_hop_t00(void **handle, uint8_t *out, size_t room, size_t *len);

ilp_code ilp_hop_t00(const ilp_hop *hop, uint8_t *out, size_t room, size_t *len) {
    if (is_missing(out, room, sizeof *out) || !len) return ILP_NULL;
    struct call call = begin_call(hop);
    if (!call.slot) return call.code;
    ilp_code result = proved_ilp_hop_t00(&call.slot->object, somewhere(out), room, len);
    return end_call(call, result);
}

ilp_code proved_ilp_hop_balances(void **handle, size_t account, ilp_balances *balances);

ilp_code ilp_hop_balances(const ilp_hop *hop, size_t account, ilp_balances *balances) {
    if (!balances) return ILP_NULL;
    struct call call = begin_call(hop);
    if (!call.slot) return call.code;
    ilp_code result = proved_ilp_hop_balances(&call.slot->object, account, balances);
    return end_call(call, result);
}

ilp_code proved_ilp_keys_new(void **handle, const uint8_t secret[32]);

ilp_code ilp_keys_new(ilp_keys *keys, const uint8_t secret[32]) {
    if (!secret) return ILP_NULL;
    struct call call = begin_making(keys, ILP_KEYS_NO_MEMORY);
    if (!call.slot) return call.code;
    ilp_code result = proved_ilp_keys_new(&call.slot->object, secret);
    wipe_making();
    return end_making(call, keys, result);
}

ilp_code proved_ilp_keys_seal(void **handle, const uint8_t iv[12], const uint8_t *text, size_t len,
        size_t *payload_len);

ilp_code ilp_keys_seal(ilp_keys *keys, const uint8_t iv[12], const uint8_t *text, size_t len, size_t *payload_len) {
    if (!iv || is_missing(text, len, sizeof *text) || !payload_len) return ILP_NULL;
    struct call call = begin_call(keys);
    if (!call.slot) return call.code;
    ilp_code result = proved_ilp_keys_seal(&call.slot->object, iv, somewhere(text), len, payload_len);
    wipe_stack();
    return end_call(call, result);
}

ilp_code proved_ilp_keys_open(void **handle, const uint8_t *payload, size_t len, size_t *text_len);

ilp_code ilp_keys_open(ilp_keys *keys, const uint8_t *payload, size_t len, size_t *text_len) {
    if (is_missing(payload, len, sizeof *payload) || !text_len) return ILP_NULL;
    struct call call = begin_call(keys);
    if (!call.slot) return call.code;
    ilp_code result = proved_ilp_keys_open(&call.slot->object, somewhere(payload), len, text_len);
    wipe_stack();
    return end_call(call, result);
}

ilp_code proved_ilp_keys_fulfillment(void **handle, const uint8_t *payload, size_t len, uint8_t fulfillment[32]);

ilp_code ilp_keys_fulfillment(const ilp_keys *keys, const uint8_t *payload, size_t len, uint8_t fulfillment[32]) {
    if (is_missing(payload, len, sizeof *payload) || !fulfillment) return ILP_NULL;
    struct call call = begin_call(keys);
    if (!call.slot) return call.code;
    ilp_code result = proved_ilp_keys_fulfillment(&call.slot->object, somewhere(payload), len, fulfillment);
    wipe_stack();
    return end_call(call, result);
}

void proved_ilp_condition(const uint8_t fulfillment[32], uint8_t condition[32]);

ilp_code ilp_condition(const uint8_t fulfillment[32], uint8_t condition[32]) {
    if (!fulfillment || !condition) return ILP_NULL;
    proved_ilp_condition(fulfillment, condition);
    return ILP_DONE;
}

ilp_code proved_ilp_packet_new(void **handle, uint32_t kind, uint64_t sequence, uint64_t amount);

ilp_code ilp_packet_new(ilp_packet *packet, uint32_t kind, uint64_t sequence, uint64_t amount) {
    struct call call = begin_making(packet, ILP_STREAM_NO_MEMORY);
    if (!call.slot) return call.code;
    ilp_code result = proved_ilp_packet_new(&call.slot->object, kind, sequence, amount);
    return end_making(call, packet, result);
}

ilp_code proved_ilp_packet_read(void **handle, uint32_t kind, const uint8_t *bytes, size_t len);

ilp_code ilp_packet_read(ilp_packet *packet, uint32_t kind, const uint8_t *bytes, size_t len) {
    if (is_missing(bytes, len, sizeof *bytes)) return ILP_NULL;
    struct call call = begin_making(packet, ILP_STREAM_NO_MEMORY);
    if (!call.slot) return call.code;
    ilp_code result = proved_ilp_packet_read(&call.slot->object, kind, somewhere(bytes), len);
    return end_making(call, packet, result);
}

ilp_code proved_ilp_packet_header(void **handle, ilp_header *header);

ilp_code ilp_packet_header(const ilp_packet *packet, ilp_header *header) {
    if (!header) return ILP_NULL;
    struct call call = begin_call(packet);
    if (!call.slot) return call.code;
    ilp_code result = proved_ilp_packet_header(&call.slot->object, header);
    return end_call(call, result);
}

ilp_code proved_ilp_packet_push(void **handle, const ilp_frame *frame, const uint8_t *data, size_t len);

ilp_code ilp_packet_push(ilp_packet *packet, const ilp_frame *frame, const uint8_t *data, size_t len) {
    if (!frame || is_missing(data, len, sizeof *data)) return ILP_NULL;
    struct call call = begin_call(packet);
    if (!call.slot) return call.code;
    ilp_code result = proved_ilp_packet_push(&call.slot->object, frame, somewhere(data), len);
    return end_call(call, result);
}

ilp_code proved_ilp_packet_frame(void **handle, size_t place, ilp_frame *frame, uint64_t *index, size_t *len);

ilp_code ilp_packet_frame(ilp_packet *packet, size_t place, ilp_frame *frame, uint64_t *index, size_t *len) {
    if (!frame || !index || !len) return ILP_NULL;
    struct call call = begin_call(packet);
    if (!call.slot) return call.code;
    ilp_code result = proved_ilp_packet_frame(&call.slot->object, place, frame, index, len);
    return end_call(call, result);
}

ilp_code proved_ilp_packet_write(void **handle, size_t *len);

ilp_code ilp_packet_write(ilp_packet *packet, size_t *len) {
    if (!len) return ILP_NULL;
    struct call call = begin_call(packet);
    if (!call.slot) return call.code;
    ilp_code result = proved_ilp_packet_write(&call.slot->object, len);
    return end_call(call, result);
}

ilp_code proved_ilp_prepare_read(const uint8_t *bytes, size_t len, ilp_prepare *prepare);

ilp_code ilp_prepare_read(const uint8_t *bytes, size_t len, ilp_prepare *prepare) {
    if (is_missing(bytes, len, sizeof *bytes) || !prepare) return ILP_NULL;
    return proved_ilp_prepare_read(somewhere(bytes), len, prepare);
}

ilp_code proved_ilp_answer_read(const uint8_t *bytes, size_t len, ilp_answer *answer);

ilp_code ilp_answer_read(const uint8_t *bytes, size_t len, ilp_answer *answer) {
    if (is_missing(bytes, len, sizeof *bytes) || !answer) return ILP_NULL;
    return proved_ilp_answer_read(somewhere(bytes), len, answer);
}

ilp_code proved_ilp_prepare_write(uint64_t amount, int64_t expiry, const uint8_t condition[32],
        const uint8_t *destination, size_t destination_len, const uint8_t *payload, size_t payload_len, uint8_t *out,
        size_t room, size_t *len);

ilp_code ilp_prepare_write(uint64_t amount, int64_t expiry, const uint8_t condition[32], const uint8_t *destination,
        size_t destination_len, const uint8_t *payload, size_t payload_len, uint8_t *out, size_t room, size_t *len) {
    if (!condition || is_missing(destination, destination_len, sizeof *destination) ||
        is_missing(payload, payload_len, sizeof *payload) || is_missing(out, room, sizeof *out) ||
        !len) return ILP_NULL;
    return proved_ilp_prepare_write(amount, expiry, condition, somewhere(destination), destination_len,
        somewhere(payload), payload_len, somewhere(out), room, len);
}

ilp_code proved_ilp_fulfill_write(const uint8_t fulfillment[32], const uint8_t *payload, size_t payload_len,
        uint8_t *out, size_t room, size_t *len);

ilp_code ilp_fulfill_write(const uint8_t fulfillment[32], const uint8_t *payload, size_t payload_len, uint8_t *out,
        size_t room, size_t *len) {
    if (!fulfillment || is_missing(payload, payload_len, sizeof *payload) || is_missing(out, room, sizeof *out) ||
        !len) return ILP_NULL;
    return proved_ilp_fulfill_write(fulfillment, somewhere(payload), payload_len, somewhere(out), room, len);
}

ilp_code proved_ilp_reject_write(const uint8_t code[3], const uint8_t *by, size_t by_len, const uint8_t *message,
        size_t message_len, const uint8_t *payload, size_t payload_len, uint8_t *out, size_t room, size_t *len);

ilp_code ilp_reject_write(const uint8_t code[3], const uint8_t *by, size_t by_len, const uint8_t *message,
        size_t message_len, const uint8_t *payload, size_t payload_len, uint8_t *out, size_t room, size_t *len) {
    if (!code || is_missing(by, by_len, sizeof *by) || is_missing(message, message_len, sizeof *message) ||
        is_missing(payload, payload_len, sizeof *payload) || is_missing(out, room, sizeof *out) ||
        !len) return ILP_NULL;
    return proved_ilp_reject_write(code, somewhere(by), by_len, somewhere(message), message_len, somewhere(payload),
        payload_len, somewhere(out), room, len);
}

ilp_code proved_ilp_request_new(void **handle, const uint8_t *tokens, size_t tokens_len, const size_t *lengths,
        size_t lengths_len);

ilp_code ilp_request_new(ilp_message *request, const uint8_t *tokens, size_t tokens_len, const size_t *lengths,
        size_t lengths_len) {
    if (is_missing(tokens, tokens_len, sizeof *tokens) ||
        is_missing(lengths, lengths_len, sizeof *lengths)) return ILP_NULL;
    struct call call = begin_making(request, ILP_HTTP_NO_MEMORY);
    if (!call.slot) return call.code;
    ilp_code result = proved_ilp_request_new(&call.slot->object, somewhere(tokens), tokens_len, somewhere(lengths),
        lengths_len);
    return end_making(call, request, result);
}

ilp_code proved_ilp_response_new(void **handle);

ilp_code ilp_response_new(ilp_message *response) {
    struct call call = begin_making(response, ILP_HTTP_NO_MEMORY);
    if (!call.slot) return call.code;
    ilp_code result = proved_ilp_response_new(&call.slot->object);
    return end_making(call, response, result);
}

ilp_code proved_ilp_message_feed(void **handle, const uint8_t *bytes, size_t len, ilp_reading *reading);

ilp_code ilp_message_feed(ilp_message *message, const uint8_t *bytes, size_t len, ilp_reading *reading) {
    if (is_missing(bytes, len, sizeof *bytes) || !reading) return ILP_NULL;
    struct call call = begin_call(message);
    if (!call.slot) return call.code;
    ilp_code result = proved_ilp_message_feed(&call.slot->object, somewhere(bytes), len, reading);
    return end_call(call, result);
}

ilp_code proved_ilp_request_text(const uint8_t *host, size_t host_len, const uint8_t *token, size_t token_len,
        const uint8_t *body, size_t body_len, uint8_t *out, size_t room, size_t *len);

ilp_code ilp_request_text(const uint8_t *host, size_t host_len, const uint8_t *token, size_t token_len,
        const uint8_t *body, size_t body_len, uint8_t *out, size_t room, size_t *len) {
    if (is_missing(host, host_len, sizeof *host) || is_missing(token, token_len, sizeof *token) ||
        is_missing(body, body_len, sizeof *body) || is_missing(out, room, sizeof *out) || !len) return ILP_NULL;
    return proved_ilp_request_text(somewhere(host), host_len, somewhere(token), token_len, somewhere(body), body_len,
        somewhere(out), room, len);
}

ilp_code proved_ilp_answer_text(const uint8_t *body, size_t body_len, uint8_t *out, size_t room, size_t *len);

ilp_code ilp_answer_text(const uint8_t *body, size_t body_len, uint8_t *out, size_t room, size_t *len) {
    if (is_missing(body, body_len, sizeof *body) || is_missing(out, room, sizeof *out) || !len) return ILP_NULL;
    return proved_ilp_answer_text(somewhere(body), body_len, somewhere(out), room, len);
}

ilp_code proved_ilp_refusal_text(uint32_t status, uint8_t *out, size_t room, size_t *len);

ilp_code ilp_refusal_text(uint32_t status, uint8_t *out, size_t room, size_t *len) {
    if (is_missing(out, room, sizeof *out) || !len) return ILP_NULL;
    return proved_ilp_refusal_text(status, somewhere(out), room, len);
}
