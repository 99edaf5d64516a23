//! The calls of the archive, each as a safe function: this module alone has unsafe code.
//!
//! Why it is safe: a [`Handle`] begins empty, cannot be copied, and is freed when it is dropped. A reference is never null,
//! and two `&mut` do not overlap. A slice crosses as its own pointer and length. The archive refuses every number that is out
//! of its range, and keeps no pointer that it was passed. The declarations below are compared with the archive's sources, and
//! with the header for C, by tests/bindings.py.

#[cfg(feature = "refusing")]
mod heap;

use crate::end::Totals;
use crate::hop::{Account, Balances};
use std::cell::Cell;
use std::ffi::{CStr, c_char};
use std::fmt;
use std::marker::PhantomData;

/// What the archive keeps of an object: nothing, or a number by which it finds it. It may be passed to another thread, and is not
/// shared by threads: one call at a time is made.
#[repr(C)]
pub(crate) struct Handle {
    inner: u64,
    alone: PhantomData<Cell<()>>,
}

impl Handle {
    /// The handle of nothing.
    pub(crate) fn empty() -> Handle {
        Handle {
            inner: 0,
            alone: PhantomData,
        }
    }
}

impl fmt::Debug for Handle {
    /// What the object has is not shown: it may have keys.
    fn fmt(&self, f: &mut fmt::Formatter<'_>) -> fmt::Result {
        f.write_str("..")
    }
}

impl Drop for Handle {
    fn drop(&mut self) {
        ilp_free(self);
    }
}

/// How an end sends.
#[repr(C)]
pub(crate) struct EndConfig {
    size: usize,
    in_flight: usize,
    packets: u64,
    packet_limit: u64,
    least_num: u32,
    least_den: u32,
}

impl EndConfig {
    fn of(config: &crate::end::EndConfig) -> EndConfig {
        EndConfig {
            size: size_of::<EndConfig>(),
            in_flight: config.in_flight,
            packets: config.packets,
            packet_limit: config.packet_limit,
            least_num: config.least_num,
            least_den: config.least_den,
        }
    }
}

/// What an end did with a Prepare.
#[repr(C)]
#[derive(Clone, Copy, Default)]
pub(crate) struct Received {
    pub len: usize,
    pub amount: u64,
    pub sequence: u64,
    pub reason: u32,
    pub opened: u32,
}

/// Why a Prepare failed: what `kind` does not have is 0.
#[repr(C)]
#[derive(Clone, Copy)]
pub(crate) struct Failure {
    size: usize,
    pub kind: u32,
    pub code: [u8; 3],
    pub by_len: usize,
    pub message_len: usize,
    pub by: [u8; 1023],
    pub message: [u8; 255],
}

impl Default for Failure {
    fn default() -> Failure {
        Failure {
            size: size_of::<Failure>(),
            kind: 0,
            code: [0; 3],
            by_len: 0,
            message_len: 0,
            by: [0; 1023],
            message: [0; 255],
        }
    }
}

/// What a hop did with a Prepare.
#[repr(C)]
#[derive(Clone, Copy, Default)]
pub(crate) struct Arrived {
    pub len: usize,
    pub account: usize,
    pub ticket: u64,
}

/// What a ticket books: nothing if `books` is 0.
#[repr(C)]
#[derive(Clone, Copy, Default)]
pub(crate) struct Booking {
    pub payer: usize,
    pub claim: u64,
    pub payee: usize,
    pub due: u64,
    pub books: u32,
}

/// A table and its books, as slices.
pub(crate) struct Restored<'a> {
    pub own: &'a str,
    pub accounts: &'a [Account],
    pub prefixes: &'a str,
    pub routes: &'a [Route],
    pub claims: &'a [u64],
    pub dues: &'a [u64],
    pub next: u64,
}

/// A route, whose prefix is the next part of a text that all routes share.
#[repr(C)]
#[derive(Clone, Copy)]
pub(crate) struct Route {
    pub prefix_len: usize,
    pub account: usize,
    pub num: u32,
    pub den: u32,
}

/// A Prepare that was read: the offsets of its parts, and how many bytes they have.
#[repr(C)]
#[derive(Clone, Copy, Default)]
pub(crate) struct Prepare {
    pub amount: u64,
    pub expiry: i64,
    pub condition: [u8; 32],
    pub destination_at: usize,
    pub destination_len: usize,
    pub payload_at: usize,
    pub payload_len: usize,
}

/// A Fulfill or a Reject that was read.
#[repr(C)]
#[derive(Clone, Copy, Default)]
pub(crate) struct Answer {
    pub kind: u32,
    pub fulfillment: [u8; 32],
    pub code: [u8; 3],
    pub by_at: usize,
    pub by_len: usize,
    pub message_at: usize,
    pub message_len: usize,
    pub payload_at: usize,
    pub payload_len: usize,
}

/// A frame: what its type does not have is 0.
#[repr(C)]
#[derive(Clone, Copy, Default)]
pub(crate) struct Frame {
    pub stream: u64,
    pub first: u64,
    pub second: u64,
    pub kind: u32,
    pub code: u32,
}

/// The numbers of a STREAM packet.
#[repr(C)]
#[derive(Clone, Copy, Default)]
pub(crate) struct Header {
    pub sequence: u64,
    pub amount: u64,
    pub frames: usize,
    pub kind: u32,
}

/// What the bytes of a message are so far.
#[repr(C)]
#[derive(Clone, Copy, Default)]
pub(crate) struct Reading {
    pub wants: usize,
    pub taken: usize,
    pub account: usize,
    pub body_len: usize,
    pub status: u32,
}

unsafe extern "C" {
    safe fn ilp_free(handle: &mut Handle) -> u32;
    fn ilp_output(handle: &Handle, out: *mut u8, room: usize, len: &mut usize) -> u32;

    fn ilp_end_new(
        end: &mut Handle,
        role: u32,
        secret: &[u8; 32],
        own: *const u8,
        own_len: usize,
        peer: *const u8,
        peer_len: usize,
        config: &EndConfig,
    ) -> u32;
    pub(crate) safe fn ilp_end_open_stream(end: &mut Handle, stream: &mut u32) -> u32;
    fn ilp_end_write(end: &mut Handle, stream: u32, bytes: *const u8, len: usize) -> u32;
    pub(crate) safe fn ilp_end_room(end: &Handle, stream: u32, room: &mut usize) -> u32;
    pub(crate) safe fn ilp_end_close(end: &mut Handle, stream: u32) -> u32;
    pub(crate) safe fn ilp_end_abort(end: &mut Handle, stream: u32, code: u32) -> u32;
    pub(crate) safe fn ilp_end_offer(end: &mut Handle, stream: u32, amount: u64) -> u32;
    pub(crate) safe fn ilp_end_set_receive_max(end: &mut Handle, stream: u32, amount: u64) -> u32;
    pub(crate) safe fn ilp_end_read(
        end: &mut Handle,
        stream: u32,
        max: usize,
        len: &mut usize,
        code: &mut u64,
    ) -> u32;
    fn ilp_end_ready(end: &Handle, streams: *mut u8, room: usize, len: &mut usize) -> u32;
    fn ilp_end_streams(end: &Handle, streams: *mut u8, room: usize, len: &mut usize) -> u32;
    pub(crate) safe fn ilp_end_send(
        end: &mut Handle,
        iv: &[u8; 12],
        now: i64,
        flight: &mut u64,
        len: &mut usize,
    ) -> u32;
    fn ilp_end_answer(
        end: &mut Handle,
        flight: u64,
        bytes: *mut u8,
        len: usize,
        fulfilled: &mut u32,
    ) -> u32;
    pub(crate) safe fn ilp_end_fault(end: &mut Handle, flight: u64) -> u32;
    fn ilp_end_receive(
        end: &mut Handle,
        bytes: *const u8,
        len: usize,
        now: i64,
        received: &mut Received,
    ) -> u32;
    fn ilp_end_t00(end: &Handle, out: *mut u8, room: usize, len: &mut usize) -> u32;
    pub(crate) safe fn ilp_end_totals(end: &Handle, totals: &mut Totals) -> u32;
    pub(crate) safe fn ilp_end_has_stream(end: &Handle, stream: u32, answer: &mut u32) -> u32;
    pub(crate) safe fn ilp_end_settled(end: &Handle, stream: u32, answer: &mut u32) -> u32;
    pub(crate) safe fn ilp_end_is_failed(end: &Handle, answer: &mut u32) -> u32;
    pub(crate) safe fn ilp_end_last_failure(end: &Handle, failure: &mut Failure) -> u32;

    fn ilp_hop_new(
        hop: &mut Handle,
        own: *const u8,
        own_len: usize,
        accounts: *const Account,
        accounts_len: usize,
        prefixes: *const u8,
        prefixes_len: usize,
        routes: *const Route,
        routes_len: usize,
    ) -> u32;
    fn ilp_hop_restored(
        hop: &mut Handle,
        own: *const u8,
        own_len: usize,
        accounts: *const Account,
        accounts_len: usize,
        prefixes: *const u8,
        prefixes_len: usize,
        routes: *const Route,
        routes_len: usize,
        claims: *const u64,
        claims_len: usize,
        dues: *const u64,
        dues_len: usize,
        next: u64,
    ) -> u32;
    pub(crate) safe fn ilp_hop_restart(hop: &mut Handle) -> u32;
    fn ilp_hop_arrive(
        hop: &mut Handle,
        account: usize,
        bytes: *const u8,
        len: usize,
        now: i64,
        arrived: &mut Arrived,
    ) -> u32;
    fn ilp_hop_books(
        hop: &Handle,
        ticket: u64,
        bytes: *const u8,
        len: usize,
        now: i64,
        booking: &mut Booking,
    ) -> u32;
    fn ilp_hop_settle(
        hop: &mut Handle,
        ticket: u64,
        bytes: *const u8,
        len: usize,
        now: i64,
        answer_len: &mut usize,
    ) -> u32;
    pub(crate) safe fn ilp_hop_fault(hop: &mut Handle, ticket: u64, answer_len: &mut usize) -> u32;
    pub(crate) safe fn ilp_hop_abandon(hop: &mut Handle, ticket: u64) -> u32;
    fn ilp_hop_t00(hop: &Handle, out: *mut u8, room: usize, len: &mut usize) -> u32;
    pub(crate) safe fn ilp_hop_balances(
        hop: &Handle,
        account: usize,
        balances: &mut Balances,
    ) -> u32;

    pub(crate) safe fn ilp_keys_new(keys: &mut Handle, secret: &[u8; 32]) -> u32;
    fn ilp_keys_seal(
        keys: &mut Handle,
        iv: &[u8; 12],
        text: *const u8,
        len: usize,
        payload_len: &mut usize,
    ) -> u32;
    fn ilp_keys_open(
        keys: &mut Handle,
        payload: *const u8,
        len: usize,
        text_len: &mut usize,
    ) -> u32;
    fn ilp_keys_fulfillment(
        keys: &Handle,
        payload: *const u8,
        len: usize,
        fulfillment: &mut [u8; 32],
    ) -> u32;
    pub(crate) safe fn ilp_packet_new(
        packet: &mut Handle,
        kind: u32,
        sequence: u64,
        amount: u64,
    ) -> u32;
    fn ilp_packet_read(packet: &mut Handle, kind: u32, bytes: *const u8, len: usize) -> u32;
    pub(crate) safe fn ilp_packet_header(packet: &Handle, header: &mut Header) -> u32;
    fn ilp_packet_push(packet: &mut Handle, frame: &Frame, data: *const u8, len: usize) -> u32;
    pub(crate) safe fn ilp_packet_frame(
        packet: &mut Handle,
        place: usize,
        frame: &mut Frame,
        index: &mut u64,
        len: &mut usize,
    ) -> u32;
    pub(crate) safe fn ilp_packet_write(packet: &mut Handle, len: &mut usize) -> u32;

    pub(crate) safe fn ilp_condition(fulfillment: &[u8; 32], condition: &mut [u8; 32]) -> u32;

    fn ilp_prepare_read(bytes: *const u8, len: usize, prepare: &mut Prepare) -> u32;
    fn ilp_answer_read(bytes: *const u8, len: usize, answer: &mut Answer) -> u32;
    fn ilp_prepare_write(
        amount: u64,
        expiry: i64,
        condition: &[u8; 32],
        destination: *const u8,
        destination_len: usize,
        payload: *const u8,
        payload_len: usize,
        out: *mut u8,
        room: usize,
        len: &mut usize,
    ) -> u32;
    fn ilp_fulfill_write(
        fulfillment: &[u8; 32],
        payload: *const u8,
        payload_len: usize,
        out: *mut u8,
        room: usize,
        len: &mut usize,
    ) -> u32;
    fn ilp_reject_write(
        code: &[u8; 3],
        by: *const u8,
        by_len: usize,
        message: *const u8,
        message_len: usize,
        payload: *const u8,
        payload_len: usize,
        out: *mut u8,
        room: usize,
        len: &mut usize,
    ) -> u32;

    fn ilp_request_new(
        request: &mut Handle,
        tokens: *const u8,
        tokens_len: usize,
        lengths: *const usize,
        lengths_len: usize,
    ) -> u32;
    pub(crate) safe fn ilp_response_new(response: &mut Handle) -> u32;
    fn ilp_message_feed(
        message: &mut Handle,
        bytes: *const u8,
        len: usize,
        reading: &mut Reading,
    ) -> u32;
    fn ilp_request_text(
        host: *const u8,
        host_len: usize,
        token: *const u8,
        token_len: usize,
        body: *const u8,
        body_len: usize,
        out: *mut u8,
        room: usize,
        len: &mut usize,
    ) -> u32;
    fn ilp_answer_text(
        body: *const u8,
        body_len: usize,
        out: *mut u8,
        room: usize,
        len: &mut usize,
    ) -> u32;
    fn ilp_refusal_text(status: u32, out: *mut u8, room: usize, len: &mut usize) -> u32;
}

unsafe extern "C" {
    safe fn ilp_version() -> *const c_char;
    safe fn ilp_error_text(code: u32) -> *const c_char;
}

/// A text of the archive.
fn text_of(at: *const c_char) -> &'static str {
    // SAFETY: each of these texts ends with a 0, and is never changed or freed.
    unsafe { CStr::from_ptr(at) }.to_str().unwrap_or_default()
}

pub(crate) fn version() -> &'static str {
    text_of(ilp_version())
}

pub(crate) fn error_text(code: u32) -> &'static str {
    text_of(ilp_error_text(code))
}

// SAFETY of each call below: each pointer and the length after it are those of one slice.

pub(crate) fn output(handle: &Handle, out: &mut [u8], len: &mut usize) -> u32 {
    unsafe { ilp_output(handle, out.as_mut_ptr(), out.len(), len) }
}

pub(crate) fn end_new(
    end: &mut Handle,
    role: u32,
    secret: &[u8; 32],
    own: &str,
    peer: &str,
    config: &crate::end::EndConfig,
) -> u32 {
    let (own_at, peer_at) = (own.as_ptr(), peer.as_ptr());
    let config = EndConfig::of(config);
    unsafe {
        ilp_end_new(
            end,
            role,
            secret,
            own_at,
            own.len(),
            peer_at,
            peer.len(),
            &config,
        )
    }
}

pub(crate) fn end_write(end: &mut Handle, stream: u32, bytes: &[u8]) -> u32 {
    unsafe { ilp_end_write(end, stream, bytes.as_ptr(), bytes.len()) }
}

pub(crate) fn end_answer(
    end: &mut Handle,
    flight: u64,
    bytes: &mut [u8],
    fulfilled: &mut u32,
) -> u32 {
    unsafe { ilp_end_answer(end, flight, bytes.as_mut_ptr(), bytes.len(), fulfilled) }
}

pub(crate) fn end_receive(
    end: &mut Handle,
    bytes: &[u8],
    now: i64,
    received: &mut Received,
) -> u32 {
    unsafe { ilp_end_receive(end, bytes.as_ptr(), bytes.len(), now, received) }
}

pub(crate) fn end_ready(end: &Handle, streams: &mut [u8], len: &mut usize) -> u32 {
    unsafe { ilp_end_ready(end, streams.as_mut_ptr(), streams.len(), len) }
}

pub(crate) fn end_streams(end: &Handle, streams: &mut [u8], len: &mut usize) -> u32 {
    unsafe { ilp_end_streams(end, streams.as_mut_ptr(), streams.len(), len) }
}

pub(crate) fn end_t00(end: &Handle, out: &mut [u8], len: &mut usize) -> u32 {
    unsafe { ilp_end_t00(end, out.as_mut_ptr(), out.len(), len) }
}

pub(crate) fn hop_new(
    hop: &mut Handle,
    own: &str,
    accounts: &[Account],
    prefixes: &str,
    routes: &[Route],
) -> u32 {
    unsafe {
        ilp_hop_new(
            hop,
            own.as_ptr(),
            own.len(),
            accounts.as_ptr(),
            accounts.len(),
            prefixes.as_ptr(),
            prefixes.len(),
            routes.as_ptr(),
            routes.len(),
        )
    }
}

pub(crate) fn hop_restored(hop: &mut Handle, it: &Restored<'_>) -> u32 {
    unsafe {
        ilp_hop_restored(
            hop,
            it.own.as_ptr(),
            it.own.len(),
            it.accounts.as_ptr(),
            it.accounts.len(),
            it.prefixes.as_ptr(),
            it.prefixes.len(),
            it.routes.as_ptr(),
            it.routes.len(),
            it.claims.as_ptr(),
            it.claims.len(),
            it.dues.as_ptr(),
            it.dues.len(),
            it.next,
        )
    }
}

pub(crate) fn hop_books(
    hop: &Handle,
    ticket: u64,
    bytes: &[u8],
    now: i64,
    booking: &mut Booking,
) -> u32 {
    unsafe { ilp_hop_books(hop, ticket, bytes.as_ptr(), bytes.len(), now, booking) }
}

pub(crate) fn hop_arrive(
    hop: &mut Handle,
    account: usize,
    bytes: &[u8],
    now: i64,
    arrived: &mut Arrived,
) -> u32 {
    unsafe { ilp_hop_arrive(hop, account, bytes.as_ptr(), bytes.len(), now, arrived) }
}

pub(crate) fn hop_settle(
    hop: &mut Handle,
    ticket: u64,
    bytes: &[u8],
    now: i64,
    answer_len: &mut usize,
) -> u32 {
    unsafe { ilp_hop_settle(hop, ticket, bytes.as_ptr(), bytes.len(), now, answer_len) }
}

pub(crate) fn hop_t00(hop: &Handle, out: &mut [u8], len: &mut usize) -> u32 {
    unsafe { ilp_hop_t00(hop, out.as_mut_ptr(), out.len(), len) }
}

pub(crate) fn keys_seal(
    keys: &mut Handle,
    iv: &[u8; 12],
    text: &[u8],
    payload_len: &mut usize,
) -> u32 {
    unsafe { ilp_keys_seal(keys, iv, text.as_ptr(), text.len(), payload_len) }
}

pub(crate) fn keys_open(keys: &mut Handle, payload: &[u8], text_len: &mut usize) -> u32 {
    unsafe { ilp_keys_open(keys, payload.as_ptr(), payload.len(), text_len) }
}

pub(crate) fn keys_fulfillment(keys: &Handle, payload: &[u8], fulfillment: &mut [u8; 32]) -> u32 {
    unsafe { ilp_keys_fulfillment(keys, payload.as_ptr(), payload.len(), fulfillment) }
}

pub(crate) fn packet_read(packet: &mut Handle, kind: u32, bytes: &[u8]) -> u32 {
    unsafe { ilp_packet_read(packet, kind, bytes.as_ptr(), bytes.len()) }
}

pub(crate) fn packet_push(packet: &mut Handle, frame: &Frame, data: &[u8]) -> u32 {
    unsafe { ilp_packet_push(packet, frame, data.as_ptr(), data.len()) }
}

pub(crate) fn prepare_read(bytes: &[u8], prepare: &mut Prepare) -> u32 {
    unsafe { ilp_prepare_read(bytes.as_ptr(), bytes.len(), prepare) }
}

pub(crate) fn answer_read(bytes: &[u8], answer: &mut Answer) -> u32 {
    unsafe { ilp_answer_read(bytes.as_ptr(), bytes.len(), answer) }
}

pub(crate) fn prepare_write(
    prepare: &crate::ilp::Prepare<'_>,
    out: &mut [u8],
    len: &mut usize,
) -> u32 {
    unsafe {
        ilp_prepare_write(
            prepare.amount,
            prepare.expiry,
            &prepare.condition,
            prepare.destination.as_ptr(),
            prepare.destination.len(),
            prepare.payload.as_ptr(),
            prepare.payload.len(),
            out.as_mut_ptr(),
            out.len(),
            len,
        )
    }
}

pub(crate) fn fulfill_write(
    fulfillment: &[u8; 32],
    payload: &[u8],
    out: &mut [u8],
    len: &mut usize,
) -> u32 {
    let (at, room) = (out.as_mut_ptr(), out.len());
    unsafe { ilp_fulfill_write(fulfillment, payload.as_ptr(), payload.len(), at, room, len) }
}

pub(crate) fn reject_write(
    code: &[u8; 3],
    by: &str,
    message: &str,
    payload: &[u8],
    out: &mut [u8],
    len: &mut usize,
) -> u32 {
    unsafe {
        ilp_reject_write(
            code,
            by.as_ptr(),
            by.len(),
            message.as_ptr(),
            message.len(),
            payload.as_ptr(),
            payload.len(),
            out.as_mut_ptr(),
            out.len(),
            len,
        )
    }
}

pub(crate) fn request_new(request: &mut Handle, tokens: &str, lengths: &[usize]) -> u32 {
    let (at, len) = (lengths.as_ptr(), lengths.len());
    unsafe { ilp_request_new(request, tokens.as_ptr(), tokens.len(), at, len) }
}

pub(crate) fn message_feed(message: &mut Handle, bytes: &[u8], reading: &mut Reading) -> u32 {
    unsafe { ilp_message_feed(message, bytes.as_ptr(), bytes.len(), reading) }
}

pub(crate) fn request_text(
    host: &str,
    token: &str,
    body: &[u8],
    out: &mut [u8],
    len: &mut usize,
) -> u32 {
    unsafe {
        ilp_request_text(
            host.as_ptr(),
            host.len(),
            token.as_ptr(),
            token.len(),
            body.as_ptr(),
            body.len(),
            out.as_mut_ptr(),
            out.len(),
            len,
        )
    }
}

pub(crate) fn answer_text(body: &[u8], out: &mut [u8], len: &mut usize) -> u32 {
    unsafe { ilp_answer_text(body.as_ptr(), body.len(), out.as_mut_ptr(), out.len(), len) }
}

pub(crate) fn refusal_text(status: u32, out: &mut [u8], len: &mut usize) -> u32 {
    unsafe { ilp_refusal_text(status, out.as_mut_ptr(), out.len(), len) }
}
