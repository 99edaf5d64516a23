//! A hop: worked Prepares and answers, rates, books, and each request for memory refused in turn. The hop of these tests is
//! `example.c`, with the accounts 0, for `example`, and 1, for `example.b`.

use ilpstream::{Account, Error, Hop, Route, Ticket, Verdict};

mod between_ends;
mod books;
mod memory;
mod rates;
mod worked;

/// 2024-01-02 03:04:05.006, the moment a second before it, and the first as milliseconds.
const EXPIRY: &[u8; 17] = b"20240102030405006";
const EARLIER: &[u8; 17] = b"20240102030404006";
const EXPIRY_MS: i64 = 1_704_164_645_006;

/// SHA-256 of 32 zero bytes.
const ZERO_DIGEST: [u8; 32] = [
    0x66, 0x68, 0x7a, 0xad, 0xf8, 0x62, 0xbd, 0x77, 0x6c, 0x8f, 0xc1, 0x8b, 0x8e, 0x9f, 0x8e, 0x20,
    0x08, 0x97, 0x14, 0x85, 0x6e, 0xe2, 0x33, 0xb3, 0x90, 0x2a, 0x59, 0x1d, 0x0d, 0x5f, 0x29, 0x25,
];

/// The Fulfill of 32 zero bytes, without data, and that of another 32 bytes.
const FULFILL: &[u8; 35] =
    b"\x0d\x21\0\0\0\0\0\0\0\0\0\0\0\0\0\0\0\0\0\0\0\0\0\0\0\0\0\0\0\0\0\0\0\0\0";
const WRONG_FULFILL: &[u8; 35] =
    b"\x0d\x21\0\0\0\0\0\0\0\0\0\0\0\0\0\0\0\0\0\0\0\0\0\0\0\0\0\0\0\0\0\0\0\x01\0";

/// A Reject of the neighbour `example.b`.
const REJECT: &[u8; 17] = b"\x0e\x0fF02\x09example.b\0\0";

/// The hop's Reject of this code, without message and data.
fn reject(code: &str) -> Vec<u8> {
    [b"\x0e\x0f", code.as_bytes(), b"\x09example.c\0\0"].concat()
}

/// The hop's Reject F08 of an amount above the most.
fn too_large(amount: u64, most: u64) -> Vec<u8> {
    let front = b"\x0e\x1fF08\x09example.c\0\x10".as_slice();
    [front, &amount.to_be_bytes(), &most.to_be_bytes()].concat()
}

/// The bytes of a Prepare without data, field by field (RFC 0027).
fn prepare(amount: u64, expiry: &[u8; 17], condition: &[u8; 32], to: &str) -> Vec<u8> {
    let length = u8::try_from(to.len()).unwrap();
    let mut bytes = vec![12, length + 59];
    bytes.extend(amount.to_be_bytes());
    bytes.extend(expiry);
    bytes.extend(condition);
    bytes.push(length);
    bytes.extend(to.as_bytes());
    bytes.push(0);
    bytes
}

/// A Prepare of 5 to `example.b`, whose condition is that of `FULFILL`, and as it is sent on.
fn five() -> Vec<u8> {
    prepare(5, EXPIRY, &ZERO_DIGEST, "example.b")
}

fn five_onward() -> Vec<u8> {
    prepare(5, EARLIER, &ZERO_DIGEST, "example.b")
}

fn route(prefix: &str, account: usize) -> Route<'_> {
    Route {
        prefix,
        account,
        num: 1,
        den: 1,
    }
}

/// A hop with nothing owed, both of whose accounts have these terms.
fn new_hop(limit: u64, max_packet: u64) -> Result<Hop, Error> {
    let account = Account { limit, max_packet };
    let routes = [route("example", 0), route("example.b", 1)];
    Hop::new("example.c", &[account, account], &routes)
}

/// A Prepare that is sent on: its ticket, its account and its bytes.
fn forwarded(hop: &mut Hop, from: usize, bytes: &[u8], now: i64) -> (Ticket, usize, Vec<u8>) {
    match hop.arrive(from, bytes, now).unwrap() {
        Verdict::Forward {
            ticket,
            account,
            bytes,
        } => (ticket, account, bytes),
        Verdict::Answer(bytes) => panic!("it is answered with {bytes:?}"),
    }
}

/// A Prepare of this amount is sent on: its ticket and its account.
fn goes_on(hop: &mut Hop, from: usize, amount: u64, to: &str) -> (Ticket, usize) {
    let bytes = prepare(amount, EXPIRY, &ZERO_DIGEST, to);
    let (ticket, account, _) = forwarded(hop, from, &bytes, 0);
    (ticket, account)
}

/// The answer to a Prepare of this amount, which is not sent on.
fn answer_to(hop: &mut Hop, from: usize, amount: u64, to: &str) -> Vec<u8> {
    let bytes = prepare(amount, EXPIRY, &ZERO_DIGEST, to);
    answered(hop, from, &bytes, 0)
}

/// The answer to bytes that are not sent on.
fn answered(hop: &mut Hop, from: usize, bytes: &[u8], now: i64) -> Vec<u8> {
    match hop.arrive(from, bytes, now).unwrap() {
        Verdict::Answer(bytes) => bytes,
        forward => panic!("it is sent on: {forward:?}"),
    }
}

/// Claims, dues and what is reserved of both accounts.
fn counts(hop: &mut Hop) -> [u64; 6] {
    let (a, b) = (hop.balances(0).unwrap(), hop.balances(1).unwrap());
    [a.claims, a.dues, a.held, b.claims, b.dues, b.held]
}
