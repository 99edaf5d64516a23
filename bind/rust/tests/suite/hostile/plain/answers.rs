//! The bytes of Fulfills and Rejects (RFC 0027), valid and invalid.

use super::prepares::{packet_bytes, put_octets};
use super::samples::Samples;

/// The bytes of a Fulfill whose fulfillment is 32 zero bytes, without data.
pub const FULFILL: &[u8] = b"\x0d\x21\
\0\0\0\0\0\0\0\0\0\0\0\0\0\0\0\0\0\0\0\0\0\0\0\0\0\0\0\0\0\0\0\0\0";

/// The samples from which hostile answers are made.
pub const ANSWERS: Samples<'static> = Samples {
    lawful: &[
        FULFILL,
        b"\x0d\x240123456789abcdef0123456789abcdef\x03abc",
        b"\x0e\x0fT04\x09example.c\0\0",
        b"\x0e\x0aR00\0\x02\xc3\xa9\x02ab",
    ],
    fronts: &[b"", b"\x0d\x21", b"\x0e\x0fT04", b"\x0e\x0aF99\0\x02"],
    common: b"\0\x01\x02\x09\x0d\x0e\x21\x7f\x80\x81\xff09.ab",
    behind: 50,
};

/// The bytes of a Fulfill with this fulfillment and these data (RFC 0027).
pub fn fulfill_bytes(fulfillment: &[u8; 32], payload: &[u8]) -> Vec<u8> {
    let mut contents = Vec::from(fulfillment);
    put_octets(&mut contents, payload);
    packet_bytes(13, &contents)
}

/// The bytes of a Reject with this code, this sender and these data, and an empty message (RFC 0027).
pub fn reject_bytes(code: &[u8; 3], by: &[u8], payload: &[u8]) -> Vec<u8> {
    let mut contents = Vec::from(code);
    put_octets(&mut contents, by);
    put_octets(&mut contents, b"");
    put_octets(&mut contents, payload);
    packet_bytes(14, &contents)
}
