//! The bytes of Prepares (RFC 0027), valid and invalid.

use super::samples::Samples;

/// A Prepare of 70 bytes: 5 units to `example.b`, with the SHA-256 of 32 zero bytes as its condition.
pub const PREPARE: &[u8] = b"\x0c\x44\0\0\0\0\0\0\0\x0520240102030405006\
\x66\x68\x7a\xad\xf8\x62\xbd\x77\x6c\x8f\xc1\x8b\x8e\x9f\x8e\x20\
\x08\x97\x14\x85\x6e\xe2\x33\xb3\x90\x2a\x59\x1d\x0d\x5f\x29\x25\x09example.b\0";

/// The moment at which `PREPARE` expires, in milliseconds since the start of 1970 (UTC).
pub const EXPIRY: i64 = 1_704_164_645_006;

/// Texts of expiries: that of `PREPARE`, one second later, the first moment, the last moment, and one more.
pub const EXPIRIES: [&[u8]; 5] = [
    b"20240102030405006",
    b"20240102030406006",
    b"00000101000000000",
    b"99991231235959999",
    b"20240102030405007",
];

/// The samples from which hostile Prepares are made.
pub const PREPARES: Samples<'static> = Samples {
    lawful: &[PREPARE],
    fronts: &[
        b"",
        b"\x0c",
        b"\x0c\x44\0\0\0\0\0\0\0\x0520240102030405006",
        b"\x0c\x88\xff\xff\xff\xff\xff\xff\xff\xff",
        b"\x0d\x21",
        b"\x0c\x81\x84",
    ],
    common: b"\0\x01\x02\x09\x0c\x44\x7f\x80\x81\x82\xff0129.ab",
    behind: 80,
};

/// The fields of a Prepare, valid or not.
#[derive(Clone, Copy)]
pub struct Offer<'a> {
    /// The amount in units.
    pub amount: u64,
    /// The expiry, 17 digits.
    pub expiry: &'a [u8],
    /// The condition, 32 bytes.
    pub condition: &'a [u8],
    /// The characters of the destination address.
    pub destination: &'a [u8],
    /// The data.
    pub payload: &'a [u8],
}

/// Appends bytes with their length, of at most two bytes.
pub(super) fn put_octets(out: &mut Vec<u8>, bytes: &[u8]) {
    let [.., high, low] = (bytes.len() as u64).to_be_bytes();
    if bytes.len() < 128 {
        out.push(low);
    } else if bytes.len() < 256 {
        out.extend_from_slice(&[0x81, low]);
    } else {
        out.extend_from_slice(&[0x82, high, low]);
    }
    out.extend_from_slice(bytes)
}

/// The bytes of a packet of this kind.
pub(crate) fn packet_bytes(kind: u8, contents: &[u8]) -> Vec<u8> {
    let mut out = Vec::from(&[kind]);
    put_octets(&mut out, contents);
    out
}

/// The bytes of a Prepare with these fields (RFC 0027).
pub fn prepare_bytes(offer: Offer<'_>) -> Vec<u8> {
    let mut contents = Vec::from(&offer.amount.to_be_bytes());
    contents.extend_from_slice(offer.expiry);
    contents.extend_from_slice(offer.condition);
    put_octets(&mut contents, offer.destination);
    put_octets(&mut contents, offer.payload);
    packet_bytes(12, &contents)
}
