//! Keys: payloads that another implementation sealed (`AESGCM` of the Python package `cryptography` 48.0.0, `hmac` and
//! `hashlib`), texts of many lengths compared with the plain implementation, and sealing while memory is refused.

use crate::hostile::plain::seal::PlainKeys;
use ilpstream::refusing::{has_refused, refuse_none, refuse_only};
use ilpstream::{Error, Keys, condition};

const SECRET: [u8; 32] = [0; 32];
const IV: [u8; 12] = [0, 1, 2, 3, 4, 5, 6, 7, 8, 9, 10, 11];

/// Sequence 1, amount 0, and StreamData on stream 1 at offset 0 with "hi" (RFC 0029, section 5).
const TEXT: &[u8] = b"\x01\x0c\x01\x01\x01\0\x01\x01\x14\x07\x01\x01\x01\0\x02hi";

const PAYLOAD: [u8; 45] = [
    0x00, 0x01, 0x02, 0x03, 0x04, 0x05, 0x06, 0x07, 0x08, 0x09, 0x0a, 0x0b, 0x61, 0x79, 0x74, 0xab,
    0x7c, 0xe4, 0x26, 0xcb, 0xcc, 0xb8, 0x20, 0x37, 0x6e, 0x5f, 0x43, 0xd5, 0x22, 0x61, 0xcc, 0xc4,
    0xa8, 0xfb, 0xbc, 0xea, 0xc7, 0x77, 0xfa, 0x2d, 0x32, 0xae, 0x95, 0xa6, 0x2f,
];

/// The empty text, sealed.
const EMPTY: [u8; 28] = [
    0x00, 0x01, 0x02, 0x03, 0x04, 0x05, 0x06, 0x07, 0x08, 0x09, 0x0a, 0x0b, 0x91, 0x9c, 0xe2, 0xaa,
    0x62, 0x6c, 0xe3, 0xe6, 0x76, 0xdd, 0xcf, 0xb0, 0xf2, 0xa8, 0xe0, 0xdf,
];

/// The fulfillment of `PAYLOAD`, and its condition.
const FULFILLMENT: [u8; 32] = [
    0x94, 0xe7, 0xd7, 0x5a, 0xa4, 0x93, 0x8a, 0xa1, 0x98, 0x0d, 0xbb, 0xde, 0x6e, 0xe1, 0xf5, 0x92,
    0xe5, 0xd2, 0x4e, 0x55, 0x14, 0x4b, 0x65, 0x6b, 0x74, 0x21, 0x65, 0x1c, 0x43, 0x33, 0x73, 0x4a,
];
const CONDITION: [u8; 32] = [
    0xda, 0x04, 0xd3, 0xef, 0x9b, 0x8d, 0xa0, 0x98, 0xa1, 0x2d, 0x1e, 0xb6, 0xe8, 0x4a, 0x6c, 0x03,
    0xb3, 0x56, 0xab, 0x16, 0xcb, 0x2f, 0x7f, 0xf5, 0x76, 0xcf, 0xe4, 0xda, 0x87, 0xaf, 0x69, 0x1b,
];

/// The fulfillment of the greatest packet: sequence 1, amount 0, and 32,720 bytes of 7 on stream 1 at offset 0.
const FULL_FULFILLMENT: [u8; 32] = [
    0xf3, 0x9b, 0x34, 0x7d, 0x26, 0x38, 0x4f, 0x89, 0x04, 0xd4, 0xa2, 0x49, 0x48, 0x39, 0x4a, 0x4e,
    0x15, 0xdc, 0x79, 0xf8, 0x88, 0xf3, 0x54, 0x67, 0x54, 0xc9, 0x52, 0x69, 0xfc, 0xe6, 0x22, 0x3e,
];

fn keys() -> Keys {
    Keys::new(&SECRET).unwrap()
}

#[test]
fn payloads_of_another_are_sealed_and_opened() {
    let mut keys = keys();
    for (text, payload) in [(TEXT, PAYLOAD.as_slice()), (b"", &EMPTY)] {
        assert_eq!(keys.seal(&IV, text).unwrap(), payload);
        assert_eq!(keys.open(payload).unwrap(), text);
    }
    assert_eq!(keys.fulfillment(&PAYLOAD), Ok(FULFILLMENT));
    assert_eq!(condition(&FULFILLMENT), CONDITION);
    let front = b"\x01\x0c\x01\x01\x01\0\x01\x01\x14\x82\x7f\xd7\x01\x01\x01\0\x82\x7f\xd0";
    let full = [front.as_slice(), &[7; 32_720]].concat();
    let payload = keys.seal(&IV, &full).unwrap();
    assert_eq!(payload.len(), 32_767);
    assert_eq!(keys.fulfillment(&payload), Ok(FULL_FULFILLMENT));
    assert_eq!(keys.open(&payload).unwrap(), full);
}

/// A payload that is too short, and one with a wrong bit anywhere.
#[test]
fn other_payloads_are_not_opened() {
    let mut keys = keys();
    for length in 0..28 {
        assert_eq!(keys.open(&PAYLOAD[..length]), Err(Error::Short));
    }
    for place in 0..PAYLOAD.len() {
        for bit in 0..8 {
            let mut payload = PAYLOAD;
            payload[place] ^= 1 << bit;
            assert_eq!(keys.open(&payload), Err(Error::Tag), "{place}");
        }
    }
    let mut empty = EMPTY;
    empty[27] ^= 1;
    assert_eq!(keys.open(&empty), Err(Error::Tag));
}

/// Whole blocks with and without a short one after them: the number of a pass of the cipher, fewer and more; and long ones.
#[test]
fn texts_of_each_length_are_sealed_as_by_another() {
    let (mut keys, plain) = (keys(), PlainKeys::of(&SECRET));
    let text: Vec<u8> = (0..16_385u32).map(|i| (7 * i + 3) as u8).collect();
    for length in (0..=260).chain([4_095, 4_096, 4_097, 16_384, 16_385]) {
        let text = &text[..length];
        let payload = keys.seal(&IV, text).unwrap();
        assert_eq!(payload, plain.seal(&IV, text), "{length} bytes");
        assert_eq!(keys.open(&payload).unwrap(), text, "{length} bytes");
    }
}

/// Each request for memory is refused in turn, and the same call then succeeds.
fn refuse_each<T: PartialEq + std::fmt::Debug>(
    mut call: impl FnMut() -> Result<T, Error>,
    want: &T,
) {
    for n in 1.. {
        refuse_only(n);
        let told = call();
        let met = has_refused();
        refuse_none();
        if !met {
            assert_eq!(told.as_ref(), Ok(want));
            assert!(1 < n);
            return;
        }
        assert_eq!(told, Err(Error::KeysOutOfMemory), "at {n}");
        assert_eq!(call().as_ref(), Ok(want), "at {n}");
    }
}

#[test]
fn a_text_is_sealed_and_opened_or_not() {
    let mut keys = keys();
    refuse_each(|| keys.seal(&IV, TEXT), &PAYLOAD.to_vec());
    refuse_each(|| keys.open(&PAYLOAD), &TEXT.to_vec());
}
