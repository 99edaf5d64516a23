//! The cipher at each length at which its passes differ, compared with values of Python's `cryptography` 48.0.0, which calls
//! OpenSSL: `cipher/lengths.py` wrote them and says of which texts they are.

use ilpstream::{Error, Keys};

const IV: [u8; 12] = [
    0xa0, 0xa1, 0xa2, 0xa3, 0xa4, 0xa5, 0xa6, 0xa7, 0xa8, 0xa9, 0xaa, 0xab,
];

fn keys() -> Keys {
    let mut secret = [0; 32];
    for (i, byte) in secret.iter_mut().enumerate() {
        *byte = i as u8;
    }
    Keys::new(&secret).unwrap()
}

fn text(length: usize) -> Vec<u8> {
    (0..length).map(|i| (7 * i + i / 256) as u8).collect()
}

fn hex(bytes: &[u8]) -> String {
    bytes.iter().map(|byte| format!("{byte:02x}")).collect()
}

/// Each length, with its tag and the last bytes of its ciphertext.
fn rows() -> impl Iterator<Item = (usize, &'static str, &'static str)> {
    include_str!("cipher/lengths.txt").lines().map(|line| {
        let (length, rest) = line.split_once(' ').unwrap();
        let (tag, last) = rest.split_once(' ').unwrap();
        (length.parse().unwrap(), tag, last.trim_start_matches('-'))
    })
}

#[test]
fn each_length_is_sealed_as_openssl_seals_it() {
    let mut keys = keys();
    let mut count = 0;
    for (length, tag, last) in rows() {
        let payload = keys.seal(&IV, &text(length)).unwrap();
        assert_eq!(payload.len(), 28 + length);
        assert_eq!(payload[..12], IV);
        assert_eq!(hex(&payload[12..28]), tag, "the tag at {length} bytes");
        let end = &payload[28..];
        assert_eq!(
            hex(&end[end.len().saturating_sub(16)..]),
            last,
            "the end at {length} bytes"
        );
        assert_eq!(
            keys.open(&payload).unwrap(),
            text(length),
            "at {length} bytes"
        );
        count += 1;
    }
    assert_eq!(count, 312);
}

/// A wrong bit in the tag or in the text, at each byte of the tag and at some of the text.
#[test]
fn a_wrong_bit_is_refused_at_each_length() {
    let mut keys = keys();
    for (length, _, _) in rows() {
        let mut payload = keys.seal(&IV, &text(length)).unwrap();
        let whole = payload.len();
        let ends = [0, length / 2, length.saturating_sub(1)].map(|i| 28 + i);
        for at in (12..28).chain(ends).filter(|at| *at < whole) {
            payload[at] ^= 1 << (at % 8);
            assert_eq!(
                keys.open(&payload),
                Err(Error::Tag),
                "byte {at} of {length}"
            );
            payload[at] ^= 1 << (at % 8);
        }
    }
}
