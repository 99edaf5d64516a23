//! Published vectors of the cipher and of the hash.

use crate::aes_gcm::Key;
use crate::sha256::{Hmac, sha256};

/// Bytes from hexadecimal.
fn bytes(hex: &str) -> Vec<u8> {
    hex.as_bytes().chunks(2).map(|pair| u8::from_str_radix(str::from_utf8(pair).unwrap(), 16).unwrap()).collect()
}

fn array<const N: usize>(hex: &str) -> [u8; N] {
    bytes(hex).try_into().unwrap()
}

/// A text sealed, and opened again; one with another tag stays closed.
fn check_seal(key: &str, iv: &str, plain: &str, sealed: &str, tag: &str) {
    let (key, iv) = (Key::new(&array(key)), array(iv));
    let mut text = bytes(plain);
    assert_eq!(key.seal(&iv, &mut text), array(tag));
    assert_eq!(text, bytes(sealed));
    assert!(!key.open(&iv, &[0; 16], &mut text) && text == bytes(sealed));
    assert!(key.open(&iv, &array(tag), &mut text) && text == bytes(plain));
}

/// Ends the process if a vector is missed.
pub fn check() {
    // FIPS 197, appendix C.3.
    let key = Key::new(&std::array::from_fn(|i| i as u8));
    assert_eq!(key.block(0x00112233445566778899aabbccddeeff), 0x8ea2b7ca516745bfeafc49904b496089);
    // The test cases 13 to 15 of the submission of GCM to NIST.
    let (zeros, iv) = ("00".repeat(32), "00".repeat(12));
    check_seal(&zeros, &iv, "", "", "530f8afbc74536b9a963b4f1c4cb738b");
    check_seal(&zeros, &iv, &"00".repeat(16), "cea7403d4d606b6e074ec5d3baf39d18", "d0d1c8a799996bf0265b98b5d48ab919");
    check_seal(
        &"feffe9928665731c6d6a8f9467308308".repeat(2),
        "cafebabefacedbaddecaf888",
        "d9313225f88406e5a55909c5aff5269a86a7a9531534f7da2e4c303d8a318a72\
         1c3c0c95956809532fcf0e2449a6b525b16aedf5aa0de657ba637b391aafd255",
        "522dc1f099567d07f47f37a32a84427d643a8cdcbfe5c0c97598a2bd2555d1aa\
         8cb08e48590dbb3da7b08b1056828838c5f61e6393ba7a0abcc9f662898015ad",
        "b094dac5d93471bdec1a502270e3cc6c",
    );
    // FIPS 180-4, by its examples.
    assert_eq!(sha256(b"abc"), array("ba7816bf8f01cfea414140de5dae2223b00361a396177a9cb410ff61f20015ad"));
    let text = b"abcdbcdecdefdefgefghfghighijhijkijkljklmklmnlmnomnopnopq";
    assert_eq!(sha256(text), array("248d6a61d20638b8e5c026930c3e6039a33ce45964ff2167f6ecedd419db06c1"));
    // RFC 4231, test case 2.
    let code = Hmac::new(b"Jefe").of(b"what do ya want for nothing?");
    assert_eq!(code, array("5bdcc146bf60754e6a042426089575c75a003f089d2739839dec58b964ec3843"));
}
