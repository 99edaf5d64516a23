//! The sealing of packets once more (RFC 0029, section 4): SHA-256 (FIPS 180-4), HMAC (RFC 2104), AES-256 (FIPS 197) and GCM
//! (NIST SP 800-38D), each bit by bit in the simplest way.

use std::sync::OnceLock;

/// The first 32 bits after the point of the square root or the cube root of a small number.
fn root_bits(number: u64, power: u32) -> u32 {
    let number = u128::from(number);
    // the greatest 40 bits whose power is not above the number with as many zeros after it
    let mut root = 0u128;
    for bit in (0..40).rev() {
        let next = root | 1 << bit;
        // (its first 40 bits suffice to compare a cube: 120 bits)
        if next.pow(power) <= number << (32 * power) {
            root = next;
        }
    }
    root as u32
}

/// The constants of SHA-256: of the square roots of the first 8 primes, and of the cube roots of the first 64.
fn constants() -> &'static ([u32; 8], [u32; 64]) {
    static CONSTANTS: OnceLock<([u32; 8], [u32; 64])> = OnceLock::new();
    CONSTANTS.get_or_init(|| {
        let is_prime = |n: &u64| (2..*n).all(|d| n % d != 0);
        let primes: Vec<u64> = (2..).filter(is_prime).take(64).collect();
        let squares = std::array::from_fn(|i| root_bits(primes[i], 2));
        (squares, std::array::from_fn(|i| root_bits(primes[i], 3)))
    })
}

/// The SHA-256 digest of some bytes.
pub fn sha256(bytes: &[u8]) -> [u8; 32] {
    let (mut state, rounds) = *constants();
    let mut padded = [bytes, &[0x80]].concat();
    padded.resize(padded.len().next_multiple_of(64), 0);
    if padded.len() < bytes.len() + 9 {
        padded.resize(padded.len() + 64, 0);
    }
    let end = padded.len() - 8;
    padded[end..].copy_from_slice(&(8 * bytes.len() as u64).to_be_bytes());
    for block in padded.chunks_exact(64) {
        let mut words = [0u32; 64];
        for (word, bytes) in words.iter_mut().zip(block.chunks_exact(4)) {
            *word = u32::from_be_bytes(bytes.try_into().unwrap());
        }
        for i in 16..64 {
            let (a, b) = (words[i - 15], words[i - 2]);
            let s0 = a.rotate_right(7) ^ a.rotate_right(18) ^ (a >> 3);
            let s1 = b.rotate_right(17) ^ b.rotate_right(19) ^ (b >> 10);
            let sum = words[i - 16].wrapping_add(s0).wrapping_add(words[i - 7]);
            words[i] = sum.wrapping_add(s1);
        }
        let [mut a, mut b, mut c, mut d, mut e, mut f, mut g, mut h] = state;
        for i in 0..64 {
            let s1 = e.rotate_right(6) ^ e.rotate_right(11) ^ e.rotate_right(25);
            let choice = (e & f) ^ (!e & g);
            let first = h.wrapping_add(s1).wrapping_add(choice);
            let first = first.wrapping_add(rounds[i]).wrapping_add(words[i]);
            let s0 = a.rotate_right(2) ^ a.rotate_right(13) ^ a.rotate_right(22);
            let second = s0.wrapping_add((a & b) ^ (a & c) ^ (b & c));
            (h, g, f, e) = (g, f, e, d.wrapping_add(first));
            (d, c, b, a) = (c, b, a, first.wrapping_add(second));
        }
        for (word, more) in state.iter_mut().zip([a, b, c, d, e, f, g, h]) {
            *word = word.wrapping_add(more);
        }
    }
    let mut digest = [0; 32];
    for (bytes, word) in digest.chunks_exact_mut(4).zip(state) {
        bytes.copy_from_slice(&word.to_be_bytes());
    }
    digest
}

/// HMAC-SHA-256 with a key of 32 bytes.
pub fn hmac(key: &[u8; 32], text: &[u8]) -> [u8; 32] {
    let pad = |byte: u8| -> Vec<u8> {
        let mut block = [byte; 64];
        for (pad, key) in block.iter_mut().zip(key) {
            *pad ^= key;
        }
        block.to_vec()
    };
    let inner = sha256(&[pad(0x36), text.to_vec()].concat());
    sha256(&[pad(0x5c), inner.to_vec()].concat())
}

/// Twice a byte, as a polynomial modulo x^8 + x^4 + x^3 + x + 1.
fn twice(byte: u8) -> u8 {
    (byte << 1) ^ (if byte & 0x80 == 0 { 0 } else { 0x1b })
}

/// The product of two bytes as such polynomials.
fn product(a: u8, b: u8) -> u8 {
    let (mut power, mut sum) = (a, 0);
    for bit in 0..8 {
        if b >> bit & 1 == 1 {
            sum ^= power;
        }
        power = twice(power);
    }
    sum
}

/// The S-box: the inverse of a byte, and its affine image.
fn sbox() -> &'static [u8; 256] {
    static SBOX: OnceLock<[u8; 256]> = OnceLock::new();
    SBOX.get_or_init(|| {
        std::array::from_fn(|byte| {
            let inverse = (0..=255)
                .find(|other| product(byte as u8, *other) == 1)
                .unwrap_or(0);
            let turned = |n| inverse.rotate_left(n);
            inverse ^ turned(1) ^ turned(2) ^ turned(3) ^ turned(4) ^ 0x63
        })
    })
}

/// The 15 round keys of a key of AES-256.
fn round_keys(key: &[u8; 32]) -> [[u8; 16]; 15] {
    let mut words: Vec<[u8; 4]> = key
        .chunks_exact(4)
        .map(|it| it.try_into().unwrap())
        .collect();
    let mut constant = 1;
    for i in 8..60 {
        let mut word = words[i - 1];
        if i % 8 == 0 {
            word.rotate_left(1);
        }
        if i % 4 == 0 {
            word = word.map(|byte| sbox()[usize::from(byte)]);
        }
        if i % 8 == 0 {
            word[0] ^= constant;
            constant = twice(constant);
        }
        words.push(std::array::from_fn(|j| word[j] ^ words[i - 8][j]));
    }
    std::array::from_fn(|i| std::array::from_fn(|j| words[4 * i + j / 4][j % 4]))
}

fn encrypted(keys: &[[u8; 16]; 15], block: [u8; 16]) -> [u8; 16] {
    let xor = |a: [u8; 16], b: &[u8; 16]| -> [u8; 16] { std::array::from_fn(|i| a[i] ^ b[i]) };
    let mut state = xor(block, &keys[0]);
    for (round, key) in keys.iter().enumerate().skip(1) {
        let bytes = state.map(|byte| sbox()[usize::from(byte)]);
        // row i of each column comes from i columns to the right
        let shifted: [u8; 16] = std::array::from_fn(|i| bytes[(i + 4 * (i % 4)) % 16]);
        let mixed = if round == 14 {
            shifted
        } else {
            std::array::from_fn(|i| {
                let at = |j: usize| shifted[i / 4 * 4 + (i + j) % 4];
                twice(at(0)) ^ twice(at(1)) ^ at(1) ^ at(2) ^ at(3)
            })
        };
        state = xor(mixed, key);
    }
    state
}

/// The product of two blocks, whose first bit is that of x^0, modulo x^128 + x^7 + x^2 + x + 1.
fn block_product(a: u128, b: u128) -> u128 {
    let (mut power, mut sum) = (b, 0);
    for bit in (0..128).rev() {
        if a >> bit & 1 == 1 {
            sum ^= power;
        }
        power = (power >> 1) ^ (if power & 1 == 0 { 0 } else { 0xe1 << 120 });
    }
    sum
}

/// The keys of a connection.
pub struct PlainKeys {
    rounds: [[u8; 16]; 15],
    fulfillment: [u8; 32],
}

impl PlainKeys {
    pub fn of(secret: &[u8; 32]) -> PlainKeys {
        PlainKeys {
            rounds: round_keys(&hmac(secret, b"ilp_stream_encryption")),
            fulfillment: hmac(secret, b"ilp_stream_fulfillment"),
        }
    }

    /// A block of the key stream of GCM with an IV.
    fn stream(&self, iv: &[u8], counter: u32) -> [u8; 16] {
        let mut block = [0; 16];
        block[..12].copy_from_slice(iv);
        block[12..].copy_from_slice(&counter.to_be_bytes());
        encrypted(&self.rounds, block)
    }

    /// A text encrypted, or decrypted.
    fn turned(&self, iv: &[u8], text: &[u8]) -> Vec<u8> {
        let blocks = text.chunks(16).zip(2..);
        let turned = blocks.flat_map(|(block, counter)| {
            let stream = self.stream(iv, counter);
            block
                .iter()
                .zip(stream)
                .map(|(a, b)| a ^ b)
                .collect::<Vec<u8>>()
        });
        turned.collect()
    }

    /// The tag of a ciphertext, without other data.
    fn tag(&self, iv: &[u8], cipher: &[u8]) -> [u8; 16] {
        let hash = u128::from_be_bytes(encrypted(&self.rounds, [0; 16]));
        let mut sum = 0;
        for block in cipher.chunks(16) {
            let mut whole = [0; 16];
            whole[..block.len()].copy_from_slice(block);
            sum = block_product(sum ^ u128::from_be_bytes(whole), hash);
        }
        sum = block_product(sum ^ (8 * cipher.len() as u128), hash);
        (sum ^ u128::from_be_bytes(self.stream(iv, 1))).to_be_bytes()
    }

    /// The payload of a text: IV, tag and ciphertext.
    pub fn seal(&self, iv: &[u8; 12], text: &[u8]) -> Vec<u8> {
        let cipher = self.turned(iv, text);
        [iv.as_slice(), &self.tag(iv, &cipher), &cipher].concat()
    }

    /// The text of a payload, if it is one.
    pub fn open(&self, payload: &[u8]) -> Option<Vec<u8>> {
        let (iv, rest) = payload.split_at_checked(12)?;
        let (tag, cipher) = rest.split_at_checked(16)?;
        (tag == self.tag(iv, cipher)).then(|| self.turned(iv, cipher))
    }

    pub fn fulfillment(&self, payload: &[u8]) -> [u8; 32] {
        hmac(&self.fulfillment, payload)
    }
}

#[test]
fn vectors_from_the_standards() {
    let hex = |bytes: &[u8]| {
        bytes
            .iter()
            .map(|byte| format!("{byte:02x}"))
            .collect::<String>()
    };
    // FIPS 180-4, "abc"
    let abc = "ba7816bf8f01cfea414140de5dae2223b00361a396177a9cb410ff61f20015ad";
    assert_eq!(hex(&sha256(b"abc")), abc);
    // FIPS 197, appendix C.3
    let key: [u8; 32] = std::array::from_fn(|i| i as u8);
    let text: [u8; 16] = std::array::from_fn(|i| i as u8 * 0x11);
    let cipher = encrypted(&round_keys(&key), text);
    assert_eq!(hex(&cipher), "8ea2b7ca516745bfeafc49904b496089");
    // the GCM submission, test case 14
    let keys = PlainKeys {
        rounds: round_keys(&[0; 32]),
        fulfillment: [0; 32],
    };
    let payload = keys.seal(&[0; 12], &[0; 16]);
    assert_eq!(hex(&payload[28..]), "cea7403d4d606b6e074ec5d3baf39d18");
    assert_eq!(hex(&payload[12..28]), "d0d1c8a799996bf0265b98b5d48ab919");
}
