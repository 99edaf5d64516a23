//! SHA-256 (FIPS 180-4) and HMAC (RFC 2104), in scalar code.

const ROUNDS: [u32; 64] = [
    0x428a2f98, 0x71374491, 0xb5c0fbcf, 0xe9b5dba5, 0x3956c25b, 0x59f111f1, 0x923f82a4, 0xab1c5ed5, 0xd807aa98, 0x12835b01,
    0x243185be, 0x550c7dc3, 0x72be5d74, 0x80deb1fe, 0x9bdc06a7, 0xc19bf174, 0xe49b69c1, 0xefbe4786, 0x0fc19dc6, 0x240ca1cc,
    0x2de92c6f, 0x4a7484aa, 0x5cb0a9dc, 0x76f988da, 0x983e5152, 0xa831c66d, 0xb00327c8, 0xbf597fc7, 0xc6e00bf3, 0xd5a79147,
    0x06ca6351, 0x14292967, 0x27b70a85, 0x2e1b2138, 0x4d2c6dfc, 0x53380d13, 0x650a7354, 0x766a0abb, 0x81c2c92e, 0x92722c85,
    0xa2bfe8a1, 0xa81a664b, 0xc24b8b70, 0xc76c51a3, 0xd192e819, 0xd6990624, 0xf40e3585, 0x106aa070, 0x19a4c116, 0x1e376c08,
    0x2748774c, 0x34b0bcb5, 0x391c0cb3, 0x4ed8aa4a, 0x5b9cca4f, 0x682e6ff3, 0x748f82ee, 0x78a5636f, 0x84c87814, 0x8cc70208,
    0x90befffa, 0xa4506ceb, 0xbef9a3f7, 0xc67178f2,
];

const START: [u32; 8] = [0x6a09e667, 0xbb67ae85, 0x3c6ef372, 0xa54ff53a, 0x510e527f, 0x9b05688c, 0x1f83d9ab, 0x5be0cd19];

/// The message schedule of a block.
fn schedule(block: &[u8; 64]) -> [u32; 64] {
    let mut words = [0; 64];
    for (word, bytes) in words.iter_mut().zip(block.as_chunks::<4>().0) {
        *word = u32::from_be_bytes(*bytes);
    }
    for i in 16..64 {
        let (x, y) = (words[i - 15], words[i - 2]);
        let low = x.rotate_right(7) ^ x.rotate_right(18) ^ (x >> 3);
        let high = y.rotate_right(17) ^ y.rotate_right(19) ^ (y >> 10);
        words[i] = words[i - 16].wrapping_add(low).wrapping_add(words[i - 7]).wrapping_add(high);
    }
    words
}

/// Absorbs a block. Of the eight words of the state a round changes two, and the next round has each under the next name.
fn compress(state: &mut [u32; 8], block: &[u8; 64]) {
    let words = schedule(block);
    let mut now = *state;
    for (constants, words) in ROUNDS.as_chunks::<8>().0.iter().zip(words.as_chunks::<8>().0) {
        for i in 0..8 {
            let [a, b, c, d, e, f, g, h] = std::array::from_fn(|name| (name + 8 - i) % 8);
            let choice = now[g] ^ (now[e] & (now[f] ^ now[g]));
            let sum = now[e].rotate_right(6) ^ now[e].rotate_right(11) ^ now[e].rotate_right(25);
            let first = now[h].wrapping_add(constants[i].wrapping_add(words[i])).wrapping_add(choice).wrapping_add(sum);
            let majority = (now[a] & now[b]) ^ (now[c] & (now[a] ^ now[b]));
            let sum = now[a].rotate_right(2) ^ now[a].rotate_right(13) ^ now[a].rotate_right(22);
            now[d] = now[d].wrapping_add(first);
            now[h] = first.wrapping_add(sum).wrapping_add(majority);
        }
    }
    for (word, new) in state.iter_mut().zip(now) {
        *word = word.wrapping_add(new);
    }
}

/// The hash of `before` bytes, whole blocks that `state` has absorbed, and of the text after them.
fn finish(mut state: [u32; 8], before: usize, text: &[u8]) -> [u8; 32] {
    let (blocks, rest) = text.as_chunks::<64>();
    for block in blocks {
        compress(&mut state, block);
    }
    let mut last = [0; 128];
    last[..rest.len()].copy_from_slice(rest);
    last[rest.len()] = 0x80;
    let size = if rest.len() < 56 { 64 } else { 128 };
    last[size - 8..size].copy_from_slice(&((before + text.len()) as u64 * 8).to_be_bytes());
    for block in last[..size].as_chunks::<64>().0 {
        compress(&mut state, block);
    }
    let mut digest = [0; 32];
    for (bytes, word) in digest.as_chunks_mut::<4>().0.iter_mut().zip(state) {
        *bytes = word.to_be_bytes();
    }
    digest
}

pub fn sha256(text: &[u8]) -> [u8; 32] {
    finish(START, 0, text)
}

/// HMAC-SHA256 under one key: the states after its two padded keys.
pub struct Hmac {
    inner: [u32; 8],
    outer: [u32; 8],
}

impl Hmac {
    /// For a key of at most 64 bytes.
    pub fn new(key: &[u8]) -> Hmac {
        let keyed = |pad: u8| {
            let mut block = [pad; 64];
            for (byte, key) in block.iter_mut().zip(key) {
                *byte ^= key;
            }
            let mut state = START;
            compress(&mut state, &block);
            state
        };
        Hmac { inner: keyed(0x36), outer: keyed(0x5c) }
    }

    pub fn of(&self, text: &[u8]) -> [u8; 32] {
        finish(self.outer, 64, &finish(self.inner, 64, text))
    }
}
