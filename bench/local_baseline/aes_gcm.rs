//! AES-256 (FIPS 197) by word tables, and its Galois/counter mode (SP 800-38D) by a table of the 256 multiples of the hash key.
//! IVs have 12 bytes, tags 16, and there is no associated data.

/// Twice an element of the cipher's field.
const fn twice(x: u8) -> u8 {
    (x << 1) ^ (if x & 0x80 == 0 { 0 } else { 0x1b })
}

/// The S-box: `power` runs over the powers of 3, and `inverse` over their inverses.
static SBOX: [u8; 256] = {
    let mut table = [0x63; 256];
    let (mut power, mut inverse) = (1, 1_u8);
    let mut count = 0;
    while count < 255 {
        let turned = inverse.rotate_left(1) ^ inverse.rotate_left(2) ^ inverse.rotate_left(3) ^ inverse.rotate_left(4);
        table[power as usize] = inverse ^ turned ^ 0x63;
        power ^= twice(power);
        inverse ^= inverse << 1;
        inverse ^= inverse << 2;
        inverse ^= inverse << 4;
        inverse ^= if inverse & 0x80 == 0 { 0 } else { 0x09 };
        count += 1;
    }
    table
};

/// What a byte adds to its column in a round (SubBytes and MixColumns), for its place in the column.
static COLUMNS: [[u32; 256]; 4] = {
    let mut tables = [[0; 256]; 4];
    let mut byte = 0;
    while byte < 256 {
        let one = SBOX[byte];
        let two = twice(one);
        let column = u32::from_be_bytes([two, one, one, two ^ one]);
        let mut place = 0;
        while place < 4 {
            tables[place][byte] = column.rotate_right(8 * place as u32);
            place += 1;
        }
        byte += 1;
    }
    tables
};

/// What the byte that leaves a block of the hash on the right adds to its first two bytes.
static REDUCED: [u16; 256] = {
    let mut table = [0; 256];
    let mut byte = 0;
    while byte < 256 {
        let mut block = byte as u128;
        let mut count = 0;
        while count < 8 {
            block = times_x(block);
            count += 1;
        }
        table[byte] = (block >> 112) as u16;
        byte += 1;
    }
    table
};

/// A block times x, in the field of the hash, whose first bit is the coefficient of 1.
const fn times_x(block: u128) -> u128 {
    (block >> 1) ^ (if block & 1 == 0 { 0 } else { 0xe1 << 120 })
}

/// A key with its round keys, and the multiples of its hash key by each byte.
pub struct Key {
    rounds: [[u32; 4]; 15],
    multiples: [u128; 256],
}

fn substituted(word: u32) -> u32 {
    u32::from_be_bytes(word.to_be_bytes().map(|byte| SBOX[usize::from(byte)]))
}

fn round_keys(key: &[u8; 32]) -> [[u32; 4]; 15] {
    let mut words = [0; 60];
    for (word, bytes) in words.iter_mut().zip(key.as_chunks::<4>().0) {
        *word = u32::from_be_bytes(*bytes);
    }
    let mut constant = 1;
    for i in 8..60 {
        let mut word = words[i - 1];
        if i % 8 == 0 {
            word = substituted(word.rotate_left(8)) ^ u32::from(constant) << 24;
            constant = twice(constant);
        } else if i % 8 == 4 {
            word = substituted(word);
        }
        words[i] = words[i - 8] ^ word;
    }
    std::array::from_fn(|round| std::array::from_fn(|column| words[4 * round + column]))
}

/// The product of the hash key and each byte, as the first byte of a block.
fn multiples(hash_key: u128) -> [u128; 256] {
    let mut table = [0; 256];
    let mut power = hash_key;
    for bit in (0..8).rev() {
        table[1 << bit] = power;
        power = times_x(power);
    }
    for byte in 1..256_usize {
        let lowest = byte & byte.wrapping_neg();
        table[byte] = table[lowest] ^ table[byte ^ lowest];
    }
    table
}

impl Key {
    pub fn new(key: &[u8; 32]) -> Key {
        let mut key = Key { rounds: round_keys(key), multiples: [0; 256] };
        key.multiples = multiples(key.block(0));
        key
    }

    /// A block encrypted.
    pub fn block(&self, block: u128) -> u128 {
        let byte = |word: u32, place: u32| usize::from((word >> (24 - 8 * place)) as u8);
        let [first, middle @ .., last] = &self.rounds;
        let column = |i: u32| (block >> (96 - 32 * i)) as u32;
        let mut state = [column(0) ^ first[0], column(1) ^ first[1], column(2) ^ first[2], column(3) ^ first[3]];
        for key in middle {
            let [a, b, c, d] = state;
            let mixed = |w: u32, x: u32, y: u32, z: u32| {
                COLUMNS[0][byte(w, 0)] ^ COLUMNS[1][byte(x, 1)] ^ COLUMNS[2][byte(y, 2)] ^ COLUMNS[3][byte(z, 3)]
            };
            state =
                [mixed(a, b, c, d) ^ key[0], mixed(b, c, d, a) ^ key[1], mixed(c, d, a, b) ^ key[2], mixed(d, a, b, c) ^ key[3]];
        }
        let [a, b, c, d] = state;
        let plain = |w: u32, x: u32, y: u32, z: u32| {
            u32::from_be_bytes([SBOX[byte(w, 0)], SBOX[byte(x, 1)], SBOX[byte(y, 2)], SBOX[byte(z, 3)]])
        };
        let columns = [plain(a, b, c, d), plain(b, c, d, a), plain(c, d, a, b), plain(d, a, b, c)];
        columns.iter().zip(last).fold(0, |block, (column, key)| block << 32 | u128::from(column ^ key))
    }

    /// A block times the hash key.
    fn product(&self, block: u128) -> u128 {
        block.to_le_bytes().iter().fold(0_u128, |sum, byte| {
            let reduced = REDUCED[usize::from(sum as u8)];
            (sum >> 8) ^ (u128::from(reduced) << 112) ^ self.multiples[usize::from(*byte)]
        })
    }

    /// The first counter block of an IV.
    fn counter(iv: &[u8; 12]) -> u128 {
        iv.iter().fold(0, |block, byte| block << 8 | u128::from(*byte)) << 32 | 1
    }

    /// Adds the key stream to a text.
    fn crypt(&self, iv: &[u8; 12], text: &mut [u8]) {
        let mut counter = Key::counter(iv);
        let (blocks, rest) = text.as_chunks_mut::<16>();
        for block in blocks {
            counter += 1;
            *block = (u128::from_be_bytes(*block) ^ self.block(counter)).to_be_bytes();
        }
        for (byte, key) in rest.iter_mut().zip(self.block(counter + 1).to_be_bytes()) {
            *byte ^= key;
        }
    }

    /// The tag of an encrypted text.
    fn tag(&self, iv: &[u8; 12], text: &[u8]) -> [u8; 16] {
        let (blocks, rest) = text.as_chunks::<16>();
        let mut sum = 0;
        for block in blocks {
            sum = self.product(sum ^ u128::from_be_bytes(*block));
        }
        if !rest.is_empty() {
            let mut block = [0; 16];
            block[..rest.len()].copy_from_slice(rest);
            sum = self.product(sum ^ u128::from_be_bytes(block));
        }
        sum = self.product(sum ^ (8 * text.len() as u128));
        (sum ^ self.block(Key::counter(iv))).to_be_bytes()
    }

    /// Encrypts a text in place and gives its tag.
    pub fn seal(&self, iv: &[u8; 12], text: &mut [u8]) -> [u8; 16] {
        self.crypt(iv, text);
        self.tag(iv, text)
    }

    /// Decrypts a text in place if the tag is right; if not, the text stays as it is.
    pub fn open(&self, iv: &[u8; 12], tag: &[u8; 16], text: &mut [u8]) -> bool {
        let differs = self.tag(iv, text).iter().zip(tag).fold(0, |sum, (one, other)| sum | (one ^ other));
        if differs == 0 {
            self.crypt(iv, text);
        }
        differs == 0
    }
}
