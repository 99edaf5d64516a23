//! Hostile bytes, made from samples.

use crate::seeds::Numbers;

/// The samples from which hostile bytes of one format are made.
#[derive(Clone, Copy)]
pub struct Samples<'a> {
    /// Valid messages.
    pub lawful: &'a [&'a [u8]],
    /// Beginnings of valid messages.
    pub fronts: &'a [&'a [u8]],
    /// Bytes that such messages often have.
    pub common: &'a [u8],
    /// Fewer than this number of random bytes follow a beginning.
    pub behind: u64,
}

/// How a message is changed at each place: cut off there (`None`), or with one of these bytes put there.
pub const EDGES: [Option<u8>; 5] = [None, Some(0x00), Some(0x7f), Some(0x80), Some(0xff)];

/// The bytes up to a place, and, if `byte` is given, that byte and the rest of the message.
pub fn changed_at(bytes: &[u8], at: usize, byte: Option<u8>) -> Vec<u8> {
    let (front, behind) = bytes.split_at(at.min(bytes.len()));
    let mut out = front.to_vec();
    if let (Some(byte), [_, rest @ ..]) = (byte, behind) {
        out.push(byte);
        out.extend_from_slice(rest);
    }
    out
}

impl<'a> Samples<'a> {
    /// Hostile bytes: half of the time a valid message with one to three changes, and else random bytes after a
    /// beginning.
    pub fn hostile(&self, numbers: &mut Numbers) -> Vec<u8> {
        if numbers.below(2) == 0 {
            self.random(numbers)
        } else {
            let lawful = numbers.pick(self.lawful);
            self.changed(numbers, lawful)
        }
    }

    /// Random bytes after a front.
    fn random(&self, numbers: &mut Numbers) -> Vec<u8> {
        let mut out = numbers.pick(self.fronts).to_vec();
        let count = numbers.below(self.behind);
        self.put_random(&mut out, numbers, count);
        out
    }

    fn put_random(&self, out: &mut Vec<u8>, numbers: &mut Numbers, count: u64) {
        for _ in 0..count {
            out.push(numbers.byte(self.common));
        }
    }

    /// These bytes with one to three changes.
    pub fn changed(&self, numbers: &mut Numbers, bytes: &[u8]) -> Vec<u8> {
        let mut out = self.changed_once(numbers, bytes);
        for _ in 0..numbers.below(3) {
            out = self.changed_once(numbers, &out);
        }
        out
    }

    /// These bytes with one change, at any place, also after the last.
    fn changed_once(&self, numbers: &mut Numbers, bytes: &[u8]) -> Vec<u8> {
        let at = numbers.place(bytes.len().saturating_add(1));
        let (front, rest) = bytes.split_at(at.min(bytes.len()));
        let mut out = front.to_vec();
        if numbers.below(2) == 0 {
            self.put_other_run(&mut out, numbers, rest);
        } else {
            self.put_other_length(&mut out, numbers, rest);
        }
        out
    }

    /// The rest, whose first one to eight bytes are replaced, removed, doubled or overwritten.
    fn put_other_run(&self, out: &mut Vec<u8>, numbers: &mut Numbers, rest: &[u8]) {
        let size = numbers.place(8).saturating_add(1);
        let (run, behind) = rest.split_at(size.min(rest.len()));
        match numbers.below(4) {
            0 => self.put_random(out, numbers, run.len() as u64),
            1 => {}
            2 => {
                out.extend_from_slice(run);
                out.extend_from_slice(run);
            }
            _ => {
                let edge = numbers.pick(&[b"\x00", b"\x7f", b"\x80", b"\xff"]);
                for _ in run {
                    out.extend_from_slice(edge);
                }
            }
        }
        out.extend_from_slice(behind)
    }

    /// Nothing; the tail of another lawful message; or the rest, with its first byte (which may be a length) one more or one
    /// less, or after one to eight random bytes, by whose number one of the first bytes may be raised.
    fn put_other_length(&self, out: &mut Vec<u8>, numbers: &mut Numbers, rest: &[u8]) {
        let size = numbers.below(8).saturating_add(1);
        match numbers.below(5) {
            0 => {}
            1 => {
                let other = numbers.pick(self.lawful);
                let (_, tail) = other.split_at(numbers.place(other.len()));
                out.extend_from_slice(tail)
            }
            2 => put_shifted(out, numbers, rest),
            choice => {
                let at = numbers.place(out.len().min(8));
                if let (3, Some(length)) = (choice, out.get_mut(at)) {
                    *length = length.wrapping_add((size & 0xff) as u8);
                }
                self.put_random(out, numbers, size);
                out.extend_from_slice(rest)
            }
        }
    }
}

/// The bytes, with the first of them one more or one less.
fn put_shifted(out: &mut Vec<u8>, numbers: &mut Numbers, bytes: &[u8]) {
    if let [first, behind @ ..] = bytes {
        let shift = if numbers.below(2) == 0 { 1 } else { 255 };
        out.push(first.wrapping_add(shift));
        out.extend_from_slice(behind);
    }
}
