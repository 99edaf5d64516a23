//! A second reader of STREAM packets (RFC 0029, section 5.2), from their bytes to their fields.

use super::ilp::is_address;
use super::oer;
use super::prepares::put_octets;
use super::refusal::Refusal;

/// A frame of a known type (RFC 0029, section 5.3).
#[derive(Clone, Copy, Debug, PartialEq, Eq)]
pub struct PlainFrame<'a> {
    /// Its index among all frames of the packet.
    pub index: u64,
    /// Its type.
    pub kind: u8,
    /// Its numbers in the order of RFC 0029, section 5.3; 0 for those that the type does not have.
    pub numbers: [u64; 3],
    /// Its text, address or data; empty if it has none.
    pub bytes: &'a [u8],
}

impl<'a> PlainFrame<'a> {
    /// Whether this is the same frame.
    pub fn is(&self, other: &PlainFrame<'_>) -> bool {
        let [a, b, c] = self.numbers;
        let [x, y, z] = other.numbers;
        self.index == other.index
            && self.kind == other.kind
            && a == x
            && b == y
            && c == z
            && self.bytes == other.bytes
    }
}

/// The numbers of a packet and its frames of known types.
pub struct PlainPacket<'a> {
    /// The sequence number.
    pub sequence: u64,
    /// The amount field (RFC 0029, section 5.2), in units.
    pub amount: u64,
    /// The frames of known types, in their order.
    pub frames: Vec<PlainFrame<'a>>,
}

/// A field of a frame's contents.
#[derive(Clone, Copy)]
enum Field {
    Byte,
    Number,
    Limit,
    Data,
    Text,
    Address,
}

/// The fields of a known frame (RFC 0029, section 5.3).
fn fields(kind: u8) -> Option<&'static [Field]> {
    let fields: &'static [Field] = match kind {
        0x01 => &[Field::Byte, Field::Text],
        0x02 => &[Field::Address],
        0x03 | 0x04 => &[Field::Limit],
        0x10 => &[Field::Number, Field::Byte, Field::Text],
        0x11 => &[Field::Number, Field::Number],
        0x12 | 0x13 => &[Field::Number, Field::Limit, Field::Limit],
        0x14 => &[Field::Number, Field::Number, Field::Data],
        0x15 | 0x16 => &[Field::Number, Field::Limit],
        _ => return None,
    };
    Some(fields)
}

/// The number of a field, or its bytes, and the rest. None if it is malformed.
fn read_field(kind: Field, bytes: &[u8]) -> Option<(u64, &[u8], &[u8])> {
    match kind {
        Field::Byte => oer::uint8(bytes)
            .ok()
            .map(|(byte, rest)| (u64::from(byte), &bytes[..0], rest)),
        Field::Number => oer::var_uint(bytes)
            .ok()
            .map(|(number, rest)| (number, &bytes[..0], rest)),
        Field::Limit => oer::limit(bytes)
            .ok()
            .map(|(number, rest)| (number, &bytes[..0], rest)),
        Field::Data | Field::Text | Field::Address => {
            let (text, rest) = oer::octets(bytes).ok()?;
            let is_lawful = match kind {
                Field::Text => std::str::from_utf8(text).is_ok(),
                Field::Address => text.is_empty() || is_address(text),
                _ => true,
            };
            if is_lawful {
                Some((0, text, rest))
            } else {
                None
            }
        }
    }
}

/// A known frame of these contents. None if they are malformed.
fn known<'a>(index: u64, kind: u8, fields: &[Field], contents: &'a [u8]) -> Option<PlainFrame<'a>> {
    let mut frame = PlainFrame {
        index,
        kind,
        numbers: [0; 3],
        bytes: &contents[..0],
    };
    let mut rest = contents;
    let mut place = 0usize;
    for kind in fields {
        let (number, bytes, behind) = read_field(*kind, rest)?;
        rest = behind;
        match kind {
            Field::Byte | Field::Number | Field::Limit => {
                if let Some(slot) = frame.numbers.get_mut(place) {
                    *slot = number;
                }
                place = place.saturating_add(1);
            }
            Field::Data | Field::Text | Field::Address => frame.bytes = bytes,
        }
    }
    Some(frame)
}

/// The type and the contents of a frame, and the rest.
fn raw(bytes: &[u8]) -> Result<(u8, &[u8], &[u8]), u64> {
    let (kind, rest) = oer::uint8(bytes)?;
    let (contents, rest) = oer::octets(rest)?;
    Ok((kind, contents, rest))
}

/// A packet's numbers: sequence, amount and count of frames.
#[derive(Clone, Copy)]
struct Skeleton<'a> {
    sequence: u64,
    amount: u64,
    count: u64,
    frames: &'a [u8],
}

/// The numbers of a packet, whose frames have types and lengths.
fn read_skeleton(bytes: &[u8]) -> Result<Skeleton<'_>, u64> {
    let (sequence, rest) = oer::var_uint(bytes)?;
    let (amount, rest) = oer::var_uint(rest)?;
    let (count, frames) = oer::var_uint(rest)?;
    let mut rest = frames;
    for _ in 0..count {
        let (_, _, behind) = raw(rest)?;
        rest = behind;
    }
    Ok(Skeleton {
        sequence,
        amount,
        count,
        frames,
    })
}

/// The bytes after version and kind.
fn behind_kind(bytes: &[u8], kind: u8) -> Result<&[u8], Refusal> {
    if bytes.len() > 32_739 {
        return Err(Refusal::alone(24));
    }
    match bytes {
        [] => Err(Refusal::around(22, 1)),
        [version, ..] if *version != 1 => Err(Refusal::alone(20)),
        [_] => Err(Refusal::around(22, 1)),
        [_, other, ..] if *other != kind => Err(Refusal::alone(21)),
        [_, _, rest @ ..] => Ok(rest),
    }
}

/// The known frames, or the index of the first whose contents are malformed.
fn known_frames<'a>(skeleton: Skeleton<'a>) -> Result<Vec<PlainFrame<'a>>, u64> {
    let mut frames = Vec::new();
    let mut rest = skeleton.frames;
    for index in 0..skeleton.count {
        let Ok((kind, contents, behind)) = raw(rest) else {
            return Err(index);
        };
        rest = behind;
        if let Some(fields) = fields(kind) {
            match known(index, kind, fields, contents) {
                Some(frame) => frames.push(frame),
                None => return Err(index),
            }
        }
    }
    Ok(frames)
}

/// The STREAM packet that bytes spell, which an ILP packet of this type carried. Fails with the first rule that they break.
pub fn packet<'a>(bytes: &'a [u8], kind: u8) -> Result<PlainPacket<'a>, Refusal> {
    let rest = behind_kind(bytes, kind)?;
    let skeleton = match read_skeleton(rest) {
        Ok(skeleton) => skeleton,
        Err(fault) => return Err(Refusal::around(22, fault)),
    };
    match known_frames(skeleton) {
        Ok(frames) => Ok(PlainPacket {
            sequence: skeleton.sequence,
            amount: skeleton.amount,
            frames,
        }),
        Err(index) => Err(Refusal::around(23, index)),
    }
}

/// A number in its shortest form, after its length.
fn put_var_uint(out: &mut Vec<u8>, number: u64) {
    let digits = number.to_be_bytes();
    let zeros = digits
        .iter()
        .take(7)
        .take_while(|digit| **digit == 0)
        .count();
    put_octets(out, &digits[zeros..]);
}

/// The bytes of a packet with these frames (RFC 0029, section 5.2), lawful or not.
pub fn packet_bytes(kind: u8, sequence: u64, amount: u64, frames: &[PlainFrame<'_>]) -> Vec<u8> {
    let mut out = vec![1, kind];
    for number in [sequence, amount, frames.len() as u64] {
        put_var_uint(&mut out, number);
    }
    for frame in frames {
        let mut contents = Vec::new();
        let mut numbers = frame.numbers.iter();
        for field in fields(frame.kind).unwrap_or(&[]) {
            match field {
                Field::Byte => contents.push(*numbers.next().unwrap_or(&0) as u8),
                Field::Number | Field::Limit => {
                    put_var_uint(&mut contents, *numbers.next().unwrap_or(&0))
                }
                Field::Data | Field::Text | Field::Address => {
                    put_octets(&mut contents, frame.bytes)
                }
            }
        }
        out.push(frame.kind);
        put_octets(&mut out, &contents);
    }
    out
}
