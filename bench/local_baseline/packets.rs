//! The packets of a run: fields by OER (RFC 0030), ILPv4 packets (RFC 0027) and STREAM packets (RFC 0029).

use std::ops::Range;

/// The most data of an ILP packet, and the most bytes of a STREAM packet, which are sealed with an IV and a tag.
pub const MOST_DATA: usize = 32_767;
pub const MOST_PLAIN: usize = MOST_DATA - 28;

/// Bytes that are not a packet.
#[derive(Debug)]
pub struct Malformed;

/// The bytes that are left to read.
struct Cut<'a>(&'a [u8]);

impl<'a> Cut<'a> {
    fn fixed(&mut self, count: usize) -> Result<&'a [u8], Malformed> {
        let (front, rest) = self.0.split_at_checked(count).ok_or(Malformed)?;
        self.0 = rest;
        Ok(front)
    }

    fn array<const N: usize>(&mut self) -> Result<[u8; N], Malformed> {
        self.fixed(N)?.try_into().map_err(|_| Malformed)
    }

    fn length(&mut self) -> Result<usize, Malformed> {
        let [first] = self.array()?;
        if first < 0x80 {
            return Ok(usize::from(first));
        }
        let digits = self.fixed(usize::from(first - 0x80))?;
        match big_endian(digits) {
            Some(length) if length >= 128 && digits[0] != 0 => usize::try_from(length).map_err(|_| Malformed),
            _ => Err(Malformed),
        }
    }

    fn octets(&mut self) -> Result<&'a [u8], Malformed> {
        let length = self.length()?;
        self.fixed(length)
    }

    fn text(&mut self) -> Result<&'a str, Malformed> {
        std::str::from_utf8(self.octets()?).map_err(|_| Malformed)
    }

    /// The digits of a number, as few as possible.
    fn digits(&mut self) -> Result<&'a [u8], Malformed> {
        match self.octets()? {
            [] | [0, _, ..] => Err(Malformed),
            digits => Ok(digits),
        }
    }

    fn number(&mut self) -> Result<u64, Malformed> {
        big_endian(self.digits()?).ok_or(Malformed)
    }

    /// A limit, which may be longer than eight bytes.
    fn limit(&mut self) -> Result<u64, Malformed> {
        Ok(big_endian(self.digits()?).unwrap_or(u64::MAX))
    }
}

/// A number of at most eight bytes.
fn big_endian(digits: &[u8]) -> Option<u64> {
    (digits.len() <= 8).then(|| digits.iter().fold(0, |number, digit| number << 8 | u64::from(*digit)))
}

fn put_length(out: &mut Vec<u8>, length: usize) {
    if length < 128 {
        out.push(length as u8);
    } else {
        let digits = length.to_be_bytes();
        let zeros = length.leading_zeros() as usize / 8;
        out.push(0x80 + (digits.len() - zeros) as u8);
        out.extend_from_slice(&digits[zeros..]);
    }
}

fn length_size(length: usize) -> usize {
    if length < 128 { 1 } else { 1 + (usize::BITS - length.leading_zeros()).div_ceil(8) as usize }
}

fn put_octets(out: &mut Vec<u8>, bytes: &[u8]) {
    put_length(out, bytes.len());
    out.extend_from_slice(bytes);
}

fn put_number(out: &mut Vec<u8>, number: u64) {
    put_octets(out, &number.to_be_bytes()[8 - number_size(number)..]);
}

/// The bytes of a number, without their length.
fn number_size(number: u64) -> usize {
    8 - (number.leading_zeros() as usize / 8).min(7)
}

// ILPv4 packets.

pub const PREPARE: u8 = 12;
pub const FULFILL: u8 = 13;
const REJECT: u8 = 14;

pub struct Prepare<'a> {
    pub amount: u64,
    /// In milliseconds since 1970.
    pub expiry: i64,
    pub condition: [u8; 32],
    pub destination: &'a str,
    pub data: &'a [u8],
}

pub enum Answer<'a> {
    Fulfill { fulfillment: [u8; 32], data: &'a [u8] },
    Reject { code: [u8; 3] },
}

/// An ILP address, by RFC 0015.
fn is_address(text: &str) -> bool {
    let is_valid = |part: &str| !part.is_empty() && part.bytes().all(|it| it.is_ascii_alphanumeric() || b"_~-".contains(&it));
    text.len() <= 1_023 && text.split('.').all(is_valid)
}

/// The days from 1970-01-01 to a date. Years are counted from March.
fn days_to(year: i64, month: i64, day: i64) -> i64 {
    let year = if month <= 2 { year - 1 } else { year };
    let day_of_year = (153 * ((month + 9) % 12) + 2) / 5 + day - 1;
    let years = year.rem_euclid(400);
    year.div_euclid(400) * 146_097 + years * 365 + years / 4 - years / 100 + day_of_year - 719_468
}

/// The year, the month and the day, by the days from 1970-01-01.
fn date_after(days: i64) -> (i64, i64, i64) {
    let days = days + 719_468;
    let (era, days) = (days.div_euclid(146_097), days.rem_euclid(146_097));
    let years = (days - days / 1_460 + days / 36_524 - days / 146_096) / 365;
    let day_of_year = days - (365 * years + years / 4 - years / 100);
    let months = (5 * day_of_year + 2) / 153;
    let month = if months < 10 { months + 3 } else { months - 9 };
    (400 * era + years + i64::from(month <= 2), month, day_of_year - (153 * months + 2) / 5 + 1)
}

fn read_expiry(digits: &[u8; 17]) -> Result<i64, Malformed> {
    let number = |range: Range<usize>| digits[range].iter().fold(0, |sum, digit| 10 * sum + i64::from(digit - b'0'));
    if !digits.iter().all(u8::is_ascii_digit) {
        return Err(Malformed);
    }
    let (year, month, day) = (number(0..4), number(4..6), number(6..8));
    let (hour, minute, second) = (number(8..10), number(10..12), number(12..14));
    let days = days_to(year, month, day);
    if date_after(days) != (year, month, day) || hour > 23 || minute > 59 || second > 59 {
        return Err(Malformed);
    }
    Ok((((days * 24 + hour) * 60 + minute) * 60 + second) * 1_000 + number(14..17))
}

fn expiry_digits(expiry: i64) -> [u8; 17] {
    let (year, month, day) = date_after(expiry.div_euclid(86_400_000));
    let time = expiry.rem_euclid(86_400_000);
    let clock = (time / 3_600_000 * 100 + time / 60_000 % 60) * 100_000 + time % 60_000;
    let mut number = ((year * 100 + month) * 100 + day) * 1_000_000_000 + clock;
    let mut digits = [b'0'; 17];
    for digit in digits.iter_mut().rev() {
        *digit += (number % 10) as u8;
        number /= 10;
    }
    digits
}

/// The kind and the contents of a packet.
fn contents(bytes: &[u8]) -> Result<(u8, Cut<'_>), Malformed> {
    let mut cut = Cut(bytes);
    let ([kind], contents) = (cut.array()?, cut.octets()?);
    if cut.0.is_empty() { Ok((kind, Cut(contents))) } else { Err(Malformed) }
}

/// The data of a packet, its last field.
fn last<'a>(cut: &mut Cut<'a>) -> Result<&'a [u8], Malformed> {
    let data = cut.octets()?;
    if data.len() <= MOST_DATA && cut.0.is_empty() { Ok(data) } else { Err(Malformed) }
}

pub fn read_prepare(bytes: &[u8]) -> Result<Prepare<'_>, Malformed> {
    let (PREPARE, mut cut) = contents(bytes)? else { return Err(Malformed) };
    let (amount, expiry, condition) = (u64::from_be_bytes(cut.array()?), read_expiry(&cut.array()?)?, cut.array()?);
    let destination = cut.text()?;
    if !is_address(destination) {
        return Err(Malformed);
    }
    Ok(Prepare { amount, expiry, condition, destination, data: last(&mut cut)? })
}

pub fn read_answer(bytes: &[u8]) -> Result<Answer<'_>, Malformed> {
    let (kind, mut cut) = contents(bytes)?;
    match kind {
        FULFILL => Ok(Answer::Fulfill { fulfillment: cut.array()?, data: last(&mut cut)? }),
        REJECT => {
            let (code, by, _message) = (cut.array()?, cut.text()?, cut.text()?);
            last(&mut cut)?;
            if code.iter().all(u8::is_ascii_graphic) && (by.is_empty() || is_address(by)) {
                return Ok(Answer::Reject { code });
            }
            Err(Malformed)
        }
        _ => Err(Malformed),
    }
}

/// A packet of a kind: its fields before the data, and the data.
fn packet(kind: u8, fields: &[u8], data: &[u8]) -> Vec<u8> {
    let size = fields.len() + length_size(data.len()) + data.len();
    let mut out = Vec::with_capacity(1 + length_size(size) + size);
    out.push(kind);
    put_length(&mut out, size);
    out.extend_from_slice(fields);
    put_octets(&mut out, data);
    out
}

pub fn write_prepare(it: &Prepare<'_>) -> Vec<u8> {
    let mut fields = Vec::with_capacity(60 + it.destination.len());
    fields.extend_from_slice(&it.amount.to_be_bytes());
    fields.extend_from_slice(&expiry_digits(it.expiry));
    fields.extend_from_slice(&it.condition);
    put_octets(&mut fields, it.destination.as_bytes());
    packet(PREPARE, &fields, it.data)
}

pub fn write_fulfill(fulfillment: &[u8; 32], data: &[u8]) -> Vec<u8> {
    packet(FULFILL, fulfillment, data)
}

/// A Reject without a message and without data.
pub fn write_reject(code: &[u8; 3], by: &str) -> Vec<u8> {
    let mut fields = code.to_vec();
    put_octets(&mut fields, by.as_bytes());
    put_octets(&mut fields, &[]);
    packet(REJECT, &fields, &[])
}

// STREAM packets.

const VERSION: u8 = 1;

/// The frames of a run.
#[derive(Clone, Copy)]
pub enum Frame<'a> {
    ConnectionMaxData { most: u64 },
    StreamClose { stream: u64, code: u8 },
    StreamMaxMoney { stream: u64, most: u64, total: u64 },
    StreamData { stream: u64, offset: u64, bytes: &'a [u8] },
    StreamMaxData { stream: u64, most: u64 },
}

impl Frame<'_> {
    /// The stream that a frame of the client names.
    pub fn stream(&self) -> Option<u64> {
        match *self {
            Frame::StreamData { stream, .. } | Frame::StreamClose { stream, .. } => Some(stream),
            _ => None,
        }
    }
}

pub struct Packet<'a> {
    pub sequence: u64,
    pub amount: u64,
    pub frames: Vec<Frame<'a>>,
}

/// A frame with this content, if it is one of a run. Others are not looked into.
fn read_frame<'a>(kind: u8, mut cut: Cut<'a>) -> Result<Option<Frame<'a>>, Malformed> {
    Ok(Some(match kind {
        0x03 => Frame::ConnectionMaxData { most: cut.limit()? },
        0x10 => {
            let (stream, code, _message) = (cut.number()?, cut.array::<1>()?[0], cut.text()?);
            Frame::StreamClose { stream, code }
        }
        0x12 => Frame::StreamMaxMoney { stream: cut.number()?, most: cut.limit()?, total: cut.limit()? },
        0x14 => Frame::StreamData { stream: cut.number()?, offset: cut.number()?, bytes: cut.octets()? },
        0x15 => Frame::StreamMaxData { stream: cut.number()?, most: cut.limit()? },
        _ => return Ok(None),
    }))
}

/// Reads the STREAM packet of an ILP packet of a kind.
pub fn read_packet(bytes: &[u8], kind: u8) -> Result<Packet<'_>, Malformed> {
    let mut cut = Cut(bytes);
    if bytes.len() > MOST_PLAIN || cut.array()? != [VERSION, kind] {
        return Err(Malformed);
    }
    let (sequence, amount) = (cut.number()?, cut.number()?);
    let mut frames = Vec::new();
    for _ in 0..cut.number()? {
        let [kind] = cut.array()?;
        frames.extend(read_frame(kind, Cut(cut.octets()?))?);
    }
    Ok(Packet { sequence, amount, frames })
}

/// Writes a frame: its kind, its numbers, and what follows them.
fn put_fields(out: &mut Vec<u8>, kind: u8, numbers: &[u64], rest: usize) {
    out.push(kind);
    put_length(out, numbers.iter().map(|it| 1 + number_size(*it)).sum::<usize>() + rest);
    numbers.iter().for_each(|it| put_number(out, *it));
}

fn put_frame(out: &mut Vec<u8>, frame: &Frame<'_>) {
    match *frame {
        Frame::ConnectionMaxData { most } => put_fields(out, 0x03, &[most], 0),
        Frame::StreamClose { stream, code } => {
            put_fields(out, 0x10, &[stream], 2);
            out.extend_from_slice(&[code, 0]);
        }
        Frame::StreamMaxMoney { stream, most, total } => put_fields(out, 0x12, &[stream, most, total], 0),
        Frame::StreamData { stream, offset, bytes } => {
            put_fields(out, 0x14, &[stream, offset], length_size(bytes.len()) + bytes.len());
            put_octets(out, bytes);
        }
        Frame::StreamMaxData { stream, most } => put_fields(out, 0x15, &[stream, most], 0),
    }
}

/// Appends the STREAM packet of an ILP packet of a kind.
pub fn put_packet(out: &mut Vec<u8>, kind: u8, packet: &Packet<'_>) {
    out.extend_from_slice(&[VERSION, kind]);
    put_number(out, packet.sequence);
    put_number(out, packet.amount);
    put_number(out, packet.frames.len() as u64);
    packet.frames.iter().for_each(|it| put_frame(out, it));
}
