//! A second reader of ILPv4 packets (RFC 0027), from their bytes to their fields. Texts are given as bytes.

use super::oer;
use super::refusal::Refusal;

/// The fields of a Prepare.
#[derive(Clone, Copy)]
pub struct PlainPrepare<'a> {
    /// The amount in units.
    pub amount: u64,
    /// The moment at which it expires, in milliseconds since the start of 1970 (UTC).
    pub expiry: i64,
    /// The 32 bytes of the condition.
    pub condition: &'a [u8],
    /// The characters of the destination address.
    pub destination: &'a [u8],
    /// The data.
    pub payload: &'a [u8],
}

/// The fields of a Fulfill or of a Reject.
#[derive(Clone, Copy)]
pub enum PlainAnswer<'a> {
    /// A Fulfill: the 32 bytes of the fulfillment, and the data.
    Fulfill {
        fulfillment: &'a [u8],
        payload: &'a [u8],
    },
    /// A Reject: the three characters of the code, the address of the node that triggered it, the message, and the
    /// data.
    Reject {
        code: &'a [u8],
        by: &'a [u8],
        message: &'a [u8],
        payload: &'a [u8],
    },
}

fn misspelled(fault: u64) -> Refusal {
    Refusal::around(10, fault)
}

/// A number of bytes of a packet, and what is left of it.
fn fixed(bytes: &[u8], size: u64) -> Result<(&[u8], &[u8]), Refusal> {
    oer::fixed(bytes, size).map_err(misspelled)
}

fn octets(bytes: &[u8]) -> Result<(&[u8], &[u8]), Refusal> {
    oer::octets(bytes).map_err(misspelled)
}

/// The data, which end a packet's contents.
fn data_at_end(bytes: &[u8]) -> Result<&[u8], Refusal> {
    let (payload, rest) = octets(bytes)?;
    if payload.len() > 32_767 {
        return Err(Refusal::alone(14));
    }
    if !rest.is_empty() {
        return Err(Refusal::alone(17));
    }
    Ok(payload)
}

/// The kind of a packet, and its contents.
fn packet(bytes: &[u8], first: u8, last: u8) -> Result<(u8, &[u8]), Refusal> {
    let (kind, rest) = oer::uint8(bytes).map_err(misspelled)?;
    if kind < first || last < kind {
        return Err(Refusal::alone(11));
    }
    let (contents, behind) = octets(rest)?;
    if !behind.is_empty() {
        return Err(Refusal::alone(17));
    }
    Ok((kind, contents))
}

/// The contents of a Prepare: the bytes in which `prepare` finds the fields. Fails with the first rule of the envelope
/// that they break.
pub fn prepare_contents(bytes: &[u8]) -> Result<&[u8], Refusal> {
    let (_, contents) = packet(bytes, 12, 12)?;
    Ok(contents)
}

/// The Prepare that bytes spell. Fails with the first rule that they break.
pub fn prepare(bytes: &[u8]) -> Result<PlainPrepare<'_>, Refusal> {
    let (amount, rest) = fixed(prepare_contents(bytes)?, 8)?;
    let (time, rest) = fixed(rest, 17)?;
    let Some(expiry) = expiry(time) else {
        return Err(Refusal::alone(12));
    };
    let (condition, rest) = fixed(rest, 32)?;
    let (destination, rest) = octets(rest)?;
    if !is_address(destination) {
        return Err(Refusal::alone(13));
    }
    Ok(PlainPrepare {
        amount: oer::number(amount),
        expiry,
        condition,
        destination,
        payload: data_at_end(rest)?,
    })
}

/// The Fulfill or the Reject that bytes spell. Fails with the first rule that they break.
pub fn answer(bytes: &[u8]) -> Result<PlainAnswer<'_>, Refusal> {
    let (kind, contents) = packet(bytes, 13, 14)?;
    if kind == 14 {
        return reject(contents);
    }
    let (fulfillment, rest) = fixed(contents, 32)?;
    Ok(PlainAnswer::Fulfill {
        fulfillment,
        payload: data_at_end(rest)?,
    })
}

fn reject(contents: &[u8]) -> Result<PlainAnswer<'_>, Refusal> {
    let (code, rest) = fixed(contents, 3)?;
    for byte in code {
        if *byte < 0x21 || 0x7e < *byte {
            return Err(Refusal::alone(16));
        }
    }
    let (by, rest) = octets(rest)?;
    if !by.is_empty() && !is_address(by) {
        return Err(Refusal::alone(13));
    }
    let (message, rest) = octets(rest)?;
    if std::str::from_utf8(message).is_err() {
        return Err(Refusal::alone(15));
    }
    Ok(PlainAnswer::Reject {
        code,
        by,
        message,
        payload: data_at_end(rest)?,
    })
}

/// Whether a text is an ILP address: non-empty segments of letters, digits, `_`, `~` and `-`, separated by dots, with
/// at most 1,023 characters in all.
pub fn is_address(text: &[u8]) -> bool {
    let mut before = b'.';
    for byte in text {
        let is_lawful = match *byte {
            b'a'..=b'z' | b'A'..=b'Z' | b'0'..=b'9' | b'_' | b'~' | b'-' => true,
            b'.' => before != b'.',
            _ => false,
        };
        if !is_lawful {
            return false;
        }
        before = *byte;
    }
    before != b'.' && text.len() <= 1_023
}

/// Whether an address equals a prefix, or begins with the prefix and a dot.
pub fn is_within(prefix: &[u8], address: &[u8]) -> bool {
    match address.strip_prefix(prefix) {
        Some([]) => true,
        Some([next, ..]) => *next == b'.',
        None => false,
    }
}

/// The number that decimal digits write, or none if there is another byte.
fn decimal(digits: &[u8]) -> Option<u64> {
    let mut number = 0u64;
    for digit in digits {
        if !digit.is_ascii_digit() {
            return None;
        }
        let ones = u64::from(digit.wrapping_sub(b'0'));
        number = number.wrapping_mul(10).wrapping_add(ones);
    }
    Some(number)
}

/// The decimal number of this number of digits in front, and the rest.
fn part(text: &[u8], size: usize) -> Option<(u64, &[u8])> {
    let (digits, rest) = text.split_at_checked(size)?;
    Some((decimal(digits)?, rest))
}

fn is_leap(year: u64) -> bool {
    year % 4 == 0 && (year % 100 != 0 || year % 400 == 0)
}

fn days_of_month(year: u64, month: u64) -> u64 {
    match month {
        2 if is_leap(year) => 29,
        2 => 28,
        4 | 6 | 9 | 11 => 30,
        _ => 31,
    }
}

/// The days from 0000-01-01 to a date, counted year by year and month by month.
fn days_until(year: u64, month: u64, day: u64) -> u64 {
    let mut days = day.wrapping_sub(1);
    for past in 0..year {
        days = days.wrapping_add(if is_leap(past) { 366 } else { 365 });
    }
    for past in 1..month {
        days = days.wrapping_add(days_of_month(year, past));
    }
    days
}

/// The moment that the 17 digits YYYYMMDDHHMMSSfff write, in milliseconds since the start of 1970 (UTC). `None` if
/// there is no such date and time.
pub fn expiry(text: &[u8]) -> Option<i64> {
    let (year, rest) = part(text, 4)?;
    let (month, rest) = part(rest, 2)?;
    let (day, rest) = part(rest, 2)?;
    let (hour, rest) = part(rest, 2)?;
    let (minute, rest) = part(rest, 2)?;
    let (second, rest) = part(rest, 2)?;
    let (fraction, rest) = part(rest, 3)?;
    let is_date = (1..=12).contains(&month) && 1 <= day && day <= days_of_month(year, month);
    let is_time = hour < 24 && minute < 60 && second < 60;
    if !is_date || !is_time || !rest.is_empty() {
        return None;
    }
    let hours = days_until(year, month, day)
        .wrapping_mul(24)
        .wrapping_add(hour);
    let minutes = hours.wrapping_mul(60).wrapping_add(minute);
    let seconds = minutes.wrapping_mul(60).wrapping_add(second);
    let millis = seconds.wrapping_mul(1_000).wrapping_add(fraction);
    i64::try_from(millis).ok()?.checked_sub(62_167_219_200_000)
}
