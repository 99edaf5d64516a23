//! The baseline of bench/frames.sh: what `ilpstream frames` does, in Rust with the standard library alone, as it is written
//! without contracts. It reads lines of hexadecimal, each a plain STREAM packet of an ILP Prepare (RFC 0029), and prints the run
//! of each stream at the end. It answers the benchmark's input and examples/frames.txt as `frames` does. It does not look into
//! frames other than StreamData, so that it takes some lines that `frames` refuses.

use std::io::{self, BufRead, BufReader, BufWriter, Write};
use std::process::ExitCode;

const STREAMS: usize = 64;
const WINDOW: usize = 65_536;
const MOST: usize = 32_739;
const STREAM_DATA: u8 = 0x14;

/// Why a line is refused, as the program prints it.
type Refusal = String;

/// What arrived of one stream, and which of its bytes arrived.
#[derive(Clone)]
struct Inbox {
    bytes: Vec<u8>,
    came: Vec<bool>,
}

impl Inbox {
    fn new() -> Inbox {
        Inbox { bytes: vec![0; WINDOW], came: vec![false; WINDOW] }
    }

    /// Stores the bytes at an offset; the first byte that arrived for an offset stays.
    fn take(&mut self, offset: usize, data: &[u8]) {
        let came = &mut self.came[offset..offset + data.len()];
        let bytes = &mut self.bytes[offset..offset + data.len()];
        for ((came, byte), new) in came.iter_mut().zip(bytes).zip(data) {
            if !*came {
                *came = true;
                *byte = *new;
            }
        }
    }

    /// What arrived from offset 0 on without a gap.
    fn run(&self) -> &[u8] {
        let end = self.came.iter().position(|came| !came).unwrap_or(WINDOW);
        &self.bytes[..end]
    }
}

/// The next `count` bytes of what is left.
fn cut<'a>(left: &mut &'a [u8], count: usize) -> Option<&'a [u8]> {
    let (front, rest) = left.split_at_checked(count)?;
    *left = rest;
    Some(front)
}

/// A length, and as many bytes (RFC 0030). Fails with the number of the cause: 1 too short, 2 length not shortest.
fn octets<'a>(left: &mut &'a [u8]) -> Result<&'a [u8], u8> {
    let first = cut(left, 1).ok_or(1)?[0];
    let mut length = usize::from(first);
    if first >= 0x80 {
        let digits = cut(left, usize::from(first - 0x80)).ok_or(1)?;
        if digits.len() > 8 {
            return Err(4);
        }
        length = digits.iter().fold(0, |sum, digit| sum << 8 | usize::from(*digit));
        if length < 128 || digits[0] == 0 {
            return Err(2);
        }
    }
    cut(left, length).ok_or(1)
}

/// An unsigned number (RFC 0030). Fails also with 3 not shortest, 4 more than eight bytes.
fn number(left: &mut &[u8]) -> Result<u64, u8> {
    let digits = octets(left)?;
    match digits.len() {
        0 => Err(1),
        1..=8 if digits.len() > 1 && digits[0] == 0 => Err(3),
        1..=8 => Ok(digits.iter().fold(0, |sum, digit| sum << 8 | u64::from(*digit))),
        _ => Err(4),
    }
}

/// The stream, the offset and the bytes of a StreamData frame.
type Data<'a> = (u64, u64, &'a [u8]);

fn stream_data(mut content: &[u8]) -> Result<Data<'_>, u8> {
    Ok((number(&mut content)?, number(&mut content)?, octets(&mut content)?))
}

/// The StreamData frames of a packet.
fn frames_of(bytes: &[u8]) -> Result<Vec<Data<'_>>, Refusal> {
    if bytes.len() > MOST {
        return Err("24".into());
    }
    let mut left = bytes;
    let ill = |cause: u8| format!("22({cause})");
    let version = cut(&mut left, 1).ok_or_else(|| ill(1))?[0];
    if version != 1 {
        return Err("20".into());
    }
    let kind = cut(&mut left, 1).ok_or_else(|| ill(1))?[0];
    if kind != 12 {
        return Err("21".into());
    }
    let (_sequence, _amount) = (number(&mut left).map_err(ill)?, number(&mut left).map_err(ill)?);
    let mut frames = Vec::new();
    for place in 0..number(&mut left).map_err(ill)? {
        let kind = cut(&mut left, 1).ok_or_else(|| ill(1))?[0];
        let content = octets(&mut left).map_err(ill)?;
        if kind == STREAM_DATA {
            frames.push(stream_data(content).map_err(|_| format!("23({place})"))?);
        }
    }
    Ok(frames)
}

/// Why a frame is refused, if it is.
fn check(&(stream, offset, data): &Data<'_>) -> Result<(), Refusal> {
    if stream == 0 || stream > STREAMS as u64 {
        return Err("63".into());
    }
    match offset.checked_add(data.len() as u64) {
        None => Err("41".into()),
        Some(end) if end > WINDOW as u64 => Err("40".into()),
        Some(_) => Ok(()),
    }
}

fn take_line(inboxes: &mut [Option<Inbox>], line: &[u8], bytes: &mut Vec<u8>) -> Result<(), Refusal> {
    bytes.clear();
    if line.len() % 2 != 0 {
        return Err("95".into());
    }
    for pair in line.chunks_exact(2) {
        let digits = (DIGITS[usize::from(pair[0])], DIGITS[usize::from(pair[1])]);
        if digits.0 | digits.1 > 15 {
            return Err("95".into());
        }
        bytes.push(digits.0 << 4 | digits.1);
    }
    let frames = frames_of(bytes)?;
    frames.iter().try_for_each(check)?;
    for (stream, offset, data) in frames {
        inboxes[stream as usize - 1].get_or_insert_with(Inbox::new).take(offset as usize, data);
    }
    Ok(())
}

/// The value of each character that is a hexadecimal digit, and 255 for each other.
const DIGITS: [u8; 256] = {
    let mut digits = [255; 256];
    let mut value = 0;
    while value < 16 {
        digits[b"0123456789abcdef"[value] as usize] = value as u8;
        digits[b"0123456789ABCDEF"[value] as usize] = value as u8;
        value += 1;
    }
    digits
};

fn put_hex(out: &mut impl Write, bytes: &[u8], text: &mut Vec<u8>) -> io::Result<()> {
    text.clear();
    for byte in bytes {
        text.extend([byte >> 4, byte & 15].map(|digit| b"0123456789abcdef"[usize::from(digit)]));
    }
    out.write_all(if bytes.is_empty() { b"-" } else { text })
}

fn main() -> io::Result<ExitCode> {
    let mut input = BufReader::new(io::stdin().lock());
    let mut out = BufWriter::new(io::stdout().lock());
    let mut inboxes = vec![None; STREAMS];
    let (mut line, mut bytes, mut status) = (Vec::new(), Vec::new(), ExitCode::SUCCESS);
    for index in 1.. {
        line.clear();
        if input.read_until(b'\n', &mut line)? == 0 {
            break;
        }
        let text = line.strip_suffix(b"\n").map_or(&line[..], |it| it.strip_suffix(b"\r").unwrap_or(it));
        if text.is_empty() {
            continue;
        }
        if let Err(refusal) = take_line(&mut inboxes, text, &mut bytes) {
            writeln!(out, "line {index} refused {refusal}")?;
            out.flush()?;
            status = ExitCode::FAILURE;
        }
    }
    for (place, inbox) in inboxes.iter().enumerate() {
        if let Some(run) = inbox.as_ref().map(Inbox::run) {
            write!(out, "stream {} {} ", place + 1, run.len())?;
            put_hex(&mut out, run, &mut line)?;
            writeln!(out)?;
        }
    }
    out.flush()?;
    Ok(status)
}
