//! A second reader of HTTP/1.x messages (RFC 9112), as RFC 0035 and this profile use them: first the head line by line,
//! then the rules.

use super::refusal::Refusal;

/// What bytes mean as a message.
#[derive(Clone, Copy)]
pub enum Message<'a> {
    /// It is not complete, and needs at least this number of bytes more.
    Unfinished(usize),
    /// A complete message.
    Whole {
        /// The account of a request; for a response, `None`.
        account: Option<usize>,
        /// The bytes of the body.
        body: &'a [u8],
        /// The number of bytes of the whole message.
        size: usize,
    },
    /// It is refused, whatever bytes follow.
    Refused(Refusal),
}

/// The most bytes of a head.
const MAX_HEAD: usize = 8_192;

/// What the fields of a head say.
#[derive(Clone, Copy)]
struct Fields<'a> {
    count: u64,
    account: Option<usize>,
    has_coding: bool,
    length: Length<'a>,
}

/// What the fields of Content-Length say so far.
#[derive(Clone, Copy)]
enum Length<'a> {
    Missing,
    Malformed,
    /// Digits without zeros in front.
    Digits(&'a [u8]),
}

/// The bytes up to a mark, and those after it.
fn cut_at(bytes: &[u8], mark: u8) -> Option<(&[u8], &[u8])> {
    let mut at = 0usize;
    for byte in bytes {
        if *byte == mark {
            let (front, rest) = bytes.split_at_checked(at)?;
            let [_, behind @ ..] = rest else {
                return None;
            };
            return Some((front, behind));
        }
        at = at.saturating_add(1);
    }
    None
}

/// A line without its end, and what is after it.
fn line(bytes: &[u8]) -> Option<(&[u8], &[u8])> {
    let (line, behind) = cut_at(bytes, b'\n')?;
    match line {
        [text @ .., b'\r'] => Some((text, behind)),
        _ => Some((line, behind)),
    }
}

/// Where a head ends: after the first empty line that follows a line with text.
fn end_of_head(text: &[u8]) -> Option<usize> {
    let (mut end, mut has_text) = (0usize, false);
    let (mut before, mut last) = (0, 0);
    for byte in text {
        end = end.saturating_add(1);
        has_text |= *byte != b'\r' && *byte != b'\n';
        let is_empty_line = last == b'\n' || last == b'\r' && before == b'\n';
        if has_text && *byte == b'\n' && is_empty_line {
            return Some(end);
        }
        before = last;
        last = *byte;
    }
    None
}

fn is_token(text: &[u8]) -> bool {
    for byte in text {
        if !byte.is_ascii_alphanumeric() && !b"!#$%&'*+-.^_`|~".contains(byte) {
            return false;
        }
    }
    !text.is_empty()
}

fn is_target(text: &[u8]) -> bool {
    for byte in text {
        if *byte <= 0x20 || *byte == 0x7f {
            return false;
        }
    }
    !text.is_empty() && std::str::from_utf8(text).is_ok()
}

fn is_value(text: &[u8]) -> bool {
    for byte in text {
        if *byte != b'\t' && (*byte < 0x20 || *byte == 0x7f) {
            return false;
        }
    }
    true
}

/// The bytes from the first that is not one of these marks.
fn behind_marks<'a>(bytes: &'a [u8], marks: &[u8]) -> &'a [u8] {
    let mut rest = bytes;
    for _ in bytes {
        match rest {
            [first, more @ ..] if marks.contains(first) => rest = more,
            _ => break,
        }
    }
    rest
}

/// The bytes up to the last that is not one of these marks.
fn before_marks<'a>(bytes: &'a [u8], marks: &[u8]) -> &'a [u8] {
    let mut rest = bytes;
    for _ in bytes {
        match rest {
            [more @ .., last] if marks.contains(last) => rest = more,
            _ => break,
        }
    }
    rest
}

/// The place of a field's token among the tokens.
fn account(tokens: &[&str], value: &[u8]) -> Option<usize> {
    let (scheme, token) = value.split_at_checked(6)?;
    if !scheme.eq_ignore_ascii_case(b"bearer") {
        return None;
    }
    let [b' ', token @ ..] = token else {
        return None;
    };
    let token = behind_marks(token, b" ");
    let mut place = 0usize;
    for listed in tokens {
        if listed.as_bytes() == token {
            return Some(place);
        }
        place = place.saturating_add(1);
    }
    None
}

/// What one more field of Content-Length makes of what was said before.
fn with_length<'a>(length: Length<'a>, value: &'a [u8]) -> Length<'a> {
    let digits = behind_marks(value, b"0");
    for digit in value {
        if !digit.is_ascii_digit() {
            return Length::Malformed;
        }
    }
    match length {
        _ if value.is_empty() => Length::Malformed,
        Length::Missing => Length::Digits(digits),
        Length::Digits(before) if before == digits => length,
        _ => Length::Malformed,
    }
}

/// What one more field makes of what was said before. None if it is not a field.
fn with_field<'a>(tokens: &[&str], fields: Fields<'a>, line: &'a [u8]) -> Option<Fields<'a>> {
    let (name, raw) = cut_at(line, b':')?;
    if !is_token(name) || !is_value(raw) {
        return None;
    }
    let value = behind_marks(before_marks(raw, b" \t"), b" \t");
    let mut fields = fields;
    fields.count = fields.count.saturating_add(1);
    if name.eq_ignore_ascii_case(b"authorization") && fields.account.is_none() {
        fields.account = account(tokens, value);
    }
    if name.eq_ignore_ascii_case(b"transfer-encoding") {
        fields.has_coding = true;
    }
    if name.eq_ignore_ascii_case(b"content-length") {
        fields.length = with_length(fields.length, value);
    }
    Some(fields)
}

/// What the field lines up to the empty one say. None if one is not a field, or there are more than 64.
fn fields_of<'a>(tokens: &[&str], text: &'a [u8]) -> Option<Fields<'a>> {
    let mut fields = Fields {
        count: 0,
        account: None,
        has_coding: false,
        length: Length::Missing,
    };
    let mut rest = text;
    for _ in text {
        let (line, behind) = line(rest)?;
        if line.is_empty() {
            break;
        }
        fields = with_field(tokens, fields, line)?;
        rest = behind;
    }
    if fields.count > 64 {
        return None;
    }
    Some(fields)
}

/// The first line that is not empty, and what is after it.
fn start_line(head: &[u8]) -> Option<(&[u8], &[u8])> {
    let mut rest = head;
    for _ in head {
        let (line, behind) = line(rest)?;
        if !line.is_empty() {
            return Some((line, behind));
        }
        rest = behind;
    }
    None
}

/// The number that digits write, if it is at most 65,535.
fn size_of(digits: &[u8]) -> Option<usize> {
    if digits.len() > 5 {
        return None;
    }
    let mut size = 0usize;
    for digit in digits {
        let ones = usize::from(digit.wrapping_sub(b'0'));
        size = size.wrapping_mul(10).wrapping_add(ones);
    }
    if size > 65_535 { None } else { Some(size) }
}

/// The account and the size of the body that a request's head says, or the status that answers it.
fn request_head(tokens: &[&str], head: &[u8]) -> Result<(Option<usize>, usize), u64> {
    let (line, behind) = start_line(head).ok_or(400u64)?;
    let (method, rest) = cut_at(line, b' ').ok_or(400u64)?;
    let (target, version) = cut_at(rest, b' ').ok_or(400u64)?;
    let is_version = version == b"HTTP/1.0".as_slice() || version == b"HTTP/1.1".as_slice();
    if !is_token(method) || !is_target(target) || !is_version {
        return Err(400);
    }
    let fields = fields_of(tokens, behind).ok_or(400u64)?;
    if target != b"/ilp".as_slice() {
        return Err(404);
    }
    if method != b"POST".as_slice() {
        return Err(405);
    }
    if fields.account.is_none() {
        return Err(401);
    }
    if fields.has_coding {
        return Err(411);
    }
    match fields.length {
        Length::Missing => Err(411),
        Length::Malformed => Err(400),
        Length::Digits(digits) => match size_of(digits) {
            Some(size) => Ok((fields.account, size)),
            None => Err(413),
        },
    }
}

/// The status of a response's first line.
fn status(line: &[u8]) -> Option<u64> {
    let (version, rest) = line.split_at_checked(9)?;
    if version != b"HTTP/1.0 ".as_slice() && version != b"HTTP/1.1 ".as_slice() {
        return None;
    }
    let (digits, reason) = rest.split_at_checked(3)?;
    let mut status = 0u64;
    for digit in digits {
        if !digit.is_ascii_digit() {
            return None;
        }
        let ones = u64::from(digit.wrapping_sub(b'0'));
        status = status.wrapping_mul(10).wrapping_add(ones);
    }
    match reason {
        [] => Some(status),
        [b' ', phrase @ ..] if is_value(phrase) => Some(status),
        _ => None,
    }
}

/// The size of the body that a response's head says, or the refusal.
fn response_head(head: &[u8]) -> Result<(Option<usize>, usize), Refusal> {
    let bad = Refusal::alone(82);
    let (line, behind) = start_line(head).ok_or(bad)?;
    let status = status(line).ok_or(bad)?;
    let fields = fields_of(&[], behind).ok_or(bad)?;
    if status != 200 {
        return Err(Refusal::around(83, status));
    }
    if fields.has_coding {
        return Err(bad);
    }
    match fields.length {
        Length::Missing | Length::Malformed => Err(bad),
        Length::Digits(digits) => match size_of(digits) {
            Some(size) => Ok((None, size)),
            None => Err(Refusal::alone(84)),
        },
    }
}

/// The message that has a head of this number of bytes and of this verdict, and these bytes after it.
fn with_body(
    head: usize,
    verdict: Result<(Option<usize>, usize), Refusal>,
    behind: &[u8],
) -> Message<'_> {
    match verdict {
        Err(refusal) => Message::Refused(refusal),
        Ok((account, size)) => match behind.split_at_checked(size) {
            Some((body, _)) => Message::Whole {
                account,
                body,
                size: head.saturating_add(size),
            },
            None => Message::Unfinished(size.saturating_sub(behind.len())),
        },
    }
}

/// The head of a text that has one, and what is after it. None while it may still come, and a refusal if it is too long.
fn head_of(text: &[u8]) -> Result<Option<(&[u8], &[u8])>, ()> {
    match end_of_head(text) {
        Some(end) if end <= MAX_HEAD => Ok(text.split_at_checked(end)),
        None if text.len() < MAX_HEAD => Ok(None),
        _ => Err(()),
    }
}

/// What a text means as a request to the account of one of these tokens. Bytes after the message are ignored.
pub fn request<'a>(tokens: &[&str], text: &'a [u8]) -> Message<'a> {
    match head_of(text) {
        Ok(Some((head, behind))) => {
            let verdict = match request_head(tokens, head) {
                Ok(lawful) => Ok(lawful),
                Err(status) => Err(Refusal::around(83, status)),
            };
            with_body(head.len(), verdict, behind)
        }
        Ok(None) => Message::Unfinished(1),
        Err(()) => Message::Refused(Refusal::around(83, 400)),
    }
}

/// What a text means as a response. Bytes after the message are ignored.
pub fn response(text: &[u8]) -> Message<'_> {
    match head_of(text) {
        Ok(Some((head, behind))) => with_body(head.len(), response_head(head), behind),
        Ok(None) => Message::Unfinished(1),
        Err(()) => Message::Refused(Refusal::alone(82)),
    }
}
