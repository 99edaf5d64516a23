//! Hostile bytes at an end.

use super::plain::ilp::{self, PlainAnswer, PlainPrepare};
use super::plain::prepares::{EXPIRIES, EXPIRY, Offer, PREPARES, prepare_bytes};
use super::plain::seal::{PlainKeys, sha256};
use super::plain::stream::{PlainFrame, PlainPacket, packet, packet_bytes};
use super::plain::{EDGES, Met, changed_at};
use super::plain_end::{PlainEnd, PlainStream};
use super::samples::PACKETS;
use super::{STEPS, inputs, run_all, sure_at};
use crate::seeds::Numbers;
use ilpstream::{End, EndConfig, Read, Received, Role};

pub(crate) const SECRET: [u8; 32] = [0; 32];

/// The plain packet of sequence 1 that says "hi" on stream 1.
const HI: &[u8] = b"\x01\x0c\x01\x01\x01\0\x01\x01\x14\x07\x01\x01\x01\0\x02hi";

/// The addresses of the end and of its peer.
pub(crate) const OWN: &str = "test.b";

pub(crate) const PEER: &str = "test.a";

/// The receive max of the streams 1, 3 and 63, which alone may receive.
const RECEIVE_MAX: [(u8, u64); 3] = [(1, 1_000), (3, 0x7fff_ffff_ffff_ffff), (63, 10)];

/// A payload that was sealed, what is inside, and the fulfillment and the condition that are its own.
struct Sealed {
    plain: Vec<u8>,
    payload: Vec<u8>,
    fulfillment: [u8; 32],
    condition: [u8; 32],
}

/// Seals any bytes.
fn seal_bytes(keys: &PlainKeys, numbers: &mut Numbers, plain: Vec<u8>) -> Sealed {
    let mut iv = [0; 12];
    iv[..8].copy_from_slice(&numbers.next().to_be_bytes());
    let payload = keys.seal(&iv, &plain);
    let fulfillment = keys.fulfillment(&payload);
    Sealed {
        plain,
        payload,
        fulfillment,
        condition: sha256(&fulfillment),
    }
}

/// A frame of this type, with its numbers in the order of RFC 0029, section 5.3.
fn frame(kind: u8, numbers: [u64; 3], bytes: &'static [u8]) -> PlainFrame<'static> {
    PlainFrame {
        index: 0,
        kind,
        numbers,
        bytes,
    }
}

/// A number of a stream, mostly one that is lawful.
fn stream_number(numbers: &mut Numbers) -> u64 {
    numbers.choice(&[1, 1, 1, 3, 3, 5, 63, 2, 0, 64, 65, u64::MAX])
}

/// The number of a limit.
fn limit_number(numbers: &mut Numbers) -> u64 {
    numbers.choice(&[0, 1, 65_536, 2_000_000, u64::MAX])
}

/// A frame that says something of a stream.
fn stream_frame(numbers: &mut Numbers) -> PlainFrame<'static> {
    let stream = stream_number(numbers);
    match numbers.below(8) {
        0 => frame(0x10, [stream, numbers.choice(&[1, 1, 2, 9]), 0], b""),
        1 | 2 => {
            let shares = numbers.choice(&[0, 1, 1, 2, 3, 1 << 63, u64::MAX]);
            frame(0x11, [stream, shares, 0], b"")
        }
        3 => frame(0x15, [stream, limit_number(numbers), 0], b""),
        4 => frame(0x16, [stream, limit_number(numbers), 0], b""),
        _ => {
            let edges = [
                0,
                0,
                1,
                5,
                65_531,
                65_535,
                65_536,
                65_537,
                u64::MAX - 5,
                u64::MAX,
            ];
            let offset = numbers.choice(&edges);
            frame(
                0x14,
                [stream, offset, 0],
                numbers.pick(&[b"", b"a", b"hello"]),
            )
        }
    }
}

/// Any frame, seldom one that closes the connection.
fn any_frame(numbers: &mut Numbers) -> PlainFrame<'static> {
    match numbers.below(24) {
        0 => frame(0x01, [2, 0, 0], b"no"),
        1 => frame(0x03, [limit_number(numbers), 0, 0], b""),
        2 => frame(0x04, [limit_number(numbers), 0, 0], b""),
        3 => frame(0x02, [0; 3], b"test.z"),
        4 => frame(
            0x12,
            [stream_number(numbers), limit_number(numbers), 0],
            b"",
        ),
        5 => frame(
            0x13,
            [stream_number(numbers), limit_number(numbers), 0],
            b"",
        ),
        _ => stream_frame(numbers),
    }
}

/// An amount of a Prepare.
fn amount(numbers: &mut Numbers) -> u64 {
    numbers.choice(&[
        0,
        0,
        0,
        1,
        7,
        10,
        11,
        500,
        1_001,
        1 << 62,
        (1 << 63) - 1,
        1 << 63,
        u64::MAX,
    ])
}

/// A lawful packet with up to five frames, of one of a few sequences, for a Prepare of this amount.
fn lawful_packet(numbers: &mut Numbers, amount: u64) -> Vec<u8> {
    let count = numbers.below(6);
    let frames: Vec<_> = (0..count).map(|_| any_frame(numbers)).collect();
    let sequence = numbers.choice(&[0, 1, 2, 3, 4, 5, 6, 7, 8, 300, u64::MAX]);
    let least = numbers.choice(&[0, 0, amount, amount, amount, amount.saturating_add(1)]);
    packet_bytes(12, sequence, least, &frames)
}

/// A packet with a byte at the window's end of about as many streams as the connection takes, and then one byte more or none.
fn wide_packet(numbers: &mut Numbers) -> Vec<u8> {
    let count = 15 + numbers.below(3);
    let at_the_end = |place| frame(0x14, [place * 2 + 1, 65_535, 0], b"z");
    let mut frames: Vec<_> = (0..count).map(at_the_end).collect();
    frames.push(frame(0x14, [63, 0, 0], numbers.pick(&[b"", b"z"])));
    packet_bytes(12, 9, 0, &frames)
}

/// What is inside the seal: a lawful packet, one with changes, or hostile bytes.
fn inside(numbers: &mut Numbers, amount: u64) -> Vec<u8> {
    match numbers.below(64) {
        0 => wide_packet(numbers),
        1..=15 => PACKETS.hostile(numbers),
        16..=27 => {
            let bytes = lawful_packet(numbers, amount);
            PACKETS.changed(numbers, &bytes)
        }
        _ => lawful_packet(numbers, amount),
    }
}

/// The Prepare of a payload, mostly a lawful one to this end with the payload's condition, in time.
fn around(numbers: &mut Numbers, amount: u64, sealed: &Sealed) -> Vec<u8> {
    let (mut expiry, mut destination) = (EXPIRIES[0], OWN);
    let mut condition = sealed.condition;
    let mut payload = sealed.payload.as_slice();
    match numbers.below(48) {
        0 => expiry = EXPIRIES[1],
        1 => expiry = EXPIRIES[2],
        2 => expiry = EXPIRIES[3],
        3 => destination = "test.b.x",
        4 => destination = "test.bc",
        5 => destination = PEER,
        6 => condition = [0; 32],
        7 => payload = payload.get(..numbers.place(payload.len())).unwrap_or(&[]),
        8 => payload = payload.get(..numbers.place(30)).unwrap_or(&[]),
        _ => {}
    }
    prepare_bytes(Offer {
        amount,
        expiry,
        condition: &condition,
        destination: destination.as_bytes(),
        payload,
    })
}

/// The bytes that come, and what was sealed for them, which joins what was sealed before.
fn arrival(keys: &PlainKeys, numbers: &mut Numbers, history: &mut Vec<Sealed>) -> Vec<u8> {
    if numbers.below(16) == 0 {
        return PREPARES.hostile(numbers);
    }
    let bytes = sealed_arrival(keys, numbers, history);
    if numbers.below(4) == 0 {
        return PREPARES.changed(numbers, &bytes);
    }
    bytes
}

/// The Prepare of a payload that is sealed for it, and joins what was sealed before.
fn sealed_arrival(keys: &PlainKeys, numbers: &mut Numbers, history: &mut Vec<Sealed>) -> Vec<u8> {
    let amount = amount(numbers);
    let plain = inside(numbers, amount);
    let sealed = seal_bytes(keys, numbers, plain);
    let bytes = around(numbers, amount, &sealed);
    history.push(sealed);
    bytes
}

/// What an end does with bytes.
enum Expected<'h> {
    /// It rejects what it did not open, without data.
    Unread {
        code: [u8; 3],
        reason: u8,
        amount: u64,
    },
    /// It opened the payload: the reason, 0 for a Fulfill, and what is so afterwards.
    Opened {
        reason: u8,
        amount: u64,
        packet: PlainPacket<'h>,
        sealed: &'h Sealed,
        after: PlainEnd,
    },
}

fn unread(code: &[u8; 3], reason: u8, amount: u64) -> Expected<'static> {
    Expected::Unread {
        code: *code,
        reason,
        amount,
    }
}

/// What was sealed as this payload.
fn sealed_as<'h>(history: &'h [Sealed], payload: &[u8]) -> Option<&'h Sealed> {
    history
        .iter()
        .find(|&sealed| sealed.payload.as_slice() == payload)
        .map(|v| v as _)
}

/// What the rules say of a payload that opens to a packet.
fn opened<'h>(
    plain: &PlainEnd,
    fulfilled: &[u64],
    prepare: &PlainPrepare<'_>,
    packet: PlainPacket<'h>,
    sealed: &'h Sealed,
) -> Expected<'h> {
    let amount = prepare.amount;
    let is_repeated = fulfilled.contains(&packet.sequence);
    let (reason, after) = if prepare.condition != sealed.condition.as_slice() {
        (55, *plain)
    } else {
        match plain.after(&packet, is_repeated, amount) {
            Ok(after) => (0, after),
            Err(reason) => (reason, *plain),
        }
    };
    Expected::Opened {
        reason,
        amount,
        packet,
        sealed,
        after,
    }
}

/// What the rules say of bytes, the first that applies.
fn answer_due<'h>(
    plain: &PlainEnd,
    fulfilled: &[u64],
    history: &'h [Sealed],
    bytes: &[u8],
    now: i64,
) -> Expected<'h> {
    let prepare = match ilp::prepare(bytes) {
        Ok(prepare) => prepare,
        Err(refusal) => return unread(b"F01", refusal.number, 0),
    };
    let amount = prepare.amount;
    if !ilp::is_within(OWN.as_bytes(), prepare.destination) {
        return unread(b"F02", 56, amount);
    }
    if prepare.expiry <= now {
        return unread(b"R00", 57, amount);
    }
    let Some(sealed) = sealed_as(history, prepare.payload) else {
        let is_short = prepare.payload.len() < 28;
        return unread(b"F06", if is_short { 30 } else { 31 }, amount);
    };
    let Ok(packet) = packet(&sealed.plain, 12) else {
        return unread(b"F99", 32, amount);
    };
    opened(plain, fulfilled, &prepare, packet, sealed)
}

/// The frames after the first, if that has this type and these numbers.
fn behind<'f, 'a>(
    frames: &'f [PlainFrame<'a>],
    kind: u8,
    numbers: [u64; 3],
) -> Option<&'f [PlainFrame<'a>]> {
    let [first, rest @ ..] = frames else {
        return None;
    };
    let want = PlainFrame {
        index: first.index,
        kind,
        numbers,
        bytes: &[],
    };
    if first.is(&want) { Some(rest) } else { None }
}

/// Whether one of the frames names a stream.
fn names(frames: &[PlainFrame<'_>], number: u64) -> bool {
    for frame in frames {
        let [stream, _, _] = frame.numbers;
        if (0x10..=0x16).contains(&frame.kind) && stream == number {
            return true;
        }
    }
    false
}

/// The frames after those that report the limits of a stream.
fn behind_limits<'f, 'a>(
    frames: &'f [PlainFrame<'a>],
    number: u64,
    stream: PlainStream,
) -> Option<&'f [PlainFrame<'a>]> {
    let rest = behind(frames, 0x15, [number, 65_536, 0])?;
    behind(rest, 0x12, [number, stream.receive_max, stream.credited])
}

/// Whether a reply's frames report the limits in force: the connection's, and those of each stream that the request names.
fn tells(reply: &[PlainFrame<'_>], request: &[PlainFrame<'_>], after: &PlainEnd) -> bool {
    let Some(mut rest) = behind(reply, 0x03, [after.connection_limit(), 0, 0]) else {
        return false;
    };
    for number in 1..65u64 {
        let told = match after.stream(number) {
            Some(stream) if names(request, number) => behind_limits(rest, number, stream),
            _ => Some(rest),
        };
        match told {
            Some(more) => rest = more,
            None => return false,
        }
    }
    rest.is_empty()
}

/// Whether a reply's payload repeats the sequence, has the amount that arrived, and reports the limits in force.
fn replies(
    keys: &PlainKeys,
    payload: &[u8],
    kind: u8,
    amount: u64,
    request: &PlainPacket<'_>,
    after: &PlainEnd,
) -> bool {
    let Some(plain) = keys.open(payload) else {
        return false;
    };
    match packet(&plain, kind) {
        Ok(reply) => {
            reply.sequence == request.sequence
                && reply.amount == amount
                && tells(&reply.frames, &request.frames, after)
        }
        Err(_) => false,
    }
}

/// Whether bytes are the end's Reject of this code: its payload.
fn reject_of<'b>(bytes: &'b [u8], code: &[u8; 3]) -> Option<&'b [u8]> {
    match ilp::answer(bytes) {
        Ok(PlainAnswer::Reject {
            code: got,
            by,
            message,
            payload,
        }) if got == code.as_slice() && by == OWN.as_bytes() && message.is_empty() => Some(payload),
        _ => None,
    }
}

/// Whether bytes are the Fulfill of this fulfillment: its payload.
fn fulfill_of<'b>(bytes: &'b [u8], preimage: &[u8; 32]) -> Option<&'b [u8]> {
    match ilp::answer(bytes) {
        Ok(PlainAnswer::Fulfill {
            fulfillment,
            payload,
        }) if fulfillment == preimage.as_slice() => Some(payload),
        _ => None,
    }
}

/// Whether a reply's IV is the request's with the top bit of its first byte inverted.
fn is_turned(request: &[u8], reply: &[u8]) -> bool {
    match (request, reply) {
        ([first, rest @ ..], [turned, others @ ..]) => {
            *turned == *first ^ 0x80 && rest.get(..11) == others.get(..11)
        }
        _ => false,
    }
}

/// Whether an end answered as the rules say.
fn is_expected(keys: &PlainKeys, received: &Received, expected: &Expected<'_>) -> bool {
    match expected {
        Expected::Unread {
            code,
            reason,
            amount,
        } => {
            received.reason == u32::from(*reason)
                && received.amount == *amount
                && received.sequence.is_none()
                && reject_of(&received.bytes, code) == Some([].as_slice())
        }
        Expected::Opened {
            reason,
            amount,
            packet,
            sealed,
            after,
        } => {
            let (kind, payload) = match *reason {
                0 => (13, fulfill_of(&received.bytes, &sealed.fulfillment)),
                _ => (14, reject_of(&received.bytes, b"F99")),
            };
            let Some(payload) = payload else {
                return false;
            };
            let is_told = is_turned(&sealed.payload, payload)
                && received.reason == u32::from(*reason)
                && received.amount == *amount
                && received.sequence == Some(packet.sequence);
            is_told && replies(keys, payload, kind, *amount, packet, after)
        }
    }
}

/// The server `test.b`.
fn new_end() -> End {
    let config = EndConfig::default();
    let mut end = End::new(Role::Server, &SECRET, OWN, PEER, config).unwrap();
    for (stream, amount) in RECEIVE_MAX {
        end.set_receive_max(stream, amount).unwrap();
    }
    end
}

fn new_plain_end() -> PlainEnd {
    let mut plain = PlainEnd::new();
    for (stream, amount) in RECEIVE_MAX {
        plain.set_receive_max(usize::from(stream), amount);
    }
    plain
}

/// An end and the plain model of it.
struct Pair {
    end: End,
    plain: PlainEnd,
    fulfilled: Vec<u64>,
}

impl Pair {
    fn new() -> Pair {
        Pair {
            end: new_end(),
            plain: new_plain_end(),
            fulfilled: Vec::new(),
        }
    }

    /// What is so once the end did what is expected of it.
    fn go_on(&mut self, expected: &Expected<'_>) {
        if let Expected::Opened {
            reason: 0,
            packet,
            after,
            ..
        } = expected
        {
            self.plain = *after;
            self.fulfilled.push(packet.sequence);
        }
    }

    /// Whether the end does with bytes what is expected of it, and is credited and gives to be read as the rules say.
    fn does(
        &mut self,
        keys: &PlainKeys,
        expected: &Expected<'_>,
        bytes: &[u8],
        now: i64,
        met: &mut Met,
    ) -> bool {
        let received = self.end.receive(bytes, now).unwrap();
        met.note(u64::from(received.reason));
        let agrees = is_expected(keys, &received, expected);
        self.go_on(expected);
        let totals = self.end.totals().unwrap();
        agrees && totals.credited == self.plain.credit && totals.delivered == 0
    }

    /// The same, of what the rules say of the bytes.
    fn does_its_duty(
        &mut self,
        keys: &PlainKeys,
        history: &[Sealed],
        bytes: &[u8],
        now: i64,
        met: &mut Met,
    ) -> bool {
        let (plain, fulfilled) = (&self.plain, &self.fulfilled);
        let expected = answer_due(plain, fulfilled, history, bytes, now);
        self.does(keys, &expected, bytes, now, met)
    }

    /// How many bytes are read of a stream.
    fn read(&mut self, number: u8) -> u64 {
        match self.end.read(number, 100_000).unwrap() {
            Read::Bytes(bytes) => bytes.len() as u64,
            _ => 0,
        }
    }

    /// Whether what is read of the streams is what was reported to be delivered.
    fn reads(&mut self) -> bool {
        let mut read = 0u64;
        for number in [1, 3, 63] {
            if self.end.has_stream(number).unwrap() {
                read = read.saturating_add(self.read(number));
            }
        }
        self.end.totals().unwrap().delivered == read
    }
}

/// A moment, mostly one at which Prepares are in time.
fn moment(numbers: &mut Numbers) -> i64 {
    match numbers.below(16) {
        0 => EXPIRY,
        1 => 253_402_300_000_000,
        _ => EXPIRY - 1,
    }
}

/// The reasons of an end's Rejects that are given although memory suffices, except for those of fields that no input has, and 0.
const REASONS: [u64; 19] = [
    0, 10, 11, 12, 13, 17, 30, 31, 32, 55, 56, 57, 60, 61, 62, 63, 64, 65, 66,
];

/// All steps of a seed, at one end.
fn runs(seed: u64, met: &mut Met) {
    let keys = PlainKeys::of(&SECRET);
    let mut numbers = Numbers::of(seed);
    let mut pair = Pair::new();
    let mut history = Vec::new();
    for step in 0..STEPS {
        let bytes = arrival(&keys, &mut numbers, &mut history);
        let now = moment(&mut numbers);
        let agrees = pair.does_its_duty(&keys, &history, &bytes, now, met);
        sure_at(agrees, seed, step, &bytes);
    }
    sure_at(pair.reads(), seed, STEPS, "what is read");
}

#[test]
fn an_end_does_what_the_rules_say() {
    run_all(inputs() / STEPS, &REASONS, runs);
}

/// Whether a new end does with bytes what the rules say, if this alone was sealed.
fn a_new_end_does(keys: &PlainKeys, sealed: &[Sealed], bytes: &[u8]) -> bool {
    Pair::new().does_its_duty(keys, sealed, bytes, 0, &mut Met::new())
}

/// The Prepare of 0 to this end that carries a payload.
fn offer(sealed: &Sealed) -> Vec<u8> {
    prepare_bytes(Offer {
        amount: 0,
        expiry: EXPIRIES[0],
        condition: &sealed.condition,
        destination: OWN.as_bytes(),
        payload: &sealed.payload,
    })
}

/// Every front of a Prepare that says "hi", and each with one byte replaced.
#[test]
fn every_prefix_and_change_of_a_prepare() {
    let keys = PlainKeys::of(&SECRET);
    let sealed = seal_bytes(&keys, &mut Numbers::of(1), HI.to_vec());
    let prepare = offer(&sealed);
    let sealed = [sealed];
    for at in 0..=prepare.len() {
        for edge in EDGES {
            let bytes = changed_at(&prepare, at, edge);
            sure_at(a_new_end_does(&keys, &sealed, &bytes), 1, at as u64, edge);
        }
    }
}

/// The same inside the seal.
#[test]
fn every_prefix_and_change_inside_the_seal() {
    let keys = PlainKeys::of(&SECRET);
    for at in 0..=HI.len() {
        for edge in EDGES {
            let sealed = seal_bytes(&keys, &mut Numbers::of(1), changed_at(HI, at, edge));
            let bytes = offer(&sealed);
            sure_at(a_new_end_does(&keys, &[sealed], &bytes), 1, at as u64, edge);
        }
    }
}

/// Bytes whose length is 2^64 - 1 are not a Prepare, and are answered F01.
#[test]
fn an_endless_length_is_answered() {
    let endless = b"\x0c\x88\xff\xff\xff\xff\xff\xff\xff\xff";
    let received = new_end().receive(endless, 0).unwrap();
    assert_eq!(received.reason, 10);
    assert_eq!(received.bytes, b"\x0e\x0cF01\x06test.b\0\0");
}
