//! Both ends of a connection (RFC 0029): the client sends the parts of the input, the server receives and reads them.

use crate::aes_gcm::Key;
use crate::packets::{
    Answer, FULFILL, Frame, MOST_DATA, MOST_PLAIN, Malformed, PREPARE, Packet, Prepare, put_packet, read_answer, read_packet,
    read_prepare, write_fulfill, write_prepare, write_reject,
};
use crate::sha256::{Hmac, sha256};
use std::collections::{BTreeMap, BTreeSet, HashMap, HashSet, VecDeque};

pub const CLIENT: &str = "test.a";
pub const SERVER: &str = "test.b";

/// Bytes of the input in one frame.
const FRAME: usize = 16_000;
/// What a frame adds to a packet in addition to its bytes, and a packet without frames, at most.
const FRAME_HEAD: usize = 32;
const PACKET_HEAD: usize = 32;
/// The bytes past what was read that the server takes, of a stream and of all.
const STREAM_WINDOW: u64 = 65_536;
const CONNECTION_WINDOW: u64 = 1_048_576;
/// The same as the client knows them before the server's first reply.
const FIRST_STREAM_LIMIT: u64 = 16_384;
const FIRST_CONNECTION_LIMIT: u64 = 65_536;
/// Prepares in flight, and failures in a row after which the connection fails.
const MOST_IN_FLIGHT: usize = 16;
const MOST_FAILURES: u32 = 200;
/// The time for an answer, in milliseconds.
const ANSWER_TIME: i64 = 30_000;

/// The keys of both ends, from the secret that they share.
pub struct Keys {
    encryption: Key,
    fulfillment: Hmac,
}

impl Keys {
    pub fn of(secret: &[u8; 32]) -> Keys {
        let secret = Hmac::new(secret);
        Keys {
            encryption: Key::new(&secret.of(b"ilp_stream_encryption")),
            fulfillment: Hmac::new(&secret.of(b"ilp_stream_fulfillment")),
        }
    }

    /// The data of an ILP packet: IV, tag and the encrypted STREAM packet.
    fn seal(&self, iv: &[u8; 12], kind: u8, packet: &Packet<'_>) -> Vec<u8> {
        let mut data = Vec::with_capacity(MOST_DATA);
        data.extend_from_slice(iv);
        data.extend_from_slice(&[0; 16]);
        put_packet(&mut data, kind, packet);
        let tag = self.encryption.seal(iv, &mut data[28..]);
        data[12..28].copy_from_slice(&tag);
        data
    }

    /// Decrypts the data of an ILP packet in place: the IV and the STREAM packet.
    fn open<'a>(&self, data: &'a mut [u8]) -> Option<([u8; 12], &'a [u8])> {
        let (iv, rest) = data.split_first_chunk_mut::<12>()?;
        let (tag, text) = rest.split_first_chunk_mut::<16>()?;
        self.encryption.open(iv, tag, text).then_some((*iv, text))
    }
}

#[derive(PartialEq)]
enum Close {
    Due,
    InFlight,
    Fulfilled,
}

/// A stream of the client.
struct Outgoing<'a> {
    /// What is still to be sent, in chunks of one frame, each with its offset.
    due: VecDeque<(u64, &'a [u8])>,
    unacknowledged: usize,
    /// The end of the bytes that were sent, and the end that the server allows.
    sent: u64,
    limit: u64,
    close: Close,
}

impl<'a> Outgoing<'a> {
    fn new(input: &'a [u8]) -> Outgoing<'a> {
        let due = input.chunks(FRAME).enumerate().map(|(i, chunk)| ((i * FRAME) as u64, chunk)).collect();
        Outgoing { due, unacknowledged: input.len(), sent: 0, limit: FIRST_STREAM_LIMIT, close: Close::Due }
    }

    /// The next chunk, if a packet has this room for it, and both limits allow it. The sum of the streams' ends may rise by `spare`.
    fn take(&mut self, room: usize, spare: &mut u64) -> Option<(u64, &'a [u8])> {
        let (offset, bytes) = *self.due.front()?;
        let end = offset + bytes.len() as u64;
        let rise = end.saturating_sub(self.sent);
        if FRAME_HEAD + bytes.len() > room || end > self.limit || rise > *spare {
            return None;
        }
        self.sent += rise;
        *spare -= rise;
        self.due.pop_front()
    }
}

/// A Prepare without an answer: its condition, and its frames.
struct Flight<'a> {
    condition: [u8; 32],
    frames: Vec<Frame<'a>>,
}

/// The number of the stream at a place: those of a client are odd.
fn number_of(place: usize) -> u64 {
    2 * place as u64 + 1
}

pub struct Client<'a> {
    keys: Keys,
    streams: Vec<Outgoing<'a>>,
    /// The sum of the streams' ends that the server allows.
    limit: u64,
    /// The stream that is served first in the next Prepare.
    turn: usize,
    sequence: u64,
    failures: u32,
    flights: HashMap<u64, Flight<'a>>,
}

impl<'a> Client<'a> {
    /// A client that sends each of the parts on a stream of its own.
    pub fn new(keys: Keys, parts: impl Iterator<Item = &'a [u8]>) -> Client<'a> {
        let streams = parts.map(Outgoing::new).collect();
        Client { keys, streams, limit: FIRST_CONNECTION_LIMIT, turn: 0, sequence: 0, failures: 0, flights: HashMap::new() }
    }

    pub fn has_failed(&self) -> bool {
        self.failures >= MOST_FAILURES
    }

    pub fn has_ended(&self) -> bool {
        self.streams.iter().all(|it| it.close == Close::Fulfilled)
    }

    /// What the next Prepare carries: closes, and one chunk of each stream in turn, as long as there is room.
    fn load(&mut self) -> Vec<Frame<'a>> {
        let mut room = MOST_PLAIN - PACKET_HEAD;
        let mut spare = self.limit.saturating_sub(self.streams.iter().map(|it| it.sent).sum());
        let mut frames = Vec::new();
        for (place, stream) in self.streams.iter_mut().enumerate() {
            if stream.close == Close::Due && stream.unacknowledged == 0 {
                stream.close = Close::InFlight;
                room -= FRAME_HEAD;
                frames.push(Frame::StreamClose { stream: number_of(place), code: 1 });
            }
        }
        let count = self.streams.len();
        for place in (self.turn..self.turn + count).map(|it| it % count) {
            if let Some((offset, bytes)) = self.streams[place].take(room, &mut spare) {
                room -= FRAME_HEAD + bytes.len();
                frames.push(Frame::StreamData { stream: number_of(place), offset, bytes });
                self.turn = place + 1;
            }
        }
        frames
    }

    /// The next Prepare with its sequence, if one is due and may be sent.
    pub fn send(&mut self, now: i64) -> Option<(u64, Vec<u8>)> {
        if self.flights.len() >= MOST_IN_FLIGHT {
            return None;
        }
        let frames = self.load();
        if frames.is_empty() {
            return None;
        }
        self.sequence += 1;
        let mut iv = [0; 12];
        iv[4..].copy_from_slice(&self.sequence.to_be_bytes());
        let data = self.keys.seal(&iv, PREPARE, &Packet { sequence: self.sequence, amount: 0, frames: frames.clone() });
        let condition = sha256(&self.keys.fulfillment.of(&data));
        let expiry = now + ANSWER_TIME;
        let bytes = write_prepare(&Prepare { amount: 0, expiry, condition, destination: SERVER, data: &data });
        self.flights.insert(self.sequence, Flight { condition, frames });
        Some((self.sequence, bytes))
    }

    /// Accepts the answer to a Prepare; `None` if there is none.
    pub fn answered(&mut self, sequence: u64, answer: Option<&[u8]>) {
        let Some(flight) = self.flights.remove(&sequence) else { return };
        match answer.map(read_answer) {
            Some(Ok(Answer::Fulfill { fulfillment, data })) if sha256(&fulfillment) == flight.condition => {
                self.failures = 0;
                flight.frames.iter().for_each(|it| self.acknowledge(it));
                let mut data = data.to_vec();
                if let Some((_, text)) = self.keys.open(&mut data)
                    && let Ok(reply) = read_packet(text, FULFILL)
                    && reply.sequence == sequence
                {
                    reply.frames.iter().for_each(|it| self.raise(it));
                }
            }
            Some(Ok(Answer::Reject { code })) if code[0] == b'F' && code != *b"F99" => self.failures = MOST_FAILURES,
            _ => {
                self.failures += 1;
                flight.frames.into_iter().for_each(|it| self.fail(it));
            }
        }
    }

    /// The stream of a number, if it is one of the client's.
    fn stream(&mut self, number: u64) -> Option<&mut Outgoing<'a>> {
        self.streams.get_mut(number as usize / 2).filter(|_| number % 2 == 1)
    }

    fn acknowledge(&mut self, frame: &Frame<'_>) {
        let Some(stream) = frame.stream().and_then(|it| self.stream(it)) else { return };
        match frame {
            Frame::StreamData { bytes, .. } => stream.unacknowledged -= bytes.len(),
            _ => stream.close = Close::Fulfilled,
        }
    }

    /// What a frame has is due again.
    fn fail(&mut self, frame: Frame<'a>) {
        let Some(stream) = frame.stream().and_then(|it| self.stream(it)) else { return };
        match frame {
            Frame::StreamData { offset, bytes, .. } => stream.due.push_front((offset, bytes)),
            _ => stream.close = Close::Due,
        }
    }

    /// Raises the limit that a frame of a reply has.
    fn raise(&mut self, frame: &Frame<'_>) {
        match *frame {
            Frame::ConnectionMaxData { most } => self.limit = self.limit.max(most),
            Frame::StreamMaxData { stream, most } => {
                if let Some(stream) = self.stream(stream) {
                    stream.limit = stream.limit.max(most);
                }
            }
            _ => {}
        }
    }
}

/// A stream of the server: what was read of it, and the bytes that arrived before those in front of them.
#[derive(Default)]
struct Incoming {
    read: Vec<u8>,
    early: BTreeMap<u64, Vec<u8>>,
    /// The highest end of bytes that arrived.
    highest: u64,
    end: Option<u64>,
}

impl Incoming {
    fn limit(&self) -> u64 {
        self.read.len() as u64 + STREAM_WINDOW
    }

    /// Reads bytes that follow what was read, or have some of it in front.
    fn append(&mut self, offset: u64, bytes: &[u8]) {
        let known = self.read.len() - offset as usize;
        self.read.extend_from_slice(bytes.get(known..).unwrap_or_default());
    }

    fn insert(&mut self, offset: u64, bytes: &[u8]) {
        self.highest = self.highest.max(offset + bytes.len() as u64);
        if offset > self.read.len() as u64 {
            let kept = self.early.entry(offset).or_default();
            if kept.len() < bytes.len() {
                kept.extend_from_slice(&bytes[kept.len()..]);
            }
            return;
        }
        self.append(offset, bytes);
        while let Some(first) = self.early.first_entry()
            && *first.key() <= self.read.len() as u64
        {
            let (offset, bytes) = first.remove_entry();
            self.append(offset, &bytes);
        }
    }
}

pub struct Server {
    keys: Keys,
    streams: BTreeMap<u64, Incoming>,
    fulfilled: HashSet<u64>,
}

/// The code of a Reject.
type Code = &'static [u8; 3];

impl Server {
    pub fn new(keys: Keys) -> Server {
        Server { keys, streams: BTreeMap::new(), fulfilled: HashSet::new() }
    }

    /// What was read of the stream at a place, if it has ended.
    pub fn read(&self, place: usize) -> Option<&[u8]> {
        let stream = self.streams.get(&number_of(place))?;
        (stream.end == Some(stream.read.len() as u64)).then_some(&stream.read)
    }

    /// The answer to a Prepare.
    pub fn receive(&mut self, bytes: &[u8], now: i64) -> Vec<u8> {
        self.fulfill(bytes, now).unwrap_or_else(|code| write_reject(code, SERVER))
    }

    fn fulfill(&mut self, bytes: &[u8], now: i64) -> Result<Vec<u8>, Code> {
        let prepare = read_prepare(bytes).map_err(|Malformed| b"F01")?;
        if prepare.destination.strip_prefix(SERVER).is_none_or(|rest| !rest.is_empty() && !rest.starts_with('.')) {
            return Err(b"F02");
        }
        if prepare.expiry <= now {
            return Err(b"R00");
        }
        let fulfillment = self.keys.fulfillment.of(prepare.data);
        let mut data = prepare.data.to_vec();
        let (mut iv, text) = self.keys.open(&mut data).ok_or(b"F06")?;
        let packet = read_packet(text, PREPARE).map_err(|Malformed| b"F99")?;
        if sha256(&fulfillment) != prepare.condition || prepare.amount != 0 || !self.may_take(&packet) {
            return Err(b"F99");
        }
        self.take(&packet);
        iv[0] ^= 0x80;
        let reply = Packet { sequence: packet.sequence, amount: prepare.amount, frames: self.limits(&packet) };
        Ok(write_fulfill(&fulfillment, &self.keys.seal(&iv, FULFILL, &reply)))
    }

    /// Whether a packet is new, names the client's streams alone, and keeps to the windows.
    fn may_take(&self, packet: &Packet<'_>) -> bool {
        let mut ends: BTreeMap<u64, u64> = self.streams.iter().map(|(number, it)| (*number, it.highest)).collect();
        for frame in &packet.frames {
            let Some(stream) = frame.stream() else { continue };
            let end = match *frame {
                Frame::StreamData { offset, bytes, .. } => offset.saturating_add(bytes.len() as u64),
                _ => 0,
            };
            let limit = self.streams.get(&stream).map_or(STREAM_WINDOW, Incoming::limit);
            if !(1..=64).contains(&stream) || stream % 2 == 0 || end > limit {
                return false;
            }
            let known = ends.entry(stream).or_default();
            *known = end.max(*known);
        }
        ends.values().sum::<u64>() <= self.limit() && packet.amount == 0 && !self.fulfilled.contains(&packet.sequence)
    }

    fn take(&mut self, packet: &Packet<'_>) {
        self.fulfilled.insert(packet.sequence);
        for frame in &packet.frames {
            if let Frame::StreamData { stream, offset, bytes } = *frame {
                self.streams.entry(stream).or_default().insert(offset, bytes);
            }
        }
        for frame in &packet.frames {
            if let Frame::StreamClose { stream, .. } = *frame {
                let stream = self.streams.entry(stream).or_default();
                stream.end.get_or_insert(stream.highest);
            }
        }
    }

    /// The most that the ends of all streams may be together.
    fn limit(&self) -> u64 {
        self.streams.values().map(|it| it.read.len() as u64).sum::<u64>() + CONNECTION_WINDOW
    }

    /// The limits that a reply has: the connection's, and those of each stream that the packet names. What a packet brings is read
    /// before its reply is made, so that no sender waits at a limit with nothing in flight.
    fn limits(&self, packet: &Packet<'_>) -> Vec<Frame<'static>> {
        let named: BTreeSet<u64> = packet.frames.iter().filter_map(Frame::stream).collect();
        let mut frames = vec![Frame::ConnectionMaxData { most: self.limit() }];
        for stream in named {
            frames.push(Frame::StreamMaxData { stream, most: self.streams.get(&stream).map_or(STREAM_WINDOW, Incoming::limit) });
            frames.push(Frame::StreamMaxMoney { stream, most: 0, total: 0 });
        }
        frames
    }
}
