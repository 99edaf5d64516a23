//! What an end sends and receives, packet by packet: the other end is played manually, with the plain readers and writers.

use super::{SECRET, config, new_end};
use crate::hostile::plain::answers::{fulfill_bytes, reject_bytes};
use crate::hostile::plain::ilp::{self, PlainAnswer};
use crate::hostile::plain::prepares::{Offer, prepare_bytes};
use crate::hostile::plain::seal::{PlainKeys, sha256};
use crate::hostile::plain::stream::{PlainFrame, packet, packet_bytes};
use ilpstream::{End, EndConfig, Error, Failure, Flight, Read, Role};

/// A frame's type and its numbers (RFC 0029, section 5.3), and its text or data.
type Frame = (u8, [u64; 3], Vec<u8>);

/// A frame without text or data.
fn frame(kind: u8, numbers: [u64; 3]) -> Frame {
    (kind, numbers, Vec::new())
}

fn data(stream: u64, offset: u64, bytes: &[u8]) -> Frame {
    (0x14, [stream, offset, 0], bytes.to_vec())
}

/// The sealed packet of these frames, as a peer makes it.
fn sealed(kind: u8, sequence: u64, amount: u64, frames: &[Frame]) -> Vec<u8> {
    let plain: Vec<PlainFrame<'_>> = frames
        .iter()
        .map(|(kind, numbers, bytes)| PlainFrame {
            index: 0,
            kind: *kind,
            numbers: *numbers,
            bytes,
        })
        .collect();
    let mut iv = [kind; 12];
    iv[4..].copy_from_slice(&sequence.to_be_bytes());
    PlainKeys::of(&SECRET).seal(&iv, &packet_bytes(kind, sequence, amount, &plain))
}

/// The frames of a payload, and its amount field.
fn opened(payload: &[u8], kind: u8) -> (Vec<Frame>, u64) {
    let plain = PlainKeys::of(&SECRET).open(payload).expect("it is sealed");
    let Ok(packet) = packet(&plain, kind) else {
        panic!("no packet: {plain:?}");
    };
    let all = packet.frames.iter();
    let frames = all.map(|it| (it.kind, it.numbers, it.bytes.to_vec()));
    (frames.collect(), packet.amount)
}

// ---- receiving

/// A Prepare of this amount to `test.b` with the packet of these frames.
fn prepare(sequence: u64, amount: u64, least: u64, frames: &[Frame]) -> Vec<u8> {
    let payload = sealed(12, sequence, least, frames);
    prepare_bytes(Offer {
        amount,
        expiry: b"19700101000030000",
        condition: &sha256(&PlainKeys::of(&SECRET).fulfillment(&payload)),
        destination: b"test.b",
        payload: &payload,
    })
}

/// The reason of the server's answer (0 for a Fulfill), and the frames of its reply.
fn told(server: &mut End, bytes: &[u8]) -> (u32, Vec<Frame>) {
    let received = server.receive(bytes, 0).unwrap();
    let frames = match ilp::answer(&received.bytes) {
        Ok(PlainAnswer::Fulfill { payload, .. }) => opened(payload, 13).0,
        Ok(PlainAnswer::Reject { code, payload, .. }) => {
            assert_eq!(code, b"F99");
            opened(payload, 14).0
        }
        Err(refusal) => panic!("no answer: {refusal:?}"),
    };
    (received.reason, frames)
}

fn reason(server: &mut End, sequence: u64, amount: u64, least: u64, frames: &[Frame]) -> u32 {
    told(server, &prepare(sequence, amount, least, frames)).0
}

fn server(receive_max: &[(u8, u64)]) -> End {
    let mut server = new_end(Role::Server, config(16, 100, 1_000)).unwrap();
    for (stream, amount) in receive_max {
        server.set_receive_max(*stream, *amount).unwrap();
    }
    server
}

/// Shares of the streams 1 and 3.
fn shares(first: u64, third: u64) -> [Frame; 2] {
    [frame(0x11, [1, first, 0]), frame(0x11, [3, third, 0])]
}

/// Of ten units one share of three is 4, since what is left over is the first stream's; and no Prepare is credited twice.
#[test]
fn an_amount_is_split_by_the_shares() {
    let mut server = server(&[(1, 100), (3, 100)]);
    let ten = prepare(1, 10, 0, &shares(1, 2));
    let (reason, reply) = told(&mut server, &ten);
    assert_eq!(reason, 0);
    for (stream, credit) in [(1, 4), (3, 6)] {
        assert!(reply.contains(&frame(0x12, [stream, 100, credit])));
    }
    assert_eq!(server.totals().unwrap().credited, 10);
    assert_eq!(told(&mut server, &ten).0, 60);
    assert_eq!(server.totals().unwrap().credited, 10);
}

#[test]
fn money_that_may_not_come_is_rejected() {
    let mut server = server(&[(1, 100), (3, 5)]);
    assert_eq!(reason(&mut server, 1, 10, 0, &shares(0, 0)), 64);
    assert_eq!(reason(&mut server, 1, 10, 0, &[]), 64);
    assert_eq!(reason(&mut server, 1, 10, 0, &shares(1, 2)), 65);
    assert_eq!(reason(&mut server, 1, 4, 5, &shares(1, 0)), 61);
    assert_eq!(server.totals().unwrap().credited, 0);
    assert_eq!(server.has_stream(1), Ok(false));
    // (a receive max is raised, and never lowered)
    server.set_receive_max(3, 6).unwrap();
    server.set_receive_max(3, 2).unwrap();
    assert_eq!(reason(&mut server, 1, 10, 10, &shares(1, 2)), 0);
}

#[test]
fn the_peer_opens_streams_of_its_own_numbers() {
    let mut server = server(&[]);
    for stream in [0, 2, 65, u64::MAX] {
        assert_eq!(reason(&mut server, 1, 0, 0, &[data(stream, 0, b"a")]), 63);
    }
    assert_eq!(server.open_stream(), Ok(2));
    assert_eq!(reason(&mut server, 1, 0, 0, &[data(2, 0, b"a")]), 0);
    assert_eq!(reason(&mut server, 2, 0, 0, &[data(63, 0, b"a")]), 0);
}

#[test]
fn data_end_within_the_window() {
    let mut server = server(&[]);
    assert_eq!(reason(&mut server, 1, 0, 0, &[data(1, 65_536, b"a")]), 62);
    assert_eq!(reason(&mut server, 1, 0, 0, &[data(1, 65_535, b"a")]), 0);
    assert_eq!(reason(&mut server, 2, 0, 0, &[data(1, 65_536, b"a")]), 62);
    assert_eq!(server.read(1, 9), Ok(Read::Nothing));
}

/// The end of a stream that is closed, and then aborted too late.
#[test]
fn a_close_comes_after_the_data_of_its_packet() {
    let mut server = server(&[]);
    let close = [frame(0x10, [1, 1, 0]), data(1, 0, b"hi")];
    assert_eq!(reason(&mut server, 2, 0, 0, &close), 0);
    assert_eq!(reason(&mut server, 5, 0, 0, &[frame(0x10, [1, 9, 0])]), 0);
    assert_eq!(server.read(1, 9), Ok(Read::Bytes(b"hi".to_vec())));
    assert_eq!(server.read(1, 9), Ok(Read::End));
    assert_eq!(server.read(1, 9), Ok(Read::End));
}

/// An abort ends reading at once. Its reply says that its bytes are read: the connection takes as many more.
#[test]
fn an_abort_ends_reading_at_once() {
    let mut server = server(&[]);
    let abort = [data(1, 65_535, b"a"), frame(0x10, [1, 9, 0])];
    let (reason, reply) = told(&mut server, &prepare(1, 0, 0, &abort));
    assert_eq!(reason, 0);
    assert!(reply.contains(&frame(0x03, [1_048_576 + 65_536, 0, 0])));
    assert_eq!(server.read(1, 9), Ok(Read::Aborted(9)));
    assert_eq!(server.read(1, 9), Ok(Read::Aborted(9)));
}

/// A peer that says that it is blocked gets the limit once it is raised, by a Prepare of this end.
#[test]
fn limits_at_which_the_peer_waits_are_told() {
    let mut server = server(&[]);
    let bytes = [7; 30_000];
    let waits = [frame(0x16, [1, 65_536, 0]), frame(0x13, [1, 5, 0])];
    let all = [&bytes[..], &bytes, &bytes[..5_536]];
    for (sequence, bytes) in (1..).zip(all) {
        let at = 30_000 * (sequence - 1);
        let frames = [&[data(1, at, bytes)], &waits[..]].concat();
        let (reason, reply) = told(&mut server, &prepare(sequence, 0, 0, &frames));
        assert_eq!(reason, 0);
        assert!(reply.contains(&frame(0x15, [1, 65_536, 0])));
        assert!(send(&mut server).is_none());
    }
    let Ok(Read::Bytes(read)) = server.read(1, 100_000) else {
        panic!("there are bytes");
    };
    assert_eq!(read.len(), 65_536);
    let window = sent(&mut server);
    assert_eq!(window.frames, [frame(0x15, [1, 131_072, 0])]);
    fulfill(&mut server, &window, &[]);
    assert!(send(&mut server).is_none());
    server.set_receive_max(1, 7).unwrap();
    assert_eq!(sent(&mut server).frames, [frame(0x12, [1, 7, 0])]);
    assert!(send(&mut server).is_none());
}

/// Limits count for the stream that their packet opens, if it is fulfilled. A packet that is rejected opens none.
#[test]
fn limits_count_in_the_packet_that_opens_their_stream() {
    let mut server = server(&[]);
    let limits = |offset, receive_max| {
        [
            frame(0x15, [1, offset, 0]),
            frame(0x12, [1, receive_max, 0]),
        ]
    };
    let too_much = [&limits(20_000, 9)[..], &[frame(0x11, [1, 1, 0])]].concat();
    assert_eq!(reason(&mut server, 1, 1, 0, &too_much), 65);
    assert_eq!(server.has_stream(1), Ok(false));
    let opens = [&limits(16_390, 7)[..], &[data(1, 0, b"a")]].concat();
    assert_eq!(reason(&mut server, 2, 0, 0, &opens), 0);
    server.write(1, &[7; 20_000]).unwrap();
    server.offer(1, 10).unwrap();
    let first = sent(&mut server);
    assert_eq!((first.amount, first.data()), (7, vec![(0, 16_000)]));
    let second = sent(&mut server);
    assert_eq!((second.amount, second.data()), (0, vec![(16_000, 390)]));
    assert!(send(&mut server).is_none());
}

// ---- sending

/// An end's next Prepare, as its peer reads it.
struct Sent {
    flight: Flight,
    amount: u64,
    least: u64,
    frames: Vec<Frame>,
    payload: Vec<u8>,
}

impl Sent {
    /// The offsets and lengths of its data.
    fn data(&self) -> Vec<(u64, usize)> {
        let of = |it: &&Frame| it.0 == 0x14;
        let all = self.frames.iter().filter(of);
        all.map(|(_, [_, offset, _], bytes)| (*offset, bytes.len()))
            .collect()
    }
}

/// A client on which these streams are open.
fn client(streams: &[u8], config: EndConfig) -> End {
    let mut client = new_end(Role::Client, config).unwrap();
    for stream in streams {
        assert_eq!(client.open_stream(), Ok(*stream));
    }
    client
}

fn send(client: &mut End) -> Option<Sent> {
    let next = client.send(&[3; 12], 0).unwrap()?;
    let prepare = ilp::prepare(&next.bytes).unwrap();
    let (frames, least) = opened(prepare.payload, 12);
    Some(Sent {
        flight: next.flight,
        amount: prepare.amount,
        least,
        frames,
        payload: prepare.payload.to_vec(),
    })
}

fn sent(client: &mut End) -> Sent {
    send(client).expect("there is something to send")
}

/// It is fulfilled, with these limits in the reply.
fn fulfill(client: &mut End, sent: &Sent, limits: &[Frame]) {
    let reply = sealed(13, sent.flight.sequence(), sent.amount, limits);
    let fulfillment = PlainKeys::of(&SECRET).fulfillment(&sent.payload);
    let mut bytes = fulfill_bytes(&fulfillment, &reply);
    assert_eq!(client.answer(sent.flight, &mut bytes), Ok(true));
}

/// It is rejected.
fn reject(client: &mut End, sent: &Sent, code: &[u8; 3], data: &[u8]) {
    let mut bytes = reject_bytes(code, b"test.c", data);
    assert_eq!(client.answer(sent.flight, &mut bytes), Ok(false));
}

#[test]
fn calls_on_a_stream_are_refused_in_their_order() {
    let mut client = client(&[1, 3], config(16, 1_000, 1_000));
    client.write(1, &vec![7; 262_144]).unwrap();
    assert_eq!(client.write(1, b"a"), Err(Error::Full));
    assert_eq!(client.write(1, b""), Ok(()));
    assert_eq!(client.write(5, b"a"), Err(Error::NoStream));
    client.offer(1, (1 << 63) - 1).unwrap();
    assert_eq!(client.offer(3, 1), Err(Error::AmountTooLarge));
    assert_eq!(client.offer(3, 0), Ok(()));
    assert_eq!(client.offer(5, 1), Err(Error::NoStream));
    client.close(1).unwrap();
    assert_eq!(client.close(1), Err(Error::Closed));
    assert_eq!(client.write(1, b"a"), Err(Error::Closed));
    assert_eq!(client.abort(1, 9), Ok(()));
    assert_eq!(client.abort(1, 9), Err(Error::Closed));
}

/// An abort is sent in place of the bytes and of the close.
#[test]
fn an_abort_is_sent_at_once() {
    let mut client = client(&[1], config(16, 1_000, 1_000));
    client.write(1, b"ab").unwrap();
    client.close(1).unwrap();
    client.abort(1, 9).unwrap();
    assert_eq!(sent(&mut client).frames, [frame(0x10, [1, 9, 0])]);
    assert!(send(&mut client).is_none());
}

/// Before a limit was advertised 16,384 bytes are sent, at most 16,000 in a packet; then as far as the peer says.
#[test]
fn no_byte_is_sent_past_a_limit() {
    let mut client = client(&[1], config(16, 1_000, 1_000));
    client.write(1, &[7; 20_000]).unwrap();
    let first = sent(&mut client);
    assert_eq!(first.data(), [(0, 16_000)]);
    let second = sent(&mut client);
    assert_eq!(second.data(), [(16_000, 384)]);
    assert!(send(&mut client).is_none());
    fulfill(&mut client, &first, &[frame(0x15, [1, 16_385, 0])]);
    let third = sent(&mut client);
    assert_eq!(third.data(), [(16_384, 1)]);
    assert!(send(&mut client).is_none());
    for it in [second, third] {
        fulfill(&mut client, &it, &[]);
    }
    assert_eq!(sent(&mut client).frames, [frame(0x16, [1, 16_385, 0])]);
}

/// A blocked stream is reported once, and again if that Prepare failed.
#[test]
fn a_blocked_stream_is_told_once() {
    let mut client = client(&[1, 3], config(16, 1_000, 1_000));
    client.write(3, &[7; 16_385]).unwrap();
    for _ in 0..2 {
        let next = sent(&mut client);
        fulfill(&mut client, &next, &[]);
    }
    let blocked = sent(&mut client);
    assert_eq!(blocked.frames, [frame(0x16, [3, 16_384, 0])]);
    assert!(send(&mut client).is_none());
    reject(&mut client, &blocked, b"T00", b"");
    let again = sent(&mut client);
    assert_eq!(again.frames, blocked.frames);
    fulfill(&mut client, &again, &[]);
    assert!(send(&mut client).is_none());
}

/// Streams send in round robin: the byte of stream 9 is sent in the first round, and the last byte of stream 7 waits.
#[test]
fn a_blocked_connection_is_told_once() {
    let mut client = client(&[1, 3, 5, 7, 9], config(16, 1_000, 1_000));
    for stream in [1, 3, 5, 7] {
        client.write(stream, &[7; 16_384]).unwrap();
    }
    client.write(9, b"a").unwrap();
    let all: Vec<Sent> = std::iter::from_fn(|| send(&mut client)).collect();
    let bytes: usize = all
        .iter()
        .flat_map(|it| it.data())
        .map(|(_, len)| len)
        .sum();
    assert_eq!(bytes, 65_536);
    for it in &all {
        fulfill(&mut client, it, &[]);
    }
    let blocked = sent(&mut client);
    assert_eq!(blocked.frames, [frame(0x04, [65_536, 0, 0])]);
    fulfill(&mut client, &blocked, &[frame(0x03, [65_537, 0, 0])]);
    assert_eq!(sent(&mut client).data(), [(16_383, 1)]);
}

#[test]
fn money_is_sent_up_to_the_receive_max() {
    let mut client = client(&[1], config(16, 1_000, 1_000));
    client.write(1, b"a").unwrap();
    let first = sent(&mut client);
    fulfill(&mut client, &first, &[frame(0x12, [1, 10, 4])]);
    client.offer(1, 9).unwrap();
    let six = sent(&mut client);
    assert_eq!((six.amount, six.least), (6, 6));
    assert_eq!(six.frames.len(), 1);
    assert_eq!((six.frames[0].0, six.frames[0].1[0]), (0x11, 1));
    assert!(send(&mut client).is_none());
    fulfill(&mut client, &six, &[frame(0x12, [1, 10, 10])]);
    assert_eq!(client.totals().unwrap().paid, 6);
    let blocked = sent(&mut client);
    assert_eq!(blocked.frames, [frame(0x13, [1, 10, 6])]);
    fulfill(&mut client, &blocked, &[]);
    assert!(send(&mut client).is_none());
}

/// One unit has to arrive of a thousand. Once the receive max is used up no money is sent, though 999 units would count for
/// nothing of it.
#[test]
fn no_money_is_sent_once_the_receive_max_is_used_up() {
    let of = EndConfig {
        least_num: 1,
        least_den: 1_000,
        ..config(16, 1_000, 1_000_000)
    };
    let mut client = client(&[1], of);
    client.write(1, b"a").unwrap();
    let first = sent(&mut client);
    fulfill(&mut client, &first, &[frame(0x12, [1, 5, 0])]);
    client.offer(1, 6_998).unwrap();
    let five = sent(&mut client);
    assert_eq!((five.amount, five.least), (5_999, 5));
    assert!(send(&mut client).is_none());
    fulfill(&mut client, &five, &[frame(0x12, [1, 5, 5])]);
    // (999 units are left)
    let blocked = sent(&mut client);
    assert_eq!(blocked.frames, [frame(0x13, [1, 5, 5_999])]);
    fulfill(&mut client, &blocked, &[frame(0x12, [1, 6, 5])]);
    assert_eq!(sent(&mut client).amount, 999);
}

/// The packet limit is shared by the streams in their order, and what failed is sent again.
#[test]
fn the_packet_limit_is_shared_among_streams() {
    let mut client = client(&[1, 3, 5], config(4, 1_000, 100));
    for (stream, amount) in [(1, 60), (3, 50), (5, 30)] {
        client.offer(stream, amount).unwrap();
    }
    let (first, second) = (sent(&mut client), sent(&mut client));
    assert_eq!((first.amount, second.amount), (100, 40));
    assert!(send(&mut client).is_none());
    fulfill(&mut client, &first, &[]);
    reject(&mut client, &second, b"T04", b"");
    assert_eq!(client.totals().unwrap().paid, 100);
    assert_eq!(sent(&mut client).amount, 40);
}

/// Of 100 units three fourths have to arrive.
#[test]
fn the_least_that_has_to_arrive_is_said() {
    let of = EndConfig {
        least_num: 3,
        least_den: 4,
        ..config(4, 1_000, 101)
    };
    let mut client = client(&[1], of);
    client.offer(1, 101).unwrap();
    let all = sent(&mut client);
    assert_eq!((all.amount, all.least), (101, 75));
}

/// What F08 says lowers the packet limit: as much of it as the greatest is of what arrived, rounded down; half of what was sent
/// if it says nothing, or what cannot be; and one at least.
#[test]
fn too_large_an_amount_lowers_the_packet_limit() {
    for (amount, told, want) in [
        (7, Some((3u64, 1u64)), 2),
        (5, None, 2),
        (1, None, 1),
        (150, Some((150, 100)), 100),
        (6, Some((0, 9)), 3),
    ] {
        let mut client = client(&[1], config(4, 1_000, amount));
        client.offer(1, 1_000_000).unwrap();
        let first = sent(&mut client);
        assert_eq!(first.amount, amount);
        let both = |(a, b): (u64, u64)| [a.to_be_bytes(), b.to_be_bytes()].concat();
        reject(&mut client, &first, b"F08", &told.map_or(Vec::new(), both));
        assert_eq!(sent(&mut client).amount, want, "after {amount}");
    }
}

/// 200 failures in a row, and a final code, fail the connection. F08 does not.
#[test]
fn a_connection_fails_after_200_failures_or_a_final_code() {
    let mut client = client(&[1], config(1, 1_000, 1_000));
    client.write(1, b"a").unwrap();
    for _ in 0..200 {
        assert_eq!(client.is_failed(), Ok(false));
        let next = sent(&mut client);
        assert_eq!(next.data(), [(0, 1)]);
        reject(&mut client, &next, b"F99", b"");
    }
    assert_eq!(client.is_failed(), Ok(true));
    assert!(send(&mut client).is_none());
    assert_eq!(client.write(1, b"a"), Err(Error::ConnectionFailed));
    let mut client = self::client(&[1], config(1, 1_000, 1_000));
    client.write(1, b"a").unwrap();
    let first = sent(&mut client);
    reject(&mut client, &first, b"F08", b"");
    let second = sent(&mut client);
    reject(&mut client, &second, b"F02", b"");
    assert_eq!(client.is_failed(), Ok(true));
}

/// A clean close is sent once the last byte was acknowledged.
#[test]
fn a_close_is_sent_once_all_is_acknowledged() {
    let mut client = client(&[1], config(16, 1_000, 1_000));
    client.write(1, b"ab").unwrap();
    client.close(1).unwrap();
    let first = sent(&mut client);
    assert_eq!(first.frames, [data(1, 0, b"ab")]);
    assert!(send(&mut client).is_none());
    client.fault(first.flight).unwrap();
    let again = sent(&mut client);
    assert_eq!(again.frames, first.frames);
    fulfill(&mut client, &again, &[]);
    let close = sent(&mut client);
    assert_eq!(close.frames, [frame(0x10, [1, 1, 0])]);
    fulfill(&mut client, &close, &[]);
    assert!(send(&mut client).is_none());
    assert_eq!(client.settled(1), Ok(true));
}

/// A close and an abort go in the next Prepare, with the bytes of another stream.
#[test]
fn closes_do_not_wait_for_bytes() {
    let mut client = client(&[1, 3, 5], config(16, 1_000, 1_000));
    client.write(5, b"ab").unwrap();
    client.close(1).unwrap();
    client.abort(3, 9).unwrap();
    let closes = [frame(0x10, [1, 1, 0]), frame(0x10, [3, 9, 0])];
    let next = sent(&mut client);
    assert_eq!(next.frames[..2], closes);
    assert_eq!(next.frames[2..], [data(5, 0, b"ab")]);
    assert!(send(&mut client).is_none());
}

/// The closes of all 32 streams that a client may open go in one Prepare.
#[test]
fn closes_go_together() {
    let streams: Vec<u8> = (0..32).map(|i| 2 * i + 1).collect();
    let mut client = client(&streams, config(16, 1_000, 1_000));
    for stream in &streams {
        client.close(*stream).unwrap();
    }
    assert_eq!(sent(&mut client).frames.len(), 32);
    assert!(send(&mut client).is_none());
}

/// A peer that opens streams 1, 3, 5 and 7, takes all that is sent on stream 1, and waits for more room on stream 7.
fn peer_waits(server: &mut End) {
    for (sequence, stream) in [(1, 1), (2, 3), (3, 5)] {
        let opens = [frame(0x15, [stream, 300_000, 0]), data(stream, 0, b"a")];
        assert_eq!(reason(server, sequence, 0, 0, &opens), 0);
    }
    let far = frame(0x03, [1_000_000, 0, 0]);
    assert_eq!(reason(server, 4, 0, 0, &[far]), 0);
    let waits = [data(7, 0, &[7; 30_000]), frame(0x16, [7, 65_536, 0])];
    assert_eq!(reason(server, 5, 0, 0, &waits), 0);
    for (sequence, at) in [(6, 30_000), (7, 60_000)] {
        let rest = [7; 30_000];
        let bytes = &rest[..30_000.min(65_536 - at as usize)];
        let more = [data(7, at, bytes)];
        assert_eq!(reason(server, sequence, 0, 0, &more), 0);
    }
}

/// Stream 1 always has more bytes than a Prepare holds. A clean close, an abort and a raised limit go in the next one.
#[test]
fn nothing_waits_for_a_stream_that_always_has_bytes() {
    let mut server = server(&[]);
    peer_waits(&mut server);
    server.write(1, &[7; 262_144]).unwrap();
    server.write(3, b"ab").unwrap();
    server.close(3).unwrap();
    let first = sent(&mut server);
    assert_eq!(first.data(), [(0, 16_000), (0, 2)]);
    fulfill(&mut server, &first, &[]);
    server.write(5, b"cd").unwrap();
    server.abort(5, 9).unwrap();
    assert!(matches!(server.read(7, 100_000), Ok(Read::Bytes(_))));
    let next = sent(&mut server);
    for due in [
        frame(0x10, [3, 1, 0]),
        frame(0x10, [5, 9, 0]),
        frame(0x15, [7, 131_072, 0]),
        data(1, 16_000, &[7; 16_000]),
    ] {
        assert!(next.frames.contains(&due));
    }
    assert_eq!(next.frames.len(), 4);
    assert_eq!(sent(&mut server).frames, [data(1, 32_000, &[7; 16_000])]);
}

/// Two streams share each Prepare: a frame of the one as long as can be, and of the other as much as there is room for.
#[test]
fn streams_share_a_prepare() {
    let mut client = client(&[1, 3, 5], config(16, 1_000, 1_000));
    for stream in [1, 3, 5] {
        client.write(stream, &[7; 16_000]).unwrap();
    }
    let (first, second) = (sent(&mut client), sent(&mut client));
    let streams = |it: &Sent| it.frames.iter().map(|it| it.1[0]).collect::<Vec<_>>();
    assert_eq!(
        (streams(&first), streams(&second)),
        (vec![1, 3, 5], vec![5])
    );
}

/// A thousand Prepares in a row, 64 in flight at once.
#[test]
fn many_prepares_are_sent() {
    let mut client = client(&[1], config(64, 1_000, 1));
    client.offer(1, 2_000).unwrap();
    let mut all = Vec::new();
    for _ in 0..1_000 {
        if all.len() == 64 {
            assert!(send(&mut client).is_none());
            let oldest: Sent = all.remove(0);
            fulfill(&mut client, &oldest, &[]);
        }
        all.push(sent(&mut client));
    }
    for it in all {
        fulfill(&mut client, &it, &[]);
    }
    assert!(send(&mut client).is_none());
    assert_eq!(client.totals().unwrap().paid, 1_000);
}

/// A Reject T04 of `example.c`, whose message has 256 bytes.
fn long_reject() -> Vec<u8> {
    let message = [b'x'; 256];
    let front = b"\x0e\x82\x01\x11T04\x09example.c\x82\x01\x00";
    [&front[..], &message, b"\0"].concat()
}

/// The last cause is reported, also after a Fulfill.
#[test]
fn why_the_last_prepare_failed_is_told() {
    let mut client = client(&[1], config(16, 1_000, 1_000));
    client.write(1, b"a").unwrap();
    assert_eq!(client.last_failure(), Ok(None));
    let lost = sent(&mut client);
    client.fault(lost.flight).unwrap();
    assert_eq!(client.last_failure(), Ok(Some(Failure::Lost)));
    let rejected = Failure::Rejected {
        code: *b"T04",
        by: "example.c".to_string(),
        message: vec![b'x'; 255],
    };
    let mine = Failure::Rejected {
        code: *b"F08",
        by: "test.c".to_string(),
        message: Vec::new(),
    };
    for (mut bytes, want) in [
        (b"\x0e".to_vec(), Failure::Unreadable),
        (long_reject(), rejected),
        (fulfill_bytes(&[0; 32], b""), Failure::Unfit),
        (reject_bytes(b"F08", b"test.c", b""), mine),
    ] {
        let next = sent(&mut client);
        assert_eq!(client.answer(next.flight, &mut bytes), Ok(false));
        assert_eq!(client.last_failure(), Ok(Some(want)));
    }
    let before = client.last_failure();
    let taken = sent(&mut client);
    fulfill(&mut client, &taken, &[]);
    assert_eq!(client.last_failure(), before);
}
