//! Hostile bytes at the reader of STREAM packets, and frames of each type at their writer.

use super::plain::Met;
use super::plain::ilp::is_address;
use super::plain::stream::{self, PlainFrame, PlainPacket, packet_bytes};
use super::samples::PACKETS;
use super::{inputs, run_all, sure_at};
use crate::seeds::Numbers;
use ilpstream::{Error, Frame, Packet, PacketKind};

/// The eleven known types, and two that are unknown.
const TYPES: [u64; 13] = [
    0x01, 0x02, 0x03, 0x04, 0x10, 0x11, 0x12, 0x13, 0x14, 0x15, 0x16, 0x05, 0x99,
];

fn number(numbers: &mut Numbers) -> u64 {
    let edges = [0, 1, 127, 128, 255, 256, 65_535, 1 << 32, 1 << 63, u64::MAX];
    numbers.choice(&edges)
}

/// A frame with any numbers, and a text that may be none of its type's.
fn any_frame(numbers: &mut Numbers) -> PlainFrame<'static> {
    let kind = numbers.choice(&TYPES) as u8;
    let (first, code) = (number(numbers), numbers.choice(&[0, 1, 2, 255]));
    let second = if kind == 0x10 { code } else { number(numbers) };
    PlainFrame {
        index: 0,
        kind,
        numbers: [
            if kind == 0x01 { code } else { first },
            second,
            number(numbers),
        ],
        bytes: match kind {
            0x02 => numbers.pick(&[b"", b"test.z", b"test", b"test..z", b"a b", b"\xc3"]),
            _ => numbers.pick(&[b"", b"hi", b"\xc3\xa9", b"\xff", &[b'a'; 130]]),
        },
    }
}

fn any_packet(numbers: &mut Numbers) -> Vec<u8> {
    let frames: Vec<_> = (0..numbers.below(5)).map(|_| any_frame(numbers)).collect();
    packet_bytes(12, number(numbers), number(numbers), &frames)
}

/// Bytes of any kind.
fn bytes(numbers: &mut Numbers) -> Vec<u8> {
    match numbers.below(4) {
        0 => PACKETS.hostile(numbers),
        1 => {
            let bytes = any_packet(numbers);
            PACKETS.changed(numbers, &bytes)
        }
        _ => any_packet(numbers),
    }
}

/// A frame in the plain reader's terms: its type, its numbers in their order, and its text, address or data.
fn plain(frame: &Frame) -> (u8, [u64; 3], &[u8]) {
    match frame {
        Frame::ConnectionClose { code, message } => {
            (0x01, [(*code).into(), 0, 0], message.as_bytes())
        }
        Frame::ConnectionNewAddress { address } => (0x02, [0; 3], address.as_bytes()),
        Frame::ConnectionMaxData { max_offset } => (0x03, [*max_offset, 0, 0], b""),
        Frame::ConnectionDataBlocked { max_offset } => (0x04, [*max_offset, 0, 0], b""),
        Frame::StreamClose {
            stream,
            code,
            message,
        } => (0x10, [*stream, (*code).into(), 0], message.as_bytes()),
        Frame::StreamMoney { stream, shares } => (0x11, [*stream, *shares, 0], b""),
        Frame::StreamMaxMoney {
            stream,
            receive_max,
            total_received,
        } => (0x12, [*stream, *receive_max, *total_received], b""),
        Frame::StreamMoneyBlocked {
            stream,
            send_max,
            total_sent,
        } => (0x13, [*stream, *send_max, *total_sent], b""),
        Frame::StreamData {
            stream,
            offset,
            bytes,
        } => (0x14, [*stream, *offset, 0], bytes),
        Frame::StreamMaxData { stream, max_offset } => (0x15, [*stream, *max_offset, 0], b""),
        Frame::StreamDataBlocked { stream, max_offset } => (0x16, [*stream, *max_offset, 0], b""),
    }
}

/// Whether a packet has these numbers and frames.
fn has(packet: &mut Packet, kind: PacketKind, want: &PlainPacket<'_>) -> bool {
    let header = packet.header().unwrap();
    let frames: Vec<_> = packet.frames().unwrap().map(Result::unwrap).collect();
    (header.kind, header.sequence, header.amount) == (kind, want.sequence, want.amount)
        && header.frames == want.frames.len()
        && frames.len() == want.frames.len()
        && frames
            .iter()
            .zip(&want.frames)
            .all(|((index, frame), want)| {
                *index == want.index && plain(frame) == (want.kind, want.numbers, want.bytes)
            })
}

/// 0 if bytes are read by both as one packet, the number if they are refused by both, and None if they differ.
fn told_of(bytes: &[u8], kind: PacketKind) -> Option<u64> {
    match (Packet::read(kind, bytes), stream::packet(bytes, kind as u8)) {
        (Ok(mut packet), Ok(want)) => {
            let written = packet.write().unwrap();
            let shortest = packet_bytes(kind as u8, want.sequence, want.amount, &want.frames);
            (has(&mut packet, kind, &want) && written == shortest).then_some(0)
        }
        (Err(error), Err(refusal)) if error.number() == u32::from(refusal.number) => {
            Some(refusal.number.into())
        }
        _ => None,
    }
}

fn read(seed: u64, met: &mut Met) {
    let mut numbers = Numbers::of(seed);
    for step in 0..10 {
        let bytes = bytes(&mut numbers);
        let kind = match numbers.below(16) {
            0 => PacketKind::Fulfill,
            1 => PacketKind::Reject,
            _ => PacketKind::Prepare,
        };
        let told = told_of(&bytes, kind);
        sure_at(told.is_some(), seed, step, &bytes);
        met.note(told.unwrap_or(0));
        if let Ok(packet) = stream::packet(&bytes, kind as u8) {
            packet
                .frames
                .iter()
                .for_each(|frame| met.note(256 + u64::from(frame.kind)));
        }
    }
}

/// Each number that a reader gives is met, and a frame of each known type.
#[test]
fn packets_are_read_as_by_another() {
    let mut wanted = vec![0, 20, 21, 22, 23];
    wanted.extend(TYPES[..11].iter().map(|kind| 256 + kind));
    run_all(inputs() / 10, &wanted, read);
}

/// The frame of a plain one; None if its type is unknown, or its text is not UTF-8.
fn frame(of: &PlainFrame<'_>) -> Option<Frame> {
    let [first, second, third] = of.numbers;
    let text = || String::from_utf8(of.bytes.to_vec()).ok();
    Some(match of.kind {
        0x01 => Frame::ConnectionClose {
            code: first as u8,
            message: text()?,
        },
        0x02 => Frame::ConnectionNewAddress { address: text()? },
        0x03 => Frame::ConnectionMaxData { max_offset: first },
        0x04 => Frame::ConnectionDataBlocked { max_offset: first },
        0x10 => Frame::StreamClose {
            stream: first,
            code: second as u8,
            message: text()?,
        },
        0x11 => Frame::StreamMoney {
            stream: first,
            shares: second,
        },
        0x12 => Frame::StreamMaxMoney {
            stream: first,
            receive_max: second,
            total_received: third,
        },
        0x13 => Frame::StreamMoneyBlocked {
            stream: first,
            send_max: second,
            total_sent: third,
        },
        0x14 => Frame::StreamData {
            stream: first,
            offset: second,
            bytes: of.bytes.to_vec(),
        },
        0x15 => Frame::StreamMaxData {
            stream: first,
            max_offset: second,
        },
        0x16 => Frame::StreamDataBlocked {
            stream: first,
            max_offset: second,
        },
        _ => return None,
    })
}

/// Adds a frame, and says whether that is what the rules say of it.
fn is_pushed(
    packet: &mut Packet,
    of: PlainFrame<'static>,
    kept: &mut Vec<PlainFrame<'static>>,
) -> bool {
    let Some(frame) = frame(&of) else {
        return true;
    };
    if of.kind == 0x02 && !of.bytes.is_empty() && !is_address(of.bytes) {
        return packet.push(&frame) == Err(Error::FrameFormat);
    }
    let place = kept.len();
    kept.push(of);
    packet.push(&frame) == Ok(()) && packet.frame(place) == Ok((place as u64, frame))
}

fn write(seed: u64, met: &mut Met) {
    let mut numbers = Numbers::of(seed);
    let (sequence, amount) = (number(&mut numbers), number(&mut numbers));
    let mut packet = Packet::new(PacketKind::Reject, sequence, amount).unwrap();
    let mut kept = Vec::new();
    for step in 0..10 {
        let of = any_frame(&mut numbers);
        sure_at(is_pushed(&mut packet, of, &mut kept), seed, step, of);
        let bytes = packet.write().unwrap();
        sure_at(
            bytes == packet_bytes(14, sequence, amount, &kept),
            seed,
            step,
            of,
        );
        met.note(of.kind.into());
    }
}

#[test]
fn frames_are_written_as_by_another() {
    run_all(inputs() / 10, &TYPES, write);
}
