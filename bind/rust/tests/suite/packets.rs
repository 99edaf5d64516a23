//! STREAM packets: worked bytes, the greatest length, and each request for memory refused in turn.

use ilpstream::refusing::{has_refused, refuse_from, refuse_none, refuse_only};
use ilpstream::{Error, Frame, Header, Keys, Packet, PacketKind};

/// Sequence 1, amount 0, "hi" at offset 0 of stream 1.
const HI: &[u8] = b"\x01\x0c\x01\x01\x01\x00\x01\x01\x14\x07\x01\x01\x01\x00\x02hi";

/// The same after a frame of the unknown type 99.
const SKIPPED: &[u8] =
    b"\x01\x0c\x01\x01\x01\x00\x01\x02\x99\x01\x00\x14\x07\x01\x01\x01\x00\x02hi";

fn hi() -> Frame {
    Frame::StreamData {
        stream: 1,
        offset: 0,
        bytes: b"hi".to_vec(),
    }
}

fn refusal(kind: PacketKind, bytes: &[u8]) -> Option<u32> {
    Packet::read(kind, bytes).err().map(Error::number)
}

#[test]
fn the_worked_packet_is_read_and_written() {
    let mut packet = Packet::read(PacketKind::Prepare, HI).unwrap();
    let header = Header {
        kind: PacketKind::Prepare,
        sequence: 1,
        amount: 0,
        frames: 1,
    };
    assert_eq!(packet.header(), Ok(header));
    assert_eq!(packet.frame(0), Ok((0, hi())));
    assert_eq!(packet.frame(1), Err(Error::Argument));
    assert_eq!(packet.write().unwrap(), HI);
}

#[test]
fn bytes_behind_the_last_frame_and_unknown_frames_are_skipped() {
    let mut packet = Packet::read(PacketKind::Prepare, &[HI, b"\xff\xff"].concat()).unwrap();
    assert_eq!(packet.frame(0), Ok((0, hi())));
    let mut packet = Packet::read(PacketKind::Prepare, SKIPPED).unwrap();
    assert_eq!(packet.header().unwrap().frames, 1);
    assert_eq!(packet.frame(0), Ok((1, hi())));
    assert_eq!(packet.write().unwrap(), HI);
}

#[test]
fn the_first_fault_is_reported() {
    assert_eq!(refusal(PacketKind::Prepare, &HI[..12]), Some(22));
    assert_eq!(
        refusal(PacketKind::Prepare, &[&[2], &HI[1..]].concat()),
        Some(20)
    );
    assert_eq!(refusal(PacketKind::Fulfill, HI), Some(21));
    let mut bytes = HI.to_vec();
    bytes.resize(32_739, 0);
    assert_eq!(refusal(PacketKind::Prepare, &bytes), None);
    bytes.push(0);
    assert_eq!(refusal(PacketKind::Prepare, &bytes), Some(24));
}

/// A packet of one frame with this number of bytes has 19 more: 8 of the packet, 4 of the frame, and 7 of its fields.
#[test]
fn a_packet_has_at_most_32_739_bytes() {
    for (count, refused) in [(32_720, None), (32_721, Some(Error::StreamTooLong))] {
        let mut packet = Packet::new(PacketKind::Prepare, 1, 0).unwrap();
        let bytes = vec![7; count];
        let frame = Frame::StreamData {
            stream: 1,
            offset: 0,
            bytes,
        };
        packet.push(&frame).unwrap();
        assert_eq!(packet.write().err(), refused);
        assert_eq!(packet.frame(0), Ok((0, frame)));
    }
}

#[test]
fn a_sealed_packet_is_opened() {
    let mut keys = Keys::new(&[7; 32]).unwrap();
    let mut packet = Packet::new(PacketKind::Reject, u64::MAX, 500).unwrap();
    packet.push(&hi()).unwrap();
    let payload = keys.seal(&[1; 12], &packet.write().unwrap()).unwrap();
    let plain = keys.open(&payload).unwrap();
    let mut read = Packet::read(PacketKind::Reject, &plain).unwrap();
    assert_eq!(read.header(), packet.header());
    assert_eq!(read.frame(0), Ok((0, hi())));
}

/// Frames that own memory, and one that does not.
fn frames() -> Vec<Frame> {
    let message = "no".to_string();
    vec![
        hi(),
        Frame::StreamClose {
            stream: 3,
            code: 2,
            message: message.clone(),
        },
        Frame::ConnectionClose { code: 1, message },
        Frame::ConnectionNewAddress {
            address: "test.z".to_string(),
        },
        Frame::StreamMaxData {
            stream: 1,
            max_offset: 9,
        },
    ]
}

fn full() -> Packet {
    let mut packet = Packet::new(PacketKind::Prepare, 1, 0).unwrap();
    for frame in frames() {
        packet.push(&frame).unwrap();
    }
    packet
}

fn all_of(packet: &mut Packet) -> (Header, Vec<(u64, Frame)>) {
    let frames = packet.frames().unwrap().map(Result::unwrap).collect();
    (packet.header().unwrap(), frames)
}

/// Refuses each request of a call in turn, alone and with all later ones: the call is refused, the packet is as it was, and the
/// call can be repeated.
fn refused_in_turn<T: PartialEq + std::fmt::Debug>(
    mut call: impl FnMut(&mut Packet) -> Result<T, Error>,
) {
    let want = call(&mut full()).unwrap();
    for plan in [refuse_only, refuse_from] {
        let mut tried = 0;
        for n in 1.. {
            let mut packet = full();
            let before = all_of(&mut packet);
            plan(n);
            let got = call(&mut packet);
            let is_refused = has_refused();
            refuse_none();
            if !is_refused {
                assert_eq!(got.as_ref(), Ok(&want));
                break;
            }
            tried += 1;
            assert_eq!(got, Err(Error::StreamOutOfMemory), "request {n}");
            assert_eq!(all_of(&mut packet), before, "request {n}");
            assert_eq!(call(&mut packet).as_ref(), Ok(&want), "request {n}");
        }
        assert!(0 < tried);
    }
}

#[test]
fn each_request_for_memory_is_refused_in_turn() {
    let bytes = full().write().unwrap();
    refused_in_turn(Packet::write);
    refused_in_turn(|packet| packet.push(&hi()));
    refused_in_turn(|packet| packet.frame(1));
    refused_in_turn(|_| Packet::new(PacketKind::Prepare, 1, 0)?.header());
    refused_in_turn(|_| {
        let mut packet = Packet::read(PacketKind::Prepare, &bytes)?;
        packet.frames()?.collect::<Result<Vec<_>, _>>()
    });
}
