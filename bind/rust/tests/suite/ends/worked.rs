//! Worked connections and packets, from bytes to bytes.

use super::{SECRET, config, new_end};
use crate::hostile::plain::ilp::{self, PlainAnswer};
use crate::hostile::plain::prepares::{Offer, prepare_bytes};
use crate::hostile::plain::seal::{PlainKeys, sha256};
use crate::hostile::plain::stream::{PlainFrame, packet_bytes};
use ilpstream::{End, Error, Read, Received, Role};

fn end(role: Role) -> End {
    new_end(role, config(16, 100, 1_000)).unwrap()
}

/// A client whose stream 1 has "hi".
fn client_of_hi() -> End {
    let mut client = end(Role::Client);
    assert_eq!(client.open_stream(), Ok(1));
    client.write(1, b"hi").unwrap();
    client
}

/// The client's next Prepare is given to the server, and its answer to the client. Whether there was one.
fn pass(client: &mut End, server: &mut End, number: u8) -> bool {
    let Some(prepare) = client.send(&[number; 12], 0).unwrap() else {
        return false;
    };
    let mut answer = server.receive(&prepare.bytes, 0).unwrap().bytes;
    client.answer(prepare.flight, &mut answer).unwrap();
    true
}

/// The first Prepare is rejected, since no receive max was advertised yet; its reply advertises one, and the second follows it.
#[test]
fn money_goes_up_to_the_receive_max() {
    let (mut client, mut server) = (client_of_hi(), end(Role::Server));
    client.offer(1, 30).unwrap();
    server.set_receive_max(1, 10).unwrap();
    assert!(pass(&mut client, &mut server, 0));
    assert!(pass(&mut client, &mut server, 1));
    assert_eq!(client.totals().unwrap().paid, 10);
    assert_eq!(server.totals().unwrap().credited, 10);
    assert_eq!(server.read(1, 10), Ok(Read::Bytes(b"hi".to_vec())));
}

/// A stream is closed, and its end comes with the second Prepare.
#[test]
fn a_stream_is_read_to_its_end() {
    let (mut client, mut server) = (client_of_hi(), end(Role::Server));
    client.close(1).unwrap();
    assert!(pass(&mut client, &mut server, 0));
    assert_eq!(client.settled(1), Ok(false));
    assert!(pass(&mut client, &mut server, 1));
    assert_eq!(client.settled(1), Ok(true));
    assert!(!pass(&mut client, &mut server, 2));
    assert_eq!(server.read(1, 10), Ok(Read::Bytes(b"hi".to_vec())));
    assert_eq!(server.read(1, 10), Ok(Read::End));
}

/// A stream can be read once its bytes arrived, and again once its end did.
#[test]
fn streams_that_are_open_and_ready_are_listed() {
    let (mut client, mut server) = (end(Role::Client), end(Role::Server));
    assert_eq!((client.streams(), client.ready()), (Ok(vec![]), Ok(vec![])));
    assert_eq!((client.open_stream(), client.open_stream()), (Ok(1), Ok(3)));
    assert_eq!(server.open_stream(), Ok(2));
    client.write(3, b"hi").unwrap();
    assert!(pass(&mut client, &mut server, 0));
    assert_eq!(client.streams(), Ok(vec![1, 3]));
    assert_eq!(server.streams(), Ok(vec![2, 3]));
    assert_eq!((client.ready(), server.ready()), (Ok(vec![]), Ok(vec![3])));
    assert_eq!(server.read(3, 10), Ok(Read::Bytes(b"hi".to_vec())));
    assert_eq!(server.ready(), Ok(vec![]));
    client.close(3).unwrap();
    assert!(pass(&mut client, &mut server, 1));
    assert_eq!(server.ready(), Ok(vec![3]));
    assert_eq!(server.read(3, 10), Ok(Read::End));
    assert_eq!(server.ready(), Ok(vec![3]));
}

#[test]
fn a_write_of_more_than_the_room_is_refused() {
    let mut client = client_of_hi();
    assert_eq!(client.room(3), Err(Error::NoStream));
    assert_eq!(client.room(1), Ok(262_142));
    client.write(1, &[0; 262_000]).unwrap();
    assert_eq!(client.room(1), Ok(142));
    assert_eq!(client.write(1, &[0; 143]), Err(Error::Full));
    client.write(1, &[0; 142]).unwrap();
    assert_eq!(client.room(1), Ok(0));
    client.close(1).unwrap();
    assert_eq!(client.room(1), Err(Error::Closed));
}

/// An end is passed to another thread, which is the server, and back.
#[test]
fn an_end_may_be_passed_to_another_thread() {
    let (mut client, mut server) = (client_of_hi(), end(Role::Server));
    client.close(1).unwrap();
    let (to_server, requests) = std::sync::mpsc::channel::<Vec<u8>>();
    let (to_client, answers) = std::sync::mpsc::channel();
    let thread = std::thread::spawn(move || {
        for request in requests {
            to_client
                .send(server.receive(&request, 0).unwrap().bytes)
                .unwrap();
        }
        server
    });
    for number in 0.. {
        let Some(prepare) = client.send(&[number; 12], 0).unwrap() else {
            break;
        };
        to_server.send(prepare.bytes).unwrap();
        let mut answer = answers.recv().unwrap();
        assert_eq!(client.answer(prepare.flight, &mut answer), Ok(true));
    }
    drop(to_server);
    let mut server = thread.join().unwrap();
    assert_eq!(server.read(1, 10), Ok(Read::Bytes(b"hi".to_vec())));
    assert_eq!(server.read(1, 10), Ok(Read::End));
}

#[test]
fn what_a_caller_may_get_wrong_is_refused() {
    let mut client = client_of_hi();
    assert_eq!(client.abort(1, 1), Err(Error::Argument));
    assert_eq!(client.read(1, 0), Err(Error::Argument));
    assert_eq!(client.send(&[0; 12], i64::MIN), Err(Error::Argument));
    assert_eq!(client.write(2, b"x"), Err(Error::NoStream));
    let bad = End::new(Role::Client, &[0; 32], "test..a", "test.b", config(1, 1, 1));
    assert_eq!(bad.err(), Some(Error::Argument));
    let bad = End::new(Role::Client, &[0; 32], "test.a", "test.b", config(0, 1, 1));
    assert_eq!(bad.err(), Some(Error::Argument));
}

const IV: [u8; 12] = [0, 1, 2, 3, 4, 5, 6, 7, 8, 9, 10, 11];

/// The plain packet of the answer to "hi" on stream 1 (RFC 0029, section 5.3), but for its kind: what the connection and stream 1
/// take.
const HI_REPLY: [u8; 30] = [
    0x01, 0x0d, 0x01, 0x01, 0x01, 0x00, 0x01, 0x03, 0x03, 0x04, 0x03, 0x10, 0x00, 0x00, 0x15, 0x06,
    0x01, 0x01, 0x03, 0x01, 0x00, 0x00, 0x12, 0x06, 0x01, 0x01, 0x01, 0x00, 0x01, 0x00,
];

const HI: PlainFrame<'static> = PlainFrame {
    index: 0,
    kind: 0x14,
    numbers: [1, 0, 0],
    bytes: b"hi",
};

const CLOSE: PlainFrame<'static> = PlainFrame {
    index: 0,
    kind: 0x01,
    numbers: [9, 0, 0],
    bytes: b"",
};

/// The bytes of a Prepare of 0 with the sealed packet of this frame, under its own condition or one that nobody fulfills.
fn prepare(sequence: u64, frame: PlainFrame<'_>, is_probe: bool) -> Vec<u8> {
    let keys = PlainKeys::of(&SECRET);
    let payload = keys.seal(&IV, &packet_bytes(12, sequence, 0, &[frame]));
    let own = sha256(&keys.fulfillment(&payload));
    prepare_bytes(Offer {
        amount: 0,
        expiry: b"19700101000030000",
        condition: if is_probe { &[0; 32] } else { &own },
        destination: b"test.b",
        payload: &payload,
    })
}

fn receive(end: &mut End, bytes: &[u8]) -> Received {
    end.receive(bytes, 0).unwrap()
}

/// Whether an answer is of this kind, and its packet says what the one to "hi" does.
fn is_reply_to_hi(received: &Received, kind: u8) -> bool {
    let payload = match ilp::answer(&received.bytes).unwrap() {
        PlainAnswer::Fulfill { payload, .. } | PlainAnswer::Reject { payload, .. } => payload,
    };
    let mut want = HI_REPLY;
    want[1] = kind;
    let plain = PlainKeys::of(&SECRET).open(payload).unwrap();
    received.bytes[0] == kind && received.sequence == Some(1) && plain == want
}

#[test]
fn hi_is_fulfilled_and_read() {
    let mut server = end(Role::Server);
    let hi = prepare(1, HI, false);
    let received = receive(&mut server, &hi);
    assert_eq!(received.reason, 0);
    assert!(is_reply_to_hi(&received, 13));
    assert_eq!(server.read(1, 10), Ok(Read::Bytes(b"hi".to_vec())));
    assert_eq!(receive(&mut server, &hi).reason, 60);
    assert_eq!(server.totals().unwrap().delivered, 2);
}

#[test]
fn a_closed_connection_is_read_and_not_written() {
    let mut server = end(Role::Server);
    assert_eq!(receive(&mut server, &prepare(1, HI, false)).reason, 0);
    assert_eq!(receive(&mut server, &prepare(5, CLOSE, false)).reason, 0);
    assert_eq!(server.read(1, 10), Ok(Read::Aborted(9)));
    assert_eq!(server.write(1, b"x"), Err(Error::Closed));
    assert_eq!(receive(&mut server, &prepare(6, HI, false)).reason, 66);
}

#[test]
fn a_rate_probe_is_answered_and_delivers_nothing() {
    let mut server = end(Role::Server);
    let received = receive(&mut server, &prepare(1, HI, true));
    assert_eq!(received.reason, 55);
    assert!(is_reply_to_hi(&received, 14));
    assert_eq!(server.has_stream(1), Ok(false));
}
