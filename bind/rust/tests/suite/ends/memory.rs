//! An end that is made, asked and changed while each request for memory is refused in turn.

use super::{config, new_end};
use ilpstream::refusing::{asked, has_refused, refuse_from, refuse_none, refuse_only};
use ilpstream::{End, Error, Flight, Read, Role, Totals};

/// What is written in addition. It asks for memory, since the last chunk, of 4,096 bytes, has no room for all of it.
const MORE: [u8; 4_096] = [7; 4_096];

/// What a call gives: a number, bytes or nothing.
#[derive(Clone, Debug, PartialEq, Eq)]
enum Given {
    Stream(u8),
    Bytes(Vec<u8>),
    Nothing,
}

/// The calls that may allocate.
#[derive(Clone, Copy, Debug)]
enum Call {
    New,
    OpenStream,
    Write,
    Read,
    Receive,
    Send,
}

fn made(role: Role) -> End {
    new_end(role, config(4, 100, 1_000)).unwrap()
}

/// A client with bytes and money on its stream 1.
fn writing() -> End {
    let mut client = made(Role::Client);
    assert_eq!(client.open_stream(), Ok(1));
    client
        .write(1, b"there is more than one word of it")
        .unwrap();
    client.offer(1, 30).unwrap();
    client
}

/// A server that may receive 100 units on stream 1.
fn listening() -> End {
    let mut server = made(Role::Server);
    server.set_receive_max(1, 100).unwrap();
    server
}

/// The next Prepare: empty bytes mean that there is none.
fn sent(end: &mut End) -> Result<Vec<u8>, Error> {
    Ok(end
        .send(&[9; 12], 0)?
        .map_or(Vec::new(), |prepare| prepare.bytes))
}

/// An end for a call.
fn ready(call: Call, prepare: &[u8]) -> End {
    match call {
        Call::New | Call::OpenStream => made(Role::Client),
        Call::Write | Call::Send => writing(),
        Call::Receive => listening(),
        Call::Read => {
            let mut server = listening();
            assert_eq!(server.receive(prepare, 0).unwrap().reason, 0);
            server
        }
    }
}

fn called(end: &mut End, call: Call, prepare: &[u8]) -> Result<Given, Error> {
    Ok(match call {
        Call::New => {
            let end = new_end(Role::Client, config(4, 100, 1_000))?;
            Given::Bytes(end.t00()?)
        }
        Call::OpenStream => Given::Stream(end.open_stream()?),
        Call::Write => {
            end.write(1, &MORE)?;
            Given::Nothing
        }
        Call::Read => match end.read(1, 20)? {
            Read::Bytes(bytes) => Given::Bytes(bytes),
            other => panic!("{other:?}"),
        },
        Call::Receive => Given::Bytes(end.receive(prepare, 0)?.bytes),
        Call::Send => Given::Bytes(sent(end)?),
    })
}

/// What an end reports, and what it sends next.
fn left(end: &mut End) -> (Totals, Vec<u8>) {
    let next = sent(end).unwrap();
    (end.totals().unwrap(), next)
}

#[test]
fn each_call_wants_memory_or_succeeds() {
    let prepare = sent(&mut writing()).unwrap();
    for call in [
        Call::New,
        Call::OpenStream,
        Call::Write,
        Call::Read,
        Call::Receive,
        Call::Send,
    ] {
        let mut end = ready(call, &prepare);
        let given = called(&mut end, call, &prepare).unwrap();
        let after = left(&mut end);
        for n in 1.. {
            let mut end = ready(call, &prepare);
            let before = end.totals();
            refuse_only(n);
            let answer = called(&mut end, call, &prepare);
            let met = has_refused();
            refuse_none();
            if !met {
                assert_eq!(answer, Ok(given), "{call:?} at {n}");
                assert_eq!(left(&mut end), after, "{call:?} at {n}");
                assert!(1 < n, "{call:?} asks for none");
                break;
            }
            assert_eq!(answer, Err(Error::OutOfMemory), "{call:?} at {n}");
            assert_eq!(end.totals(), before, "{call:?} at {n}");
            assert_eq!(
                called(&mut end, call, &prepare),
                Ok(given.clone()),
                "{call:?} at {n}"
            );
            assert_eq!(left(&mut end), after, "{call:?} at {n}");
        }
    }
}

/// The flight of the next Prepare, and its answer.
fn flown(client: &mut End, server: &mut End, iv: [u8; 12]) -> (Flight, Vec<u8>) {
    let prepare = client.send(&iv, 0).unwrap().unwrap();
    (
        prepare.flight,
        server.receive(&prepare.bytes, 0).unwrap().bytes,
    )
}

#[test]
fn the_other_calls_ask_for_no_memory() {
    let (mut client, mut server) = (writing(), listening());
    let (first, mut answer) = flown(&mut client, &mut server, [1; 12]);
    client.write(1, b"more").unwrap();
    let (second, _lost) = flown(&mut client, &mut server, [2; 12]);
    refuse_from(1);
    assert_eq!(client.answer(first, &mut answer), Ok(true));
    assert_eq!(client.fault(second), Ok(()));
    assert_eq!(client.has_stream(1), Ok(true));
    assert_eq!(client.settled(1), Ok(false));
    assert_eq!(client.is_failed(), Ok(false));
    assert_eq!(client.offer(1, 7), Ok(()));
    assert_eq!(client.set_receive_max(1, 7), Ok(()));
    assert_eq!(client.close(1), Ok(()));
    assert_eq!(client.abort(1, 9), Ok(()));
    assert_eq!(client.totals().unwrap().paid, 30);
    assert_eq!(asked(), 0);
    refuse_none();
}
