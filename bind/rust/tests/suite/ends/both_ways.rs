//! Two ends that send each other bytes and money at once, while each request for memory is refused in turn.

use super::{config, new_end};
use ilpstream::refusing::{has_refused, refuse_none, refuse_only};
use ilpstream::{End, Error, Outgoing, Read, Role, Totals};

/// What each end writes, in two chunks.
const TEXT: &[u8] = b"there is more than one word of it";
const FRONT: usize = 20;

/// An end of which one request for memory is refused at most. What a call that found none leaves is what was before, and the
/// same call then succeeds.
struct Steady {
    end: End,
    /// How many calls ran out of memory.
    lacks: u64,
    /// All bytes that it sent and answered, in order.
    said: Vec<Vec<u8>>,
}

impl Steady {
    fn new(role: Role) -> Result<Steady, Error> {
        Ok(Steady {
            end: new_end(role, config(4, 100, 1_000))?,
            lacks: 0,
            said: Vec::new(),
        })
    }

    /// What a call gives, which is made again if it ran out of memory.
    fn call<T>(&mut self, call: impl Fn(&mut End) -> Result<T, Error>) -> T {
        let before = self.end.totals().unwrap();
        call(&mut self.end).unwrap_or_else(|error| {
            assert_eq!(error, Error::OutOfMemory);
            assert_eq!(self.end.totals(), Ok(before));
            self.lacks += 1;
            call(&mut self.end).expect("one request alone is refused")
        })
    }

    /// The next Prepare with its flight, if there is one.
    fn send(&mut self, iv: [u8; 12]) -> Option<Outgoing> {
        let next = self.call(|end| end.send(&iv, 0));
        self.said.extend(next.iter().map(|next| next.bytes.clone()));
        next
    }

    /// The answer to a Prepare, for this reason.
    fn receive(&mut self, bytes: &[u8], reason: u32) -> Vec<u8> {
        let received = self.call(|end| end.receive(bytes, 0));
        assert_eq!(received.reason, reason);
        self.said.push(received.bytes.clone());
        received.bytes
    }

    /// Reads the text, and then the end.
    fn read_all(&mut self, stream: u8) {
        assert_eq!(
            self.call(|end| end.read(stream, 100)),
            Read::Bytes(TEXT.to_vec())
        );
        assert_eq!(self.call(|end| end.read(stream, 100)), Read::End);
    }
}

/// A Prepare is fulfilled. Its answer arrives, or is lost, and the Prepare arrives again.
fn deliver(from: &mut Steady, to: &mut Steady, sent: Option<Outgoing>, is_lost: bool) {
    let Some(Outgoing { flight, bytes }) = sent else {
        return;
    };
    let mut answer = to.receive(&bytes, 0);
    if is_lost {
        from.end.fault(flight).unwrap();
        to.receive(&bytes, 60);
    } else {
        assert_eq!(from.end.answer(flight, &mut answer), Ok(true));
    }
}

/// Both ends send before either Prepare arrives.
fn pass(client: &mut Steady, server: &mut Steady, number: u8, is_lost: bool) {
    let to_server = client.send([number; 12]);
    let to_client = server.send([number ^ 0x40; 12]);
    deliver(client, server, to_server, is_lost);
    deliver(server, client, to_client, false);
}

/// Both may receive 100 units; the client offers 30, the server 20. All is written, sent and read to the end. The answer to the
/// client's first Prepare is lost.
fn talk(client: &mut Steady, server: &mut Steady) {
    assert_eq!(client.call(End::open_stream), 1);
    assert_eq!(server.call(End::open_stream), 2);
    server.end.set_receive_max(1, 100).unwrap();
    client.end.set_receive_max(2, 100).unwrap();
    client.end.offer(1, 30).unwrap();
    server.end.offer(2, 20).unwrap();
    client.call(|end| end.write(1, &TEXT[..FRONT]));
    server.call(|end| end.write(2, &TEXT[..FRONT]));
    pass(client, server, 1, true);
    pass(client, server, 2, false);
    client.call(|end| end.write(1, &TEXT[FRONT..]));
    server.call(|end| end.write(2, &TEXT[FRONT..]));
    pass(client, server, 3, false);
    client.end.close(1).unwrap();
    server.end.close(2).unwrap();
    pass(client, server, 4, false);
    server.read_all(1);
    client.read_all(2);
}

/// What an end has done that took and gave the whole text.
fn totals(credited: u64, paid: u64) -> Totals {
    let bytes = TEXT.len() as u64;
    Totals {
        accepted: bytes,
        delivered: bytes,
        credited,
        paid,
    }
}

fn make() -> Result<(Steady, Steady), Error> {
    Ok((Steady::new(Role::Client)?, Steady::new(Role::Server)?))
}

#[test]
fn both_ends_go_on_where_memory_was_refused() {
    let (mut client, mut server) = make().unwrap();
    talk(&mut client, &mut server);
    let want = (client.said, server.said);
    for n in 1.. {
        refuse_only(n);
        match make() {
            Err(error) => {
                assert_eq!(error, Error::OutOfMemory);
                assert!(make().is_ok());
            }
            Ok((mut client, mut server)) => {
                talk(&mut client, &mut server);
                assert_eq!(client.end.totals(), Ok(totals(20, 30)), "at {n}");
                assert_eq!(server.end.totals(), Ok(totals(60, 20)), "at {n}");
                assert_eq!(
                    (client.end.settled(1), server.end.settled(2)),
                    (Ok(true), Ok(true)),
                    "at {n}"
                );
                assert_eq!(
                    client.lacks + server.lacks,
                    u64::from(has_refused()),
                    "at {n}"
                );
                assert!((client.said, server.said) == want, "at {n}");
            }
        }
        if !has_refused() {
            assert!(50 < n, "it asks for more");
            break;
        }
    }
    refuse_none();
}
