//! Streams that share a connection: none of them waits until the others are through.

use super::config;
use super::sides::{Lane, Side};
use ilpstream::Role;

/// Each end opens half of them, and both send on all.
const STREAMS: u8 = 8;

/// How many bytes a stream has each way: 10 MiB in all.
const BYTES: u64 = 10 * 1_048_576 / STREAMS as u64;

/// How many Prepares an end sends before the first of them arrives.
const AT_ONCE: usize = 4;

/// More than an end sends.
const ENOUGH: u64 = 10_000;

/// A side that has bytes on all streams, and no money.
fn new_side(role: Role) -> Side {
    let mut side = Side::new(role, config(16, 1_000_000, 1_000));
    for stream in 1..=STREAMS {
        if stream % 2 != role as u8 {
            assert_eq!(side.end.open_stream(), Ok(stream));
        }
        side.lanes.push(Lane::new(stream, role, BYTES, 0));
    }
    side
}

/// Sends some Prepares: how many there were.
fn send_some(side: &mut Side) -> u64 {
    for lane in &mut side.lanes {
        lane.fill(&mut side.end);
    }
    (0..AT_ONCE).filter(|_| side.send()).count() as u64
}

/// They arrive, the last one first, and so do their answers. What can be read is read.
fn pass_some(side: &mut Side, peer: &mut Side) {
    while side.pass(peer) {}
    for lane in &mut peer.lanes {
        lane.read_on(&mut peer.end, usize::MAX);
    }
}

/// How many Prepares a side has sent, and how many it had sent once each stream's last byte was read.
struct Counts {
    sends: u64,
    last: [Option<u64>; STREAMS as usize],
}

impl Counts {
    fn new() -> Counts {
        Counts {
            sends: 0,
            last: [None; STREAMS as usize],
        }
    }

    fn note(&mut self, side: &Side, peer: &Side) {
        let lanes = side.lanes.iter().zip(&peer.lanes);
        for ((own, other), last) in lanes.zip(&mut self.last) {
            if other.has_all(own) {
                last.get_or_insert(self.sends);
            }
        }
    }

    /// Each stream's last byte arrived with the last quarter of all Prepares.
    fn check(&self) {
        for last in self.last {
            let last = last.expect("all bytes arrived");
            assert!(3 * self.sends <= 4 * last, "{last} of {}", self.sends);
        }
    }
}

/// Both ends send 10 MiB on eight streams. No stream is through while another has much to send.
#[test]
fn streams_end_together() {
    let (mut client, mut server) = (new_side(Role::Client), new_side(Role::Server));
    let (mut to_server, mut to_client) = (Counts::new(), Counts::new());
    for _ in 0..ENOUGH {
        let (first, second) = (send_some(&mut client), send_some(&mut server));
        to_server.sends += first;
        to_client.sends += second;
        pass_some(&mut client, &mut server);
        pass_some(&mut server, &mut client);
        to_server.note(&client, &server);
        to_client.note(&server, &client);
        if first + second == 0 {
            break;
        }
    }
    client.check_done(&mut server);
    server.check_done(&mut client);
    to_server.check();
    to_client.check();
}
