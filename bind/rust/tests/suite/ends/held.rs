//! What ends keep of streams that have ended: 10,000 of them, in connections one after another.

use super::config;
use super::sides::{Lane, Side};
use ilpstream::Role;
use ilpstream::refusing::held;

/// How many connections there are, of all streams that a connection can have.
const CONNECTIONS: usize = 157;
const STREAMS: u8 = 64;

/// How many bytes each end writes on each stream: more than a chunk of unacknowledged bytes.
const BYTES: u64 = 5_000;

/// More than the rounds that a stream takes.
const ENOUGH: usize = 10;

/// At most this is kept of an ended stream, at both ends together: at each a table of three runs of offsets, of 32 bytes each.
/// A window alone has 73,728 bytes.
const KEPT: usize = 256;

/// And of a connection that was used, at both ends: the list of Prepares in flight, and the last output of a call.
const LISTS: usize = 2_048;

/// A side writes, sends and closes, and the other one reads.
fn go(side: &mut Side, own: &mut Lane, peer: &mut Side, other: &mut Lane) {
    own.fill(&mut side.end);
    while side.send() {
        assert!(side.pass(peer));
    }
    other.read_on(&mut peer.end, usize::MAX);
}

/// A stream from its opening until both ends have read its end: the most memory in use meanwhile.
fn work(client: &mut Side, server: &mut Side, stream: u8) -> usize {
    let opened = match stream % 2 {
        1 => client.end.open_stream(),
        _ => server.end.open_stream(),
    };
    assert_eq!(opened, Ok(stream));
    let mut own = Lane::new(stream, Role::Client, BYTES, 0);
    let mut other = Lane::new(stream, Role::Server, BYTES, 0);
    let mut most = 0;
    for _ in 0..ENOUGH {
        go(client, &mut own, server, &mut other);
        most = most.max(held());
        go(server, &mut other, client, &mut own);
        most = most.max(held());
    }
    assert!(own.is_done(&mut client.end, &other) && other.is_done(&mut server.end, &own));
    most
}

/// A connection of all its streams, one after another: the most memory in use meanwhile.
fn connect(before: usize) -> usize {
    let side = |role| Side::new(role, config(16, 100_000, 1_000));
    let (mut client, mut server) = (side(Role::Client), side(Role::Server));
    let mut bound = held() - before + LISTS;
    let mut most = 0;
    for stream in 1..=STREAMS {
        most = most.max(work(&mut client, &mut server, stream) - before);
        bound += KEPT;
        let now = held() - before;
        assert!(
            now <= bound,
            "{now} bytes after stream {stream}, not {bound}"
        );
    }
    most
}

/// An ended stream keeps neither window nor chunks, and a connection that is dropped nothing.
#[test]
fn ended_streams_and_connections_keep_nothing() {
    let before = held();
    let first = connect(before);
    assert_eq!(held(), before);
    for _ in 1..CONNECTIONS {
        let most = connect(before);
        assert_eq!(held(), before);
        assert!(most < first + 1_024, "{most} bytes, at first {first}");
    }
}
