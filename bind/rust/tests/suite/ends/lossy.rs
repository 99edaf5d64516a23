//! Two ends between which Prepares and answers are lost, repeated and reordered, by a seed. At the end everything passes.

use super::config;
use super::sides::{Lane, Side};
use crate::seeds::{Numbers, for_each};
use ilpstream::Role;

/// How many connections are run.
const SEEDS: u64 = 1_000;

/// How many steps a connection takes before everything passes.
const STEPS: u64 = 200;

/// How often everything passes at most.
const ROUNDS: u64 = 10_000;

/// The most that a stream may receive, in units.
const RECEIVE_MAX: u64 = 1_000_000;

/// How many bytes a lane has: mostly few, at times more than an end may send before a limit was advertised.
fn total(numbers: &mut Numbers) -> u64 {
    match numbers.below(8) {
        0 => numbers.below(100_000),
        1 => 0,
        _ => numbers.below(2_000),
    }
}

/// A side with up to four lanes, of which it opens its own.
fn new_side(numbers: &mut Numbers, role: Role, streams: u8) -> Side {
    let in_flight = numbers.place(16) + 1;
    let limit = 50 + numbers.below(200);
    let mut side = Side::new(role, config(in_flight, 1_000_000, limit));
    for stream in 1..=streams {
        if stream % 2 != role as u8 {
            assert_eq!(side.end.open_stream(), Ok(stream));
        }
        let lane = Lane::new(stream, role, total(numbers), numbers.below(400));
        side.lanes.push(lane);
        side.end.set_receive_max(stream, RECEIVE_MAX).unwrap();
    }
    side
}

/// Something happens.
fn step(numbers: &mut Numbers, side: &mut Side, peer: &mut Side) {
    match numbers.below(13) {
        0..3 => {
            let most = numbers.below(5_000) + 1;
            let at = numbers.place(side.lanes.len());
            side.lanes[at].go_on(&mut side.end, most);
        }
        3..5 => {
            let most = numbers.place(9_000);
            let at = numbers.place(side.lanes.len());
            side.lanes[at].read_on(&mut side.end, most);
        }
        5..8 => {
            side.send();
        }
        8..10 => side.deliver(peer, numbers),
        10 => side.lose(numbers),
        11 => {
            if numbers.below(2) == 0 {
                side.deliver_late(peer);
            }
        }
        _ => side.take_answer(numbers),
    }
}

/// All that is on its way passes, then all that can go: whether nothing did.
fn pass_all(side: &mut Side, peer: &mut Side) -> bool {
    for lane in &mut side.lanes {
        for _ in 0..3 {
            lane.go_on(&mut side.end, u64::MAX);
        }
        for _ in 0..3 {
            lane.read_on(&mut side.end, usize::MAX);
        }
    }
    let late = side.deliver_late(peer);
    let passed = side.pass(peer);
    let sent = side.send();
    !late && !passed && !sent
}

/// Everything passes, until nothing goes: whether it came to that.
fn let_pass(client: &mut Side, server: &mut Side) -> bool {
    (0..ROUNDS).any(|_| {
        let quiet = pass_all(client, server);
        pass_all(server, client) && quiet
    })
}

/// The connection of a seed: much happens, and then everything passes.
fn run(seed: u64) {
    let mut numbers = Numbers::of(seed);
    let streams = numbers.below(4) as u8 + 1;
    let mut client = new_side(&mut numbers, Role::Client, streams);
    let mut server = new_side(&mut numbers, Role::Server, streams);
    for _ in 0..STEPS {
        step(&mut numbers, &mut client, &mut server);
        step(&mut numbers, &mut server, &mut client);
        assert!(client.is_covered(&mut server) && server.is_covered(&mut client));
    }
    assert!(let_pass(&mut client, &mut server));
    client.check_done(&mut server);
    server.check_done(&mut client);
}

#[test]
fn nothing_is_lost_for_good() {
    for_each(SEEDS, run);
}
