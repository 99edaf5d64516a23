//! An end: what it sends and receives, packet by packet; each request for memory of each call refused in turn, also while both
//! ends send; and two ends between which Prepares and answers are lost, repeated and reordered, also over hops.

use ilpstream::{End, EndConfig, Error, Role};

mod both_ways;
mod chains;
mod held;
mod lossy;
mod memory;
mod packets;
mod sides;
mod turns;
mod worked;

const SECRET: [u8; 32] = [0; 32];

/// The client `test.a` or the server `test.b`.
fn new_end(role: Role, config: EndConfig) -> Result<End, Error> {
    match role {
        Role::Client => End::new(role, &SECRET, "test.a", "test.b", config),
        Role::Server => End::new(role, &SECRET, "test.b", "test.a", config),
    }
}

fn config(in_flight: usize, packets: u64, packet_limit: u64) -> EndConfig {
    EndConfig {
        in_flight,
        packets,
        packet_limit,
        ..EndConfig::default()
    }
}
