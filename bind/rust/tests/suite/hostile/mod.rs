//! Hostile bytes at every reader: half of them lawful messages with changes, half random bytes after the front of a lawful one.
//! A reader has to answer what a second, plain reading answers; a hop and an end have to do what a second, plain model of their
//! rules does.
//!
//! `ILPSTREAM_HOSTILE` says how many inputs each test makes: 20,000 if it is not set. `ILPSTREAM_SEED` says the first seed.
//! A test that fails says the seed, and the step.

use crate::seeds::for_each;
use plain::Met;
use std::env;
use std::fmt::Debug;
use std::sync::Mutex;

mod answers;
mod ends;
mod hops;
mod http;
mod ilp;
mod keys;
mod packets;
pub(crate) mod plain;
mod plain_end;
mod plain_hop;
mod samples;

/// How many inputs one hop or end is given before a new one is made.
const STEPS: u64 = 20;

fn number(name: &str, otherwise: u64) -> u64 {
    env::var(name).map_or(otherwise, |text| text.parse().expect("a number"))
}

/// How many inputs each test makes.
fn inputs() -> u64 {
    number("ILPSTREAM_HOSTILE", 20_000)
}

/// The first seed.
fn first() -> u64 {
    number("ILPSTREAM_SEED", 1)
}

/// Runs a test for this number of seeds, by all processors. Each of the numbers has to be met.
fn run_all(
    seeds: u64,
    wanted: &[u64],
    run: impl Fn(u64, &mut Met) + Sync + std::panic::RefUnwindSafe,
) {
    let all = Mutex::new(Met::new());
    let first = first();
    for_each(seeds, |place| {
        let mut met = Met::new();
        run(first + place, &mut met);
        all.lock().expect("no panic holds it").join(&met);
    });
    let met = all.into_inner().expect("no panic holds it");
    assert_eq!(met.lacks(wanted), None, "a number was never met");
}

/// Ends the test if bytes were not read or answered, at this step of this seed, as the rules say.
fn sure_at(holds: bool, seed: u64, step: u64, bytes: impl Debug) {
    assert!(holds, "seed {seed}, step {step}, {bytes:?}");
}
