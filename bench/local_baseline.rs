//! The baseline of bench/local.sh: what `ilpstream local [--hops N] [--lose N] [--streams N]` does, in Rust with the standard library
//! alone, as it is written without contracts. Standard input, at most 1 MiB, is cut into parts; each is sent on a stream of its own
//! from a client over a chain of hops to a server, in sealed packets, in memory. The parts are written in the order of the streams.
//! With `--check` the cipher and the hash are compared with published vectors.

#[path = "local_baseline/aes_gcm.rs"]
mod aes_gcm;
#[path = "local_baseline/ends.rs"]
mod ends;
#[path = "local_baseline/hop.rs"]
mod hop;
#[path = "local_baseline/packets.rs"]
mod packets;
#[path = "local_baseline/sha256.rs"]
mod sha256;
#[path = "local_baseline/vectors.rs"]
mod vectors;

use ends::{Client, Keys, Server};
use hop::Hop;
use std::collections::VecDeque;
use std::io::{self, Read, Write};
use std::process::ExitCode;

const MOST_BYTES: usize = 1_048_576;
const SECRET: [u8; 32] = [0; 32];
/// The one moment at which all happens, in milliseconds since 1970.
const NOW: i64 = 0;

/// What the arguments ask for.
struct Settings {
    hops: usize,
    lose: u64,
    streams: usize,
}

impl Settings {
    fn of(arguments: &[String]) -> Option<Settings> {
        let mut settings = Settings { hops: 1, lose: 0, streams: 1 };
        for pair in arguments.chunks(2) {
            let [name, value] = pair else { return None };
            let value = value.parse().ok()?;
            match (name.as_str(), value) {
                ("--hops", 0..=8) => settings.hops = value as usize,
                ("--lose", 0..=1_000_000) => settings.lose = value,
                ("--streams", 1..=32) => settings.streams = value as usize,
                _ => return None,
            }
        }
        Some(settings)
    }
}

/// Sends a Prepare over what is left of a chain: the answer.
fn exchange(hops: &mut [Hop], server: &mut Server, prepare: &[u8]) -> Vec<u8> {
    let Some((hop, rest)) = hops.split_first_mut() else {
        return server.receive(prepare, NOW);
    };
    match hop.arrive(0, prepare, NOW) {
        Ok((ticket, onward)) => {
            let answer = exchange(rest, server, &onward);
            hop.settle(ticket, answer, NOW)
        }
        Err(reject) => reject,
    }
}

/// Sends the input over a chain: what the server has at the end. `None` if the connection failed.
fn carry(settings: &Settings, input: &[u8]) -> Option<Server> {
    let size = input.len().div_ceil(settings.streams);
    let part = |place: usize| &input[(place * size).min(input.len())..((place + 1) * size).min(input.len())];
    let mut client = Client::new(Keys::of(&SECRET), (0..settings.streams).map(part));
    let mut server = Server::new(Keys::of(&SECRET));
    let mut hops: Vec<Hop> = (1..=settings.hops).map(Hop::new).collect();
    let mut flying = VecDeque::new();
    while !client.has_ended() {
        flying.extend(std::iter::from_fn(|| client.send(NOW)));
        let (sequence, prepare) = flying.pop_front()?;
        let is_lost = settings.lose > 0 && sequence % settings.lose == 0;
        let answer = (!is_lost).then(|| exchange(&mut hops, &mut server, &prepare));
        client.answered(sequence, answer.as_deref());
        if client.has_failed() {
            return None;
        }
    }
    Some(server)
}

fn fault(number: u8) -> io::Result<ExitCode> {
    eprintln!("fault {number}");
    Ok(ExitCode::FAILURE)
}

fn main() -> io::Result<ExitCode> {
    let arguments: Vec<String> = std::env::args().skip(1).collect();
    if arguments == ["--check"] {
        vectors::check();
        return Ok(ExitCode::SUCCESS);
    }
    let Some(settings) = Settings::of(&arguments) else {
        eprintln!("usage: [--hops N] [--lose N] [--streams N], or --check");
        return Ok(ExitCode::from(2));
    };
    let mut input = Vec::new();
    io::stdin().lock().take(MOST_BYTES as u64 + 1).read_to_end(&mut input)?;
    if input.len() > MOST_BYTES {
        return fault(84);
    }
    let Some(server) = carry(&settings, &input) else {
        return fault(58);
    };
    let mut out = io::stdout().lock();
    for place in 0..settings.streams {
        out.write_all(server.read(place).expect("each stream has ended"))?;
    }
    out.flush()?;
    Ok(ExitCode::SUCCESS)
}
