//! What bench/ledger.sh measures with, by the standard library alone: `ledger_load HUB NEIGHBOUR COUNT SECONDS EXPIRY`. COUNT
//! threads send Prepares of one unit to the connector at port HUB, each on a connection of its own (ILP over HTTP, RFC 0035), and
//! wait for their Fulfills. At port NEIGHBOUR another COUNT threads answer what the connector forwards. EXPIRY is that of all
//! Prepares, as ILP writes it. Prints the number of Fulfills that arrived, and the nanoseconds by the clock.

use std::env;
use std::error::Error;
use std::io::{self, BufRead, BufReader, Read, Write};
use std::net::{TcpListener, TcpStream};
use std::process::ExitCode;
use std::thread;
use std::time::{Duration, Instant};

/// SHA-256 of 32 zero bytes, which are the preimage of each Prepare.
const CONDITION: [u8; 32] = [
    0x66, 0x68, 0x7a, 0xad, 0xf8, 0x62, 0xbd, 0x77, 0x6c, 0x8f, 0xc1, 0x8b, 0x8e, 0x9f, 0x8e, 0x20, 0x08, 0x97, 0x14, 0x85, 0x6e,
    0xe2, 0x33, 0xb3, 0x90, 0x2a, 0x59, 0x1d, 0x0d, 0x5f, 0x29, 0x25,
];
const FULFILL: u8 = 13;

/// A packet of ILPv4 (RFC 0027) whose fields have fewer than 128 bytes.
fn packet(kind: u8, fields: &[u8]) -> Vec<u8> {
    [&[kind, fields.len() as u8], fields].concat()
}

fn prepare(expiry: &str) -> Vec<u8> {
    let address = b"test.payee";
    let parts: [&[u8]; 6] = [&1_u64.to_be_bytes(), expiry.as_bytes(), &CONDITION, &[address.len() as u8], address, &[0]];
    packet(12, &parts.concat())
}

/// A message of HTTP with this first line and this body.
fn message(first: &str, body: &[u8]) -> Vec<u8> {
    let head = format!("{first}\r\nContent-Type: application/octet-stream\r\nContent-Length: {}\r\nConnection: close\r\n\r\n", body.len());
    [head.as_bytes(), body].concat()
}

/// The body of the message that a connection has.
fn body_of(stream: &TcpStream) -> io::Result<Vec<u8>> {
    let (mut reader, mut length) = (BufReader::new(stream), 0);
    loop {
        let mut line = String::new();
        reader.read_line(&mut line)?;
        let line = line.trim_end().to_ascii_lowercase();
        if let Some(digits) = line.strip_prefix("content-length:") {
            length = digits.trim().parse().map_err(|_| io::ErrorKind::InvalidData)?;
        }
        if line.is_empty() {
            break;
        }
    }
    let mut body = vec![0; length];
    reader.read_exact(&mut body)?;
    Ok(body)
}

/// Answers each connection with a Fulfill.
fn answer(listener: &TcpListener, fulfill: &[u8]) {
    for stream in listener.incoming() {
        let answered = stream.and_then(|mut stream| {
            body_of(&stream)?;
            stream.write_all(fulfill)
        });
        if let Err(error) = answered {
            eprintln!("the neighbour: {error}");
        }
    }
}

/// Sends Prepares until it is over. How many were fulfilled.
fn send(port: u16, request: &[u8], over: Instant) -> io::Result<u64> {
    let mut count = 0;
    while Instant::now() < over {
        let mut stream = TcpStream::connect(("127.0.0.1", port))?;
        stream.write_all(request)?;
        let body = body_of(&stream)?;
        if body.first() != Some(&FULFILL) {
            return Err(io::Error::other(format!("no Fulfill: {}", String::from_utf8_lossy(&body))));
        }
        count += 1;
    }
    Ok(count)
}

fn run() -> Result<(), Box<dyn Error>> {
    let words: Vec<String> = env::args().skip(1).collect();
    let [hub, neighbour, count, seconds, expiry] = &words[..] else {
        return Err("ledger_load HUB NEIGHBOUR COUNT SECONDS EXPIRY".into());
    };
    let (hub, neighbour, count) = (hub.parse()?, neighbour.parse::<u16>()?, count.parse::<usize>()?);
    let listener = TcpListener::bind(("127.0.0.1", neighbour))?;
    let fulfill = message("HTTP/1.1 200 OK", &packet(FULFILL, &[0; 33]));
    let request = message("POST /ilp HTTP/1.1\r\nHost: hub\r\nAuthorization: Bearer payer-at-hub", &prepare(expiry));
    for _ in 0..count {
        let (listener, fulfill) = (listener.try_clone()?, fulfill.clone());
        thread::spawn(move || answer(&listener, &fulfill));
    }
    let from = Instant::now();
    let over = from + Duration::from_secs_f64(seconds.parse()?);
    let counts = thread::scope(|scope| {
        let senders: Vec<_> = (0..count).map(|_| scope.spawn(|| send(hub, &request, over))).collect();
        senders.into_iter().map(|it| it.join().expect("a sender")).sum::<io::Result<u64>>()
    })?;
    println!("{counts} {}", from.elapsed().as_nanos());
    Ok(())
}

fn main() -> ExitCode {
    match run() {
        Ok(()) => ExitCode::SUCCESS,
        Err(error) => {
            eprintln!("ledger_load: {error}");
            ExitCode::FAILURE
        }
    }
}
