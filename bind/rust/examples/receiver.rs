//! An end that listens on a TCP socket, and writes what it receives on stream 1 to standard output:
//!
//!     receiver LISTEN TOKEN SECRET OWN PEER UNITS > FILE
//!
//! It accepts Prepares from whoever shows the token, receives up to this number of units, and ends when the sender closed the
//! stream. SECRET is 64 hexadecimal digits, OWN and PEER are ILP addresses.

mod link;

use ilpstream::{End, EndConfig, Error, Read, Role, now};
use std::io::{self, Write};
use std::net::{TcpListener, TcpStream};

type Fault = Box<dyn std::error::Error>;

/// Answers one request.
fn serve(end: &mut End, stream: &mut TcpStream, token: &str) -> Result<(), Fault> {
    let (_, packet) = link::receive(stream, &[token])?;
    let answer = match end.receive(&packet, now()) {
        Ok(received) => received.bytes,
        Err(Error::OutOfMemory) => end.t00()?,
        Err(error) => return Err(error.into()),
    };
    Ok(link::answer(stream, &answer)?)
}

/// Writes what arrived: whether it was all.
fn write_on(end: &mut End, out: &mut impl Write) -> Result<bool, Fault> {
    loop {
        match end.read(1, 1 << 20) {
            Ok(Read::Bytes(bytes)) => out.write_all(&bytes)?,
            Ok(Read::Nothing) | Err(Error::NoStream) => return Ok(false),
            Ok(Read::End) => return Ok(true),
            Ok(Read::Aborted(code)) => return Err(format!("aborted with the code {code}").into()),
            Err(error) => return Err(error.into()),
        }
    }
}

fn main() -> Result<(), Fault> {
    let words: Vec<String> = std::env::args().skip(1).collect();
    let [listen, token, secret, own, peer, units] = &words[..] else {
        return Err("receiver LISTEN TOKEN SECRET OWN PEER UNITS".into());
    };
    let secret = link::secret_of(secret)?;
    let mut end = End::new(Role::Server, &secret, own, peer, EndConfig::default())?;
    end.set_receive_max(1, units.parse()?)?;
    let mut out = io::stdout().lock();
    let listener = TcpListener::bind(listen)?;
    eprintln!("listening on {}", listener.local_addr()?);
    for stream in listener.incoming() {
        // A neighbour that breaks off sends again.
        if let Err(error) = serve(&mut end, &mut stream?, token) {
            eprintln!("a request was not answered: {error}");
        }
        if write_on(&mut end, &mut out)? {
            break;
        }
    }
    eprintln!("credited {}", end.totals()?.credited);
    Ok(out.flush()?)
}
