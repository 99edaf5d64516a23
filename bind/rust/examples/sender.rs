//! An end that sends standard input and money on stream 1, to a receiver or a connector:
//!
//!     sender ADDRESS TOKEN SECRET OWN PEER UNITS < FILE
//!
//! SECRET is 64 hexadecimal digits, OWN and PEER are ILP addresses.

mod link;

use ilpstream::{End, EndConfig, Error, Ivs, Role, now};
use std::io::{self, Read};

type Fault = Box<dyn std::error::Error>;

/// The next Prepare is sent, and its answer taken: whether there was one.
fn pass(end: &mut End, ivs: &mut Ivs, address: &str, token: &str) -> Result<bool, Fault> {
    let Some(prepare) = end.send(&ivs.next()?, now())? else {
        return Ok(false);
    };
    match link::exchange(address, token, &prepare.bytes) {
        Ok(mut answer) => {
            end.answer(prepare.flight, &mut answer)?;
        }
        Err(error) => {
            eprintln!("no answer: {error}");
            end.fault(prepare.flight)?;
        }
    }
    Ok(true)
}

fn main() -> Result<(), Fault> {
    let words: Vec<String> = std::env::args().skip(1).collect();
    let [address, token, secret, own, peer, units] = &words[..] else {
        return Err("sender ADDRESS TOKEN SECRET OWN PEER UNITS".into());
    };
    let mut ivs = Ivs::new()?;
    let secret = link::secret_of(secret)?;
    let mut end = End::new(Role::Client, &secret, own, peer, EndConfig::default())?;
    let stream = end.open_stream()?;
    end.offer(stream, units.parse()?)?;
    let mut bytes = Vec::new();
    io::stdin().read_to_end(&mut bytes)?;
    let mut parts = bytes.chunks(65_536).peekable();
    let mut is_closed = false;
    while !end.settled(stream)? {
        match parts.peek().map(|part| end.write(stream, part)) {
            Some(Ok(())) => drop(parts.next()),
            Some(Err(Error::Full)) => {} // until some bytes are acknowledged
            Some(Err(error)) => return Err(error.into()),
            None if !is_closed => {
                end.close(stream)?;
                is_closed = true;
            }
            None => {}
        }
        if !pass(&mut end, &mut ivs, address, token)? && is_closed {
            return Err("nothing more can be sent".into());
        }
    }
    eprintln!("paid {}", end.totals()?.paid);
    Ok(())
}
