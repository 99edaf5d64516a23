//! Two ends in memory: 1 MiB and 500 units are sent from a client to a server.

use ilpstream::{End, EndConfig, Error, Ivs, Read, Role, now};

const SIZE: usize = 1 << 20;
const UNITS: u64 = 500;

/// The client's next Prepare is given to the server, and the answer to the client. False if nothing is to be sent.
fn pass(
    client: &mut End,
    server: &mut End,
    ivs: &mut Ivs,
) -> Result<bool, Box<dyn std::error::Error>> {
    let Some(prepare) = client.send(&ivs.next()?, now())? else {
        return Ok(false);
    };
    let mut answer = server.receive(&prepare.bytes, now())?.bytes;
    client.answer(prepare.flight, &mut answer)?;
    Ok(true)
}

fn main() -> Result<(), Box<dyn std::error::Error>> {
    let mut ivs = Ivs::new()?;
    let secret = ivs.secret()?;
    let config = EndConfig::default();
    let mut client = End::new(
        Role::Client,
        &secret,
        "example.alice",
        "example.bob",
        config,
    )?;
    let mut server = End::new(
        Role::Server,
        &secret,
        "example.bob",
        "example.alice",
        config,
    )?;
    let sent: Vec<u8> = (0..SIZE).map(|i| (i * 7 + i / 256) as u8).collect();
    let (mut left, mut got) = (&sent[..], Vec::new());

    let stream = client.open_stream()?;
    server.set_receive_max(stream, UNITS)?;
    client.offer(stream, UNITS)?;
    let mut is_closed = false;
    while !client.settled(stream)? {
        if !left.is_empty() {
            let (front, rest) = left.split_at(left.len().min(65_536));
            match client.write(stream, front) {
                Ok(()) => left = rest,
                Err(Error::Full) => {} // until some bytes are acknowledged
                Err(error) => return Err(error.into()),
            }
        } else if !is_closed {
            client.close(stream)?;
            is_closed = true;
        }
        pass(&mut client, &mut server, &mut ivs)?;
        while let Read::Bytes(bytes) = server.read(stream, SIZE)? {
            got.extend(bytes);
        }
    }
    let (paid, credited) = (client.totals()?.paid, server.totals()?.credited);
    assert!(got == sent && (paid, credited) == (UNITS, UNITS));
    println!(
        "{} bytes arrived intact; paid {paid}, credited {credited}",
        got.len()
    );
    Ok(())
}
