//! ILP over HTTP (RFC 0035) over TCP, for the examples: a connection carries one request and its answer.
#![allow(dead_code)] // an example uses one side

use ilpstream::{Error, Progress, Request, Response, answer_text, refusal_text, request_text};
use std::io::{self, ErrorKind, Read, Write};
use std::net::TcpStream;
use std::time::Duration;

const PATIENCE: Option<Duration> = Some(Duration::from_secs(30));

fn patient(stream: &TcpStream) -> io::Result<()> {
    stream.set_read_timeout(PATIENCE)?;
    stream.set_write_timeout(PATIENCE)
}

/// What a message is at last, whose bytes are read from a stream.
fn read_whole(
    stream: &mut TcpStream,
    mut feed: impl FnMut(&[u8]) -> Result<Progress, Error>,
) -> io::Result<Progress> {
    let mut bytes = vec![0; 16_384];
    loop {
        let count = stream.read(&mut bytes)?;
        if count == 0 {
            return Err(ErrorKind::UnexpectedEof.into());
        }
        match feed(&bytes[..count]).map_err(io::Error::other)? {
            Progress::Wants(_) => {}
            progress => return Ok(progress),
        }
    }
}

/// Sends a packet to a neighbour, with the token that it knows, and gives its answer.
pub fn exchange(address: &str, token: &str, packet: &[u8]) -> io::Result<Vec<u8>> {
    let mut stream = TcpStream::connect(address)?;
    patient(&stream)?;
    stream.write_all(&request_text(address, token, packet).map_err(io::Error::other)?)?;
    let mut response = Response::new().map_err(io::Error::other)?;
    match read_whole(&mut stream, |bytes| response.feed(bytes))? {
        Progress::Whole { body, .. } => Ok(body),
        other => Err(io::Error::other(format!("no answer: {other:?}"))),
    }
}

/// The packet of a neighbour, and the place of its token among the tokens. A malformed request is answered with its status.
pub fn receive(stream: &mut TcpStream, tokens: &[&str]) -> io::Result<(usize, Vec<u8>)> {
    patient(stream)?;
    let mut request = Request::new(tokens).map_err(io::Error::other)?;
    match read_whole(stream, |bytes| request.feed(bytes))? {
        Progress::Whole { account, body, .. } => Ok((account, body)),
        Progress::Status(status) => {
            stream.write_all(&refusal_text(status).map_err(io::Error::other)?)?;
            Err(io::Error::other(format!(
                "a request with the status {status}"
            )))
        }
        Progress::Wants(_) => Err(ErrorKind::UnexpectedEof.into()),
    }
}

/// Answers it.
pub fn answer(stream: &mut TcpStream, packet: &[u8]) -> io::Result<()> {
    stream.write_all(&answer_text(packet).map_err(io::Error::other)?)
}

/// A secret of 64 hexadecimal digits.
pub fn secret_of(text: &str) -> Result<[u8; 32], Box<dyn std::error::Error>> {
    let mut secret = [0; 32];
    if !text.is_ascii() || text.len() != 64 {
        return Err("a secret has 64 hexadecimal digits".into());
    }
    for (byte, at) in secret.iter_mut().zip((0..).step_by(2)) {
        *byte = u8::from_str_radix(&text[at..at + 2], 16)?;
    }
    Ok(secret)
}
