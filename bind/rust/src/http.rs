//! ILP over HTTP.

use crate::error::{DONE, Error, IDLE, done};
use crate::output::{output, text};
use crate::raw::{self, Handle};

/// What the bytes of a message are so far.
#[derive(Clone, Debug, PartialEq, Eq)]
pub enum Progress {
    /// It is not whole yet: this many bytes are to be asked for next, which are never more than it must still have.
    Wants(usize),
    /// It is whole.
    Whole {
        /// The account of a request, by the place of its token; 0 for a response.
        account: usize,
        /// The ILP packet.
        body: Vec<u8>,
        /// How many of the bytes are the message.
        taken: usize,
    },
    /// A request is refused, and answered with this status; or a response has this status, which is not 200.
    Status(u32),
}

fn fed(handle: &mut Handle, bytes: &[u8]) -> Result<Progress, Error> {
    let mut reading = raw::Reading::default();
    match raw::message_feed(handle, bytes, &mut reading) {
        DONE => Ok(Progress::Whole {
            account: reading.account,
            body: output(handle, reading.body_len)?,
            taken: reading.taken,
        }),
        IDLE => Ok(Progress::Wants(reading.wants)),
        number if number == Error::Status.number() => Ok(Progress::Status(reading.status)),
        number => Err(Error::of(number)),
    }
}

/// A request of ILP over HTTP (RFC 0035), as it is read. Its head has at most 8,192 bytes and 64 fields, its body at most 65,535
/// bytes.
///
/// ```
/// use ilpstream::{Progress, Request, request_text};
///
/// # fn main() -> Result<(), ilpstream::Error> {
/// let text = request_text("bob.example", "alice-at-bob", b"a packet")?;
/// let mut request = Request::new(&["alice-at-bob"])?;
/// assert!(matches!(request.feed(&text[..9])?, Progress::Wants(_)));
/// let Progress::Whole { account, body, .. } = request.feed(&text[9..])? else {
///     panic!("it is whole");
/// };
/// assert_eq!((account, body.as_slice()), (0, b"a packet".as_slice()));
/// # Ok(())
/// # }
/// ```
#[derive(Debug)]
pub struct Request {
    handle: Handle,
}

impl Request {
    /// Begins to read a request to the account of one of these bearer tokens. [`Error::HttpOutOfMemory`].
    pub fn new(tokens: &[&str]) -> Result<Request, Error> {
        let mut handle = Handle::empty();
        let lengths: Vec<usize> = tokens.iter().map(|token| token.len()).collect();
        done(raw::request_new(&mut handle, &tokens.concat(), &lengths))?;
        Ok(Request { handle })
    }

    /// Reads the next bytes. Some thousand at once cost less than single ones. If the request is refused, or
    /// [`Error::HttpOutOfMemory`], no byte was accepted.
    pub fn feed(&mut self, bytes: &[u8]) -> Result<Progress, Error> {
        fed(&mut self.handle, bytes)
    }
}

/// A response of ILP over HTTP, as it is read.
#[derive(Debug)]
pub struct Response {
    handle: Handle,
}

impl Response {
    /// Begins to read a response. [`Error::HttpOutOfMemory`].
    pub fn new() -> Result<Response, Error> {
        let mut handle = Handle::empty();
        done(raw::ilp_response_new(&mut handle))?;
        Ok(Response { handle })
    }

    /// Reads the next bytes. [`Error::BadHead`], [`Error::BodyTooLong`], [`Error::HttpOutOfMemory`], and if the status is not
    /// 200: no byte was accepted.
    pub fn feed(&mut self, bytes: &[u8]) -> Result<Progress, Error> {
        fed(&mut self.handle, bytes)
    }
}

/// A POST request with an ILP packet. [`Error::Argument`] if the host or the token is not 1 to 255 characters from `!` to
/// `~`; [`Error::HttpOutOfMemory`].
pub fn request_text(host: &str, token: &str, body: &[u8]) -> Result<Vec<u8>, Error> {
    text(|out, len| raw::request_text(host, token, body, out, len))
}

/// A response 200 with an ILP packet. [`Error::HttpOutOfMemory`].
pub fn answer_text(body: &[u8]) -> Result<Vec<u8>, Error> {
    text(|out, len| raw::answer_text(body, out, len))
}

/// A response of another status, 400 to 599. [`Error::Argument`], [`Error::HttpOutOfMemory`].
pub fn refusal_text(status: u32) -> Result<Vec<u8>, Error> {
    text(|out, len| raw::refusal_text(status, out, len))
}
