//! ILP packets.

use crate::error::{Error, done};
use crate::output::text;
use crate::raw;

/// An ILP Prepare (RFC 0027, RFC 0030).
///
/// ```
/// use ilpstream::Prepare;
///
/// # fn main() -> Result<(), ilpstream::Error> {
/// let prepare = Prepare {
///     amount: 5,
///     expiry: 1_704_164_645_006,
///     condition: [7; 32],
///     destination: "example.bob",
///     payload: b"data",
/// };
/// let bytes = prepare.write()?;
/// assert_eq!(Prepare::read(&bytes)?, prepare);
/// # Ok(())
/// # }
/// ```
#[derive(Clone, Copy, Debug, PartialEq, Eq)]
pub struct Prepare<'a> {
    /// In units of the asset that the two neighbours share.
    pub amount: u64,
    /// When it expires, in milliseconds after 1970-01-01 00:00 UTC.
    pub expiry: i64,
    /// The SHA-256 digest of the fulfillment.
    pub condition: [u8; 32],
    /// The ILP address of the receiver (RFC 0015).
    pub destination: &'a str,
    /// Data for the receiver: at most 32,767 bytes.
    pub payload: &'a [u8],
}

/// The answer to a Prepare (RFC 0027, RFC 0030).
#[derive(Clone, Copy, Debug, PartialEq, Eq)]
pub enum Answer<'a> {
    /// It was accepted.
    Fulfill {
        /// Whose SHA-256 digest is the condition.
        fulfillment: [u8; 32],
        /// Data for the sender: at most 32,767 bytes.
        payload: &'a [u8],
    },
    /// It was not.
    Reject {
        /// Three characters, such as F02.
        code: [u8; 3],
        /// The address of the node that made it, or nothing (triggeredBy).
        by: &'a str,
        /// A message for people.
        message: &'a str,
        /// Data for the sender: at most 32,767 bytes.
        payload: &'a [u8],
    },
}

/// A part of the bytes that were read, of which the library said where it is.
fn part(bytes: &[u8], at: usize, len: usize) -> Result<&[u8], Error> {
    let end = at.checked_add(len).ok_or(Error::Oer)?;
    bytes.get(at..end).ok_or(Error::Oer)
}

fn text_part(bytes: &[u8], at: usize, len: usize) -> Result<&str, Error> {
    std::str::from_utf8(part(bytes, at, len)?).map_err(|_| Error::NotUtf8)
}

impl Prepare<'_> {
    /// Reads all of the bytes as a Prepare. The first fault: [`Error::Oer`], [`Error::Kind`], [`Error::Expiry`],
    /// [`Error::Address`], [`Error::DataTooLong`], [`Error::Trailing`].
    pub fn read(bytes: &[u8]) -> Result<Prepare<'_>, Error> {
        let mut read = raw::Prepare::default();
        done(raw::prepare_read(bytes, &mut read))?;
        Ok(Prepare {
            amount: read.amount,
            expiry: read.expiry,
            condition: read.condition,
            destination: text_part(bytes, read.destination_at, read.destination_len)?,
            payload: part(bytes, read.payload_at, read.payload_len)?,
        })
    }

    /// Its bytes. [`Error::Expiry`] if the year is outside 0000 to 9999; [`Error::Address`], [`Error::DataTooLong`],
    /// [`Error::PacketOutOfMemory`].
    pub fn write(&self) -> Result<Vec<u8>, Error> {
        text(|out, len| raw::prepare_write(self, out, len))
    }
}

impl Answer<'_> {
    /// Reads all of the bytes as a Fulfill or a Reject. The first fault: [`Error::Oer`], [`Error::Kind`], [`Error::Code`],
    /// [`Error::Address`], [`Error::NotUtf8`], [`Error::DataTooLong`], [`Error::Trailing`].
    pub fn read(bytes: &[u8]) -> Result<Answer<'_>, Error> {
        let mut read = raw::Answer::default();
        done(raw::answer_read(bytes, &mut read))?;
        let payload = part(bytes, read.payload_at, read.payload_len)?;
        if read.kind == 13 {
            return Ok(Answer::Fulfill {
                fulfillment: read.fulfillment,
                payload,
            });
        }
        Ok(Answer::Reject {
            code: read.code,
            by: text_part(bytes, read.by_at, read.by_len)?,
            message: text_part(bytes, read.message_at, read.message_len)?,
            payload,
        })
    }

    /// Its bytes. [`Error::Code`] if the code has a character outside `!` to `~`; [`Error::Address`] if `by` is neither
    /// empty nor an ILP address; [`Error::DataTooLong`] if the message has more than 8,191 bytes, or the payload more than
    /// 32,767; [`Error::PacketOutOfMemory`].
    pub fn write(&self) -> Result<Vec<u8>, Error> {
        match *self {
            Answer::Fulfill {
                fulfillment,
                payload,
            } => text(|out, len| raw::fulfill_write(&fulfillment, payload, out, len)),
            Answer::Reject {
                code,
                by,
                message,
                payload,
            } => text(|out, len| raw::reject_write(&code, by, message, payload, out, len)),
        }
    }
}
