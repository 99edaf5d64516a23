//! An end of a STREAM connection.

use crate::error::{ABORTED, DONE, ENDED, Error, IDLE, done};
use crate::output::{answered, output, text};
use crate::raw::{self, Handle};

/// Which side of a connection an end is.
#[derive(Clone, Copy, Debug, PartialEq, Eq)]
pub enum Role {
    /// Its own streams are odd: 1, 3, ..
    Client,
    /// Its own streams are even: 2, 4, ..
    Server,
}

/// How an end sends.
#[derive(Clone, Copy, Debug, PartialEq, Eq)]
pub struct EndConfig {
    /// How many Prepares may wait for their answer at once, 1 to 64.
    pub in_flight: usize,
    /// How many Prepares it sends in all, 1 to 2^31 - 1.
    pub packets: u64,
    /// The greatest amount of one Prepare at the start, 1 to 2^63 - 1.
    pub packet_limit: u64,
    /// The least that has to arrive of a packet is its amount times `least_num` / `least_den`, rounded down (RFC 0029,
    /// section 5.2).
    pub least_num: u32,
    /// Not 0.
    pub least_den: u32,
}

impl Default for EndConfig {
    /// 16 Prepares at once, as many and as large as can be, of which all that was sent has to arrive.
    fn default() -> EndConfig {
        EndConfig {
            in_flight: 16,
            packets: (1 << 31) - 1,
            packet_limit: (1 << 63) - 1,
            least_num: 1,
            least_den: 1,
        }
    }
}

/// What an end did so far. None of these falls.
#[repr(C)]
#[derive(Clone, Copy, Debug, Default, PartialEq, Eq)]
pub struct Totals {
    /// How many bytes were written at this end.
    pub accepted: u64,
    /// How many bytes it gave to its reader.
    pub delivered: u64,
    /// How many units it received.
    pub credited: u64,
    /// How many of its own units were fulfilled.
    pub paid: u64,
}

/// The number of a Prepare that an end sent. Its answer is reported once.
#[derive(Clone, Copy, Debug, PartialEq, Eq, Hash)]
pub struct Flight(u64);

impl Flight {
    /// The sequence of its STREAM packet.
    pub fn sequence(self) -> u64 {
        self.0
    }
}

/// A Prepare that is to be sent to the peer.
#[derive(Clone, Debug, PartialEq, Eq)]
pub struct Outgoing {
    /// By which its answer is reported.
    pub flight: Flight,
    /// The ILP Prepare.
    pub bytes: Vec<u8>,
}

/// What a read gives.
#[derive(Clone, Debug, PartialEq, Eq)]
pub enum Read {
    /// The next bytes of the stream, at least one.
    Bytes(Vec<u8>),
    /// There are none yet.
    Nothing,
    /// All were read, and the peer closed the stream.
    End,
    /// The peer aborted the stream with this code.
    Aborted(u64),
}

/// Why a Prepare failed.
#[derive(Clone, Debug, PartialEq, Eq)]
pub enum Failure {
    /// No answer arrived.
    Lost,
    /// What arrived is neither a Fulfill nor a Reject.
    Unreadable,
    /// A Fulfill arrived whose fulfillment does not fit the condition.
    Unfit,
    /// A Reject arrived.
    Rejected {
        /// Its code, as `T04`.
        code: [u8; 3],
        /// Its triggeredBy: the ILP address of whoever refused, or nothing.
        by: String,
        /// The first 255 bytes of its message. Whoever refused chose them: they may be any characters, and the last one may
        /// be cut.
        message: Vec<u8>,
    },
}

/// A cause, as the archive reports it.
fn failure(told: &raw::Failure) -> Failure {
    match told.kind {
        1 => Failure::Lost,
        2 => Failure::Unreadable,
        3 => Failure::Unfit,
        _ => Failure::Rejected {
            code: told.code,
            by: String::from_utf8_lossy(&told.by[..told.by_len]).into_owned(),
            message: told.message[..told.message_len].to_vec(),
        },
    }
}

/// What an end did with a Prepare.
#[derive(Clone, Debug, PartialEq, Eq)]
pub struct Received {
    /// The Fulfill or Reject that is to be sent back.
    pub bytes: Vec<u8>,
    /// 0 for a Fulfill, and else why it is a Reject (docs/ERRORS.md, "Of an end").
    pub reason: u32,
    /// The amount of the Prepare, 0 if it cannot be read.
    pub amount: u64,
    /// The number of its STREAM packet, if that could be decrypted and read.
    pub sequence: Option<u64>,
}

/// An end of a STREAM connection (RFC 0029): it makes the Prepares that carry its streams' bytes and money, and answers those
/// of its peer. It does no I/O and knows no clock.
///
/// ```
/// use ilpstream::{End, EndConfig, Ivs, Read, Role, now};
///
/// # fn main() -> Result<(), Box<dyn std::error::Error>> {
/// let secret = [7; 32]; // of random bytes, in earnest
/// let config = EndConfig::default();
/// let mut client = End::new(Role::Client, &secret, "example.alice", "example.bob", config)?;
/// let mut server = End::new(Role::Server, &secret, "example.bob", "example.alice", config)?;
/// let mut ivs = Ivs::new()?;
///
/// let stream = client.open_stream()?;
/// client.write(stream, b"hi")?;
/// client.offer(stream, 10)?;
/// client.close(stream)?;
/// server.set_receive_max(stream, 10)?;
/// while let Some(prepare) = client.send(&ivs.next()?, now())? {
///     let mut answer = server.receive(&prepare.bytes, now())?.bytes;
///     client.answer(prepare.flight, &mut answer)?;
/// }
/// assert_eq!(server.read(stream, 100)?, Read::Bytes(b"hi".to_vec()));
/// assert_eq!(server.read(stream, 100)?, Read::End);
/// assert_eq!(client.totals()?.paid, 10);
/// # Ok(())
/// # }
/// ```
#[derive(Debug)]
pub struct End {
    handle: Handle,
}

impl End {
    /// An end whose own ILP address is `own` and whose peer's is `peer`. Both ends share the secret. [`Error::Argument`] if
    /// one is not an ILP address (RFC 0015) or a number of `config` is out of its range; [`Error::OutOfMemory`].
    pub fn new(
        role: Role,
        secret: &[u8; 32],
        own: &str,
        peer: &str,
        config: EndConfig,
    ) -> Result<End, Error> {
        let mut handle = Handle::empty();
        done(raw::end_new(
            &mut handle,
            role as u32,
            secret,
            own,
            peer,
            &config,
        ))?;
        Ok(End { handle })
    }

    /// Opens the next of this end's own streams. [`Error::NoStream`] if all 32 are used; [`Error::Closed`],
    /// [`Error::ConnectionFailed`], [`Error::OutOfMemory`].
    pub fn open_stream(&mut self) -> Result<u8, Error> {
        let mut stream = 0;
        done(raw::ilp_end_open_stream(&mut self.handle, &mut stream))?;
        u8::try_from(stream).map_err(|_| Error::Argument)
    }

    /// Accepts bytes that are to be sent on a stream: all of them, or none if it is refused. [`Error::NoStream`],
    /// [`Error::Closed`], [`Error::Full`], [`Error::ConnectionFailed`], [`Error::OutOfMemory`].
    pub fn write(&mut self, stream: u8, bytes: &[u8]) -> Result<(), Error> {
        done(raw::end_write(&mut self.handle, stream.into(), bytes))
    }

    /// How many bytes [`End::write`] takes on a stream at most, 0 to 262,144: a longer write is [`Error::Full`]. To write a part
    /// of what there is, ask for the room first. [`Error::NoStream`], [`Error::Closed`], [`Error::ConnectionFailed`].
    pub fn room(&self, stream: u8) -> Result<usize, Error> {
        let mut room = 0;
        done(raw::ilp_end_room(&self.handle, stream.into(), &mut room))?;
        Ok(room)
    }

    /// Closes a stream once all that was written and offered is delivered. [`Error::NoStream`], [`Error::Closed`],
    /// [`Error::ConnectionFailed`].
    pub fn close(&mut self, stream: u8) -> Result<(), Error> {
        done(raw::ilp_end_close(&mut self.handle, stream.into()))
    }

    /// Aborts a stream with a code of RFC 0029, section 5.4. [`Error::Argument`] for 1, which is that of a clean close;
    /// [`Error::NoStream`], [`Error::Closed`], [`Error::ConnectionFailed`].
    pub fn abort(&mut self, stream: u8, code: u8) -> Result<(), Error> {
        done(raw::ilp_end_abort(
            &mut self.handle,
            stream.into(),
            code.into(),
        ))
    }

    /// Offers units on a stream, in addition to what was offered before. [`Error::NoStream`], [`Error::Closed`],
    /// [`Error::AmountTooLarge`], [`Error::ConnectionFailed`].
    pub fn offer(&mut self, stream: u8, amount: u64) -> Result<(), Error> {
        done(raw::ilp_end_offer(&mut self.handle, stream.into(), amount))
    }

    /// Lets a stream receive up to an amount in all, which is 0 at the start and is never lowered. The stream is open, or
    /// one that the peer may open: else it is [`Error::NoStream`].
    pub fn set_receive_max(&mut self, stream: u8, amount: u64) -> Result<(), Error> {
        done(raw::ilp_end_set_receive_max(
            &mut self.handle,
            stream.into(),
            amount,
        ))
    }

    /// Which streams can be read, rising: on each of them [`End::read`] gives more than [`Read::Nothing`]. A stream whose end
    /// was read stays in the list. [`Error::OutOfMemory`].
    pub fn ready(&self) -> Result<Vec<u8>, Error> {
        text(|out, len| raw::end_ready(&self.handle, out, len))
    }

    /// Which streams are open, those of both ends, rising. One that the caller does not know yet was opened by the peer
    /// meanwhile. [`Error::OutOfMemory`].
    pub fn streams(&self) -> Result<Vec<u8>, Error> {
        text(|out, len| raw::end_streams(&self.handle, out, len))
    }

    /// The next bytes of a stream, at most `max`. [`Error::Argument`] if that is 0; [`Error::NoStream`],
    /// [`Error::OutOfMemory`].
    pub fn read(&mut self, stream: u8, max: usize) -> Result<Read, Error> {
        let (mut len, mut code) = (0, 0);
        match raw::ilp_end_read(&mut self.handle, stream.into(), max, &mut len, &mut code) {
            DONE => Ok(Read::Bytes(output(&self.handle, len)?)),
            IDLE => Ok(Read::Nothing),
            ENDED => Ok(Read::End),
            ABORTED => Ok(Read::Aborted(code)),
            number => Err(Error::of(number)),
        }
    }

    /// The next Prepare, or None if nothing is to be sent now. No two packets of a connection, of either end, may have the
    /// same IV: take each from [`Ivs`](crate::Ivs). `now` is in milliseconds after 1970-01-01 00:00 UTC; the Prepare expires
    /// 30 seconds later. [`Error::Argument`] if `now` is before 1970 or after 9999; [`Error::OutOfMemory`].
    pub fn send(&mut self, iv: &[u8; 12], now: i64) -> Result<Option<Outgoing>, Error> {
        let (mut flight, mut len) = (0, 0);
        match raw::ilp_end_send(&mut self.handle, iv, now, &mut flight, &mut len) {
            DONE => Ok(Some(Outgoing {
                flight: Flight(flight),
                bytes: output(&self.handle, len)?,
            })),
            IDLE => Ok(None),
            number => Err(Error::of(number)),
        }
    }

    /// Whether the bytes of an answer are a Fulfill that fits. They are decrypted where they lie. [`Error::Unknown`] if
    /// the flight is not open.
    pub fn answer(&mut self, flight: Flight, bytes: &mut [u8]) -> Result<bool, Error> {
        let mut fulfilled = 0;
        done(raw::end_answer(
            &mut self.handle,
            flight.0,
            bytes,
            &mut fulfilled,
        ))?;
        Ok(fulfilled == 1)
    }

    /// No answer arrived to a flight, and none is waited for: what it carries is sent again. [`Error::Unknown`].
    pub fn fault(&mut self, flight: Flight) -> Result<(), Error> {
        done(raw::ilp_end_fault(&mut self.handle, flight.0))
    }

    /// What answers a Prepare of the peer. [`Error::Argument`] if `now` is before 1970 or after 9999.
    /// [`Error::OutOfMemory`]: answer it with [`End::t00`], and the peer sends again.
    pub fn receive(&mut self, bytes: &[u8], now: i64) -> Result<Received, Error> {
        let mut received = raw::Received::default();
        done(raw::end_receive(
            &mut self.handle,
            bytes,
            now,
            &mut received,
        ))?;
        Ok(Received {
            bytes: output(&self.handle, received.len)?,
            reason: received.reason,
            amount: received.amount,
            sequence: (received.opened == 1).then_some(received.sequence),
        })
    }

    /// A Reject T00 that is kept ready, for use if memory is refused.
    pub fn t00(&self) -> Result<Vec<u8>, Error> {
        text(|out, len| raw::end_t00(&self.handle, out, len))
    }

    /// What this end did so far.
    pub fn totals(&self) -> Result<Totals, Error> {
        let mut totals = Totals::default();
        done(raw::ilp_end_totals(&self.handle, &mut totals))?;
        Ok(totals)
    }

    /// Whether a stream is open at this end.
    pub fn has_stream(&self, stream: u8) -> Result<bool, Error> {
        answered(|answer| raw::ilp_end_has_stream(&self.handle, stream.into(), answer))
    }

    /// Whether this end's own close of a stream was fulfilled.
    pub fn settled(&self, stream: u8) -> Result<bool, Error> {
        answered(|answer| raw::ilp_end_settled(&self.handle, stream.into(), answer))
    }

    /// Whether the connection failed: 200 Prepares in a row without a Fulfill, or a final Reject code.
    pub fn is_failed(&self) -> Result<bool, Error> {
        answered(|answer| raw::ilp_end_is_failed(&self.handle, answer))
    }

    /// Why the last Prepare of this end that failed did so. `None` before the first failure; a later Fulfill does not change
    /// it.
    pub fn last_failure(&self) -> Result<Option<Failure>, Error> {
        let mut told = raw::Failure::default();
        match raw::ilp_end_last_failure(&self.handle, &mut told) {
            DONE => Ok(Some(failure(&told))),
            IDLE => Ok(None),
            number => Err(Error::of(number)),
        }
    }
}
