//! Why a call was refused.

use std::fmt;

/// Refusals: their variants, numbers and texts.
macro_rules! refusals {
    ($($(#[$doc:meta])* $name:ident = $number:literal, $text:literal;)*) => {
        /// Why a call was refused. What it was called on is then as before the call.
        #[derive(Clone, Copy, Debug, PartialEq, Eq, Hash)]
        #[non_exhaustive]
        pub enum Error {
            $($(#[$doc])* $name,)*
            /// A number that this crate has no name for.
            Unlisted(u32),
        }

        impl Error {
            /// The number of the refusal in the library's documents (docs/ERRORS.md).
            pub fn number(self) -> u32 {
                match self {
                    $(Error::$name => $number,)*
                    Error::Unlisted(number) => number,
                }
            }

            /// What it means, in a sentence or two of the library's documents.
            pub fn explanation(self) -> &'static str {
                crate::raw::error_text(self.number())
            }

            pub(crate) fn of(number: u32) -> Error {
                match number {
                    $($number => Error::$name,)*
                    _ => Error::Unlisted(number),
                }
            }

            /// Each refusal that has a name.
            pub const LISTED: &[Error] = &[$(Error::$name),*];
        }

        impl fmt::Display for Error {
            fn fmt(&self, f: &mut fmt::Formatter<'_>) -> fmt::Result {
                match self {
                    $(Error::$name => f.write_str($text),)*
                    Error::Unlisted(number) => write!(f, "refused with the number {number}"),
                }
            }
        }
    };
}

refusals! {
    /// A field of an ILP packet, or the octets around the fields, are malformed (RFC 0030).
    Oer = 10, "a field of the ILP packet is malformed";
    /// The ILP packet is of another kind.
    Kind = 11, "the ILP packet is of another kind";
    /// An expiry is not a date and time of the years 0000 to 9999.
    Expiry = 12, "the expiry is no date and time";
    /// An ILP address is malformed.
    Address = 13, "an ILP address is malformed";
    /// The data has more than 32,767 bytes, or a message to be written more than 8,191.
    DataTooLong = 14, "the data or the message is too long";
    /// A message is not UTF-8.
    NotUtf8 = 15, "the message is not UTF-8";
    /// An error code has a character outside `!` to `~`.
    Code = 16, "the error code has another character";
    /// Bytes follow the last field or the packet.
    Trailing = 17, "bytes follow the packet";
    /// Out of memory for an ILP packet.
    PacketOutOfMemory = 18, "out of memory for an ILP packet";
    /// The STREAM packet is of another version than 1.
    StreamVersion = 20, "the packet is of another version of STREAM";
    /// The STREAM packet is of another kind than the ILP packet that carried it.
    StreamKind = 21, "the STREAM packet is of another kind";
    /// A number of a STREAM packet, a frame's type or a frame's length is malformed (RFC 0030).
    StreamOer = 22, "a number of the STREAM packet is malformed";
    /// The contents of a frame are malformed, or its address is neither empty nor an ILP address.
    FrameFormat = 23, "a frame is malformed";
    /// The STREAM packet has more than 32,739 bytes.
    StreamTooLong = 24, "the STREAM packet is too long";
    /// Out of memory for a STREAM packet.
    StreamOutOfMemory = 25, "out of memory for a STREAM packet";
    /// The payload has fewer than 28 bytes: no IV and tag.
    Short = 30, "the payload is too short";
    /// The tag of the payload is wrong.
    Tag = 31, "the tag of the payload is wrong";
    /// Out of memory for keys or a payload.
    KeysOutOfMemory = 33, "out of memory for a payload";
    /// The table of a hop: a prefix is there twice, a route names no account, or a limit is above 2^63 - 1.
    BadTable = 34, "the table of the hop is bad";
    /// A hop is out of memory.
    HopOutOfMemory = 35, "the hop is out of memory";
    /// There is no account of this number.
    NoAccount = 36, "there is no such account";
    /// The books of a hop: an account has no claim or no due, one owes more than its limit beyond its due, or a sum is above
    /// 2^63 - 1.
    BadBooks = 37, "the books of the hop are bad";
    /// The stream is not open, or all 32 streams of this end are used.
    NoStream = 50, "the stream is not open";
    /// The stream was closed or aborted at this end, or the peer closed the connection.
    Closed = 51, "the stream was closed";
    /// More than 262,144 bytes of the stream would wait for an acknowledgement.
    Full = 52, "too many bytes are not acknowledged";
    /// All offers together would be 2^63 units or more.
    AmountTooLarge = 53, "the offers are too large";
    /// An end is out of memory.
    OutOfMemory = 54, "out of memory";
    /// The connection failed.
    ConnectionFailed = 58, "the connection failed";
    /// The head of a response is malformed.
    BadHead = 82, "the head of the response is malformed";
    /// A request is refused by a status, or a response has a status other than 200.
    Status = 83, "the message has another status than 200";
    /// The body of a response is longer than 65,535 bytes.
    BodyTooLong = 84, "the body of the response is too long";
    /// Out of memory for a message of HTTP.
    HttpOutOfMemory = 87, "out of memory for a message";
    /// The handle is empty, or of another kind. No call of this crate gives it.
    Misuse = 101, "the handle is of another kind";
    /// An argument is out of its range.
    Argument = 102, "an argument is out of its range";
    /// A buffer is too small. No call of this crate gives it.
    Room = 103, "the buffer is too small";
    /// There is no such open flight or ticket.
    Unknown = 104, "there is no such open flight or ticket";
}

impl Error {
    /// Whether memory was refused, in whichever part of the library: the call can be repeated once there is some.
    pub fn is_out_of_memory(self) -> bool {
        use Error::*;
        matches!(
            self,
            PacketOutOfMemory
                | StreamOutOfMemory
                | KeysOutOfMemory
                | HopOutOfMemory
                | OutOfMemory
                | HttpOutOfMemory
        )
    }
}

impl std::error::Error for Error {}

/// The number of a call that did what it is for.
pub(crate) const DONE: u32 = 0;
/// Nothing is to be sent, or can be read yet.
pub(crate) const IDLE: u32 = 100;
/// All bytes were read, and the peer closed the stream.
pub(crate) const ENDED: u32 = 105;
/// The peer aborted the stream.
pub(crate) const ABORTED: u32 = 106;
/// The bytes are to be sent on to another account.
pub(crate) const ONWARD: u32 = 107;

/// What a call returned, which is done or refused.
pub(crate) fn done(code: u32) -> Result<(), Error> {
    match code {
        DONE => Ok(()),
        number => Err(Error::of(number)),
    }
}
