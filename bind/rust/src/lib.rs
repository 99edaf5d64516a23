//! Interledger STREAM (RFC 0029) and the connector between its ends (RFC 0027), proved in Rattle, as safe types.
//!
//! - [`End`] is one side of a connection: it sends and receives bytes and money on streams.
//! - [`Hop`] is a connector: it sends Prepares on, and keeps what each neighbour owes.
//! - [`Prepare`] and [`Answer`] are ILP packets, [`Packet`] with its [`Frame`]s is a STREAM packet, and [`Keys`] seal and open it.
//! - [`Request`] and [`Response`] read ILP over HTTP (RFC 0035), and [`request_text`] and similar functions write it.
//! - [`Ivs`] reads what a call needs of random bytes, and [`now`] the time.
//!
//! There is no I/O in an end or a hop, no clock and no thread: bytes, times and IVs are arguments. Each is `Send`: it may be
//! passed to another thread, and put behind a lock. Each call that is refused changes nothing, and says why by an [`Error`],
//! whose number is that of the library's documents. The functions below the calls were proved to meet their contracts for all
//! arguments; this crate's own code is ordinary Rust, and was not.
//!
//! Memory is allocated by the C library's `malloc`. If there is none, a call is refused by an error of which
//! [`Error::is_out_of_memory`] is true, and can be repeated. The bytes that a call gives are a `Vec`, for which the program
//! aborts if there is no memory, as everywhere in Rust. Memory that the library gives back was overwritten: no key stays there.
//!
//! Features: none is on by default. `refusing` is for tests: requests for memory are counted and refused by its module.
//!
//! The archive is linked from `bind/out` of the repository, which `bind/build` makes, or from the folder that the environment
//! variable `ILPSTREAM_OUT` names.

#![deny(unsafe_code, missing_docs, missing_debug_implementations)]

mod end;
mod error;
mod hop;
mod http;
mod ilp;
mod ivs;
mod keys;
mod output;
mod packet;
#[allow(unsafe_code)]
mod raw;
#[cfg(feature = "refusing")]
pub mod refusing;

pub use end::{End, EndConfig, Failure, Flight, Outgoing, Read, Received, Role, Totals};
pub use error::Error;
pub use hop::{Account, Balances, Booking, Hop, Route, Ticket, Verdict};
pub use http::{Progress, Request, Response, answer_text, refusal_text, request_text};
pub use ilp::{Answer, Prepare};
pub use ivs::{Ivs, now};
pub use keys::{Keys, condition};
pub use packet::{Frame, Frames, Header, Packet, PacketKind};

/// The version of the library that is linked, as `0.1.0`.
pub fn version() -> &'static str {
    raw::version()
}
