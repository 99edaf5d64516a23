//! Second readers of the formats, and hostile bytes that a seed determines.
//!
//! Each format is read here in the simplest way, field by field from its rules, with no line in common with the library that is
//! tested by it. `oer` is RFC 0030, `ilp` RFC 0027, `stream` RFC 0029, and `http` RFC 9112 as RFC 0035 uses it, each with this
//! profile's order of refusals.

pub mod answers;
pub mod http;
pub mod ilp;
mod met;
pub mod oer;
pub mod prepares;
mod refusal;
mod samples;
pub mod seal;
pub mod stream;

pub use met::Met;
pub use samples::{EDGES, Samples, changed_at};
