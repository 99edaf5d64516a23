//! Tests of the proved library in ordinary Rust: requests for memory refused in turn, connections that lose, repeat and reorder,
//! worked packets, and hostile bytes. A test that has a seed says it if it fails.

mod ends;
mod hops;
mod hostile;
mod http;
mod ilp;
mod keys;
mod packets;
mod seeds;
