//! IVs, and the time.

use std::fs::File;
use std::io::{self, Read};
use std::time::{SystemTime, UNIX_EPOCH};

/// Initialization vectors for sealed packets, each of 12 random bytes of the system. With one key no two packets may have the
/// same IV: an attacker would learn their contents, and the key of their authentication. Of 2^31 packets of each end, two have
/// the same random IV with a probability below 2^-32 (NIST SP 800-38D, section 8.3).
#[derive(Debug)]
pub struct Ivs {
    random: File,
}

impl Ivs {
    /// Opens the system's random bytes, `/dev/urandom`.
    pub fn new() -> io::Result<Ivs> {
        let random = File::open("/dev/urandom")?;
        Ok(Ivs { random })
    }

    /// The next IV.
    #[allow(clippy::should_implement_trait)] // it can fail, and does not end
    pub fn next(&mut self) -> io::Result<[u8; 12]> {
        self.bytes()
    }

    /// A new secret for a connection.
    pub fn secret(&mut self) -> io::Result<[u8; 32]> {
        self.bytes()
    }

    fn bytes<const N: usize>(&mut self) -> io::Result<[u8; N]> {
        let mut bytes = [0; N];
        self.random.read_exact(&mut bytes)?;
        Ok(bytes)
    }
}

/// The time, as the calls want it: milliseconds after 1970-01-01 00:00 UTC. 0 if the system's clock is before that.
pub fn now() -> i64 {
    SystemTime::now()
        .duration_since(UNIX_EPOCH)
        .map_or(0, |since| i64::try_from(since.as_millis()).unwrap_or(0))
}
