//! The keys of a connection.

use crate::error::{Error, done};
use crate::output::output;
use crate::raw::{self, Handle};

/// The keys of a connection (RFC 0029, section 4). When they are dropped, their bytes are overwritten. They seal and open the payloads of its packets, and make the fulfillments of
/// its Prepares.
///
/// ```
/// use ilpstream::{Ivs, Keys, condition};
///
/// # fn main() -> Result<(), Box<dyn std::error::Error>> {
/// let mut ivs = Ivs::new()?;
/// let mut keys = Keys::new(&ivs.secret()?)?;
/// let payload = keys.seal(&ivs.next()?, b"any text")?;
/// assert_eq!(payload.len(), 28 + 8);
/// assert_eq!(keys.open(&payload)?, b"any text");
/// let _ = condition(&keys.fulfillment(&payload)?);
/// # Ok(())
/// # }
/// ```
#[derive(Debug)]
pub struct Keys {
    handle: Handle,
}

impl Keys {
    /// The keys of a shared secret. [`Error::KeysOutOfMemory`].
    pub fn new(secret: &[u8; 32]) -> Result<Keys, Error> {
        let mut handle = Handle::empty();
        done(raw::ilp_keys_new(&mut handle, secret))?;
        Ok(Keys { handle })
    }

    /// The payload of a plain text: the IV, the tag of 16 bytes, and the ciphertext. No two payloads of a connection may have
    /// the same IV: take each from [`Ivs`](crate::Ivs). [`Error::KeysOutOfMemory`].
    pub fn seal(&mut self, iv: &[u8; 12], text: &[u8]) -> Result<Vec<u8>, Error> {
        let mut len = 0;
        done(raw::keys_seal(&mut self.handle, iv, text, &mut len))?;
        output(&self.handle, len)
    }

    /// The plain text of a payload. [`Error::Short`], [`Error::Tag`], [`Error::KeysOutOfMemory`].
    pub fn open(&mut self, payload: &[u8]) -> Result<Vec<u8>, Error> {
        let mut len = 0;
        done(raw::keys_open(&mut self.handle, payload, &mut len))?;
        output(&self.handle, len)
    }

    /// The fulfillment of a Prepare whose data is this payload, as it is sent. It is not refused.
    pub fn fulfillment(&self, payload: &[u8]) -> Result<[u8; 32], Error> {
        let mut fulfillment = [0; 32];
        done(raw::keys_fulfillment(
            &self.handle,
            payload,
            &mut fulfillment,
        ))?;
        Ok(fulfillment)
    }
}

/// The condition of a fulfillment: its SHA-256 digest.
pub fn condition(fulfillment: &[u8; 32]) -> [u8; 32] {
    let mut condition = [0; 32];
    raw::ilp_condition(fulfillment, &mut condition);
    condition
}
