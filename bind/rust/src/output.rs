//! What a call returns.

use crate::error::{Error, done};
use crate::raw::{self, Handle};

/// The bytes that the last call output, of which it said how many there are.
pub(crate) fn output(handle: &Handle, len: usize) -> Result<Vec<u8>, Error> {
    let mut bytes = vec![0; len];
    let mut copied = 0;
    done(raw::output(handle, &mut bytes, &mut copied))?;
    bytes.truncate(copied);
    Ok(bytes)
}

/// The bytes that a call copies, which says how many there are, also if there is no room for them.
pub(crate) fn text(mut call: impl FnMut(&mut [u8], &mut usize) -> u32) -> Result<Vec<u8>, Error> {
    let mut len = 0;
    let mut bytes = Vec::new();
    let mut code = call(&mut bytes, &mut len);
    if code == Error::Room.number() {
        bytes.resize(len, 0);
        code = call(&mut bytes, &mut len);
    }
    done(code)?;
    bytes.truncate(len);
    Ok(bytes)
}

/// A yes or a no.
pub(crate) fn answered(call: impl FnOnce(&mut u32) -> u32) -> Result<bool, Error> {
    let mut answer = 0;
    done(call(&mut answer))?;
    Ok(answer == 1)
}
