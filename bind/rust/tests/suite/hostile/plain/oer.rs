//! A second reader of OER fields (RFC 0030). Each function returns a field and the bytes after it, or the number of
//! the refusal: 1 if bytes are missing, 2 for a length that is not the shortest, 3 for a number that is not the
//! shortest, 4 for a number of too many bytes.

/// The first `size` bytes, and those after them. Fails with 1 if there are fewer.
pub fn fixed(bytes: &[u8], size: u64) -> Result<(&[u8], &[u8]), u64> {
    if (bytes.len() as u64) < size {
        Err(1)
    } else {
        Ok(bytes.split_at(size as usize))
    }
}

/// The number that big-endian bytes write, modulo 2^64.
pub fn number(digits: &[u8]) -> u64 {
    let mut number = 0u64;
    for digit in digits {
        number = number.wrapping_mul(256).wrapping_add(u64::from(*digit));
    }
    number
}

/// A number of one byte, and the bytes after it. Fails with 1 if there is none.
pub fn uint8(bytes: &[u8]) -> Result<(u8, &[u8]), u64> {
    match bytes {
        [first, rest @ ..] => Ok((*first, rest)),
        [] => Err(1),
    }
}

/// A length: one byte below 128, or 128 more than the count of the bytes that write it.
pub fn length(bytes: &[u8]) -> Result<(u64, &[u8]), u64> {
    let (first, rest) = uint8(bytes)?;
    if first < 128 {
        return Ok((u64::from(first), rest));
    }
    if first == 128 {
        return Err(2);
    }
    if first > 136 {
        return Err(4);
    }
    let (digits, rest) = fixed(rest, u64::from(first).saturating_sub(128))?;
    let length = number(digits);
    if digits.first() == Some(&0) || length < 128 {
        return Err(2);
    }
    Ok((length, rest))
}

/// A variable octet string.
pub fn octets(bytes: &[u8]) -> Result<(&[u8], &[u8]), u64> {
    let (size, rest) = length(bytes)?;
    fixed(rest, size)
}

/// A VarUInt, of eight bytes at most.
pub fn var_uint(bytes: &[u8]) -> Result<(u64, &[u8]), u64> {
    let (size, _) = length(bytes)?;
    if size > 8 {
        return Err(4);
    }
    limit(bytes)
}

/// A VarUInt of any length, if one past 2^64 - 1 counts as that.
pub fn limit(bytes: &[u8]) -> Result<(u64, &[u8]), u64> {
    let (size, rest) = length(bytes)?;
    if size == 0 {
        return Err(3);
    }
    let (digits, rest) = fixed(rest, size)?;
    if size > 1 && digits.first() == Some(&0) {
        return Err(3);
    }
    if size > 8 {
        return Ok((u64::MAX, rest));
    }
    Ok((number(digits), rest))
}
