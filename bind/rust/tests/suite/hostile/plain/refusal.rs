//! The refusal of a reader.

/// Why bytes are refused.
#[derive(Clone, Copy, Debug, PartialEq, Eq)]
pub struct Refusal {
    /// The number of the refusal.
    pub number: u8,
    /// The first number that it carries, if there is one.
    pub inner: Option<u64>,
}

impl Refusal {
    /// The refusal of this number, which carries no other.
    pub fn alone(number: u8) -> Refusal {
        Refusal {
            number,
            inner: None,
        }
    }

    /// The refusal of this number that carries `inner`.
    pub fn around(number: u8, inner: u64) -> Refusal {
        Refusal {
            number,
            inner: Some(inner),
        }
    }
}
