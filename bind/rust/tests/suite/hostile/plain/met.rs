//! Which numbers a test met.

/// A set of numbers below 512, such as those of the errors that a test met. A test that never met a number did not try
/// it.
pub struct Met {
    numbers: [bool; 512],
}

impl Met {
    /// Makes the empty set.
    pub fn new() -> Met {
        Met {
            numbers: [false; 512],
        }
    }

    /// Adds a number. A number from 512 is ignored.
    pub fn note(&mut self, number: u64) {
        if number < 512 {
            if let Some(met) = self.numbers.get_mut(number as usize) {
                *met = true;
            }
        }
    }

    /// Adds the numbers of another set.
    pub fn join(&mut self, other: &Met) {
        for (met, also) in self.numbers.iter_mut().zip(other.numbers) {
            *met |= also;
        }
    }

    /// The first of these numbers that is not in the set. `None` if all are.
    pub fn lacks(&self, wanted: &[u64]) -> Option<u64> {
        for number in wanted {
            let met = if *number < 512 {
                self.numbers.get(*number as usize).copied()
            } else {
                None
            };
            if met != Some(true) {
                return Some(*number);
            }
        }
        None
    }
}
