//! Numbers by a seed, and runs by all processors.

use std::panic::{RefUnwindSafe, catch_unwind};
use std::sync::atomic::{AtomicU64, Ordering};
use std::thread;

/// A row of numbers that a seed determines (SplitMix64, by G. L. Steele, D. Lea and C. H. Flood).
pub struct Numbers {
    state: u64,
}

impl Numbers {
    pub fn of(seed: u64) -> Numbers {
        Numbers { state: seed }
    }

    pub fn next(&mut self) -> u64 {
        self.state = self.state.wrapping_add(0x9e37_79b9_7f4a_7c15);
        let first = (self.state ^ (self.state >> 30)).wrapping_mul(0xbf58_476d_1ce4_e5b9);
        let second = (first ^ (first >> 27)).wrapping_mul(0x94d0_49bb_1331_11eb);
        second ^ (second >> 31)
    }

    /// One of these byte lists; the empty one if there is none.
    pub fn pick<'a>(&mut self, lists: &[&'a [u8]]) -> &'a [u8] {
        let place = self.place(lists.len());
        lists.get(place).copied().unwrap_or(&[])
    }

    /// One of these numbers; 0 if there is none.
    pub fn choice(&mut self, list: &[u64]) -> u64 {
        let place = self.place(list.len());
        list.get(place).copied().unwrap_or(0)
    }

    /// A byte: half of the time one of `common`, and else any byte.
    pub fn byte(&mut self, common: &[u8]) -> u8 {
        let number = self.next();
        if number & 0x100 == 0 {
            let place = self.place(common.len());
            common.get(place).copied().unwrap_or(0)
        } else {
            (number & 0xff) as u8
        }
    }

    /// The next number below a bound, or 0 if that is 0.
    pub fn below(&mut self, bound: u64) -> u64 {
        self.next().checked_rem(bound).unwrap_or(0)
    }

    /// A place in a list of this length.
    pub fn place(&mut self, length: usize) -> usize {
        self.below(length as u64) as usize
    }
}

/// Runs a test for each seed below a bound, by as many threads as there are processors. A seed that fails is named.
pub fn for_each(seeds: u64, run: impl Fn(u64) + Sync + RefUnwindSafe) {
    let next = AtomicU64::new(0);
    let work = || {
        loop {
            let seed = next.fetch_add(1, Ordering::Relaxed);
            if seeds <= seed {
                return None;
            }
            if catch_unwind(|| run(seed)).is_err() {
                next.store(seeds, Ordering::Relaxed);
                return Some(seed);
            }
        }
    };
    let threads = thread::available_parallelism().map_or(1, usize::from);
    let failed: Vec<u64> = thread::scope(|scope| {
        let runs: Vec<_> = (0..threads).map(|_| scope.spawn(work)).collect();
        let ends = runs
            .into_iter()
            .map(|run| run.join().expect("its panics are caught"));
        ends.flatten().collect()
    });
    assert!(failed.is_empty(), "these runs fail: {failed:?}");
}
