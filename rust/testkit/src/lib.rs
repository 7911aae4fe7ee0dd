//! Seeded random inputs for tests.
//!
//! Everything here depends on the seed alone, so that a failure can be run
//! again. Numbers lean towards edges: 0, 1, powers of two and their
//! neighbours, the largest.

#![forbid(unsafe_code)]

pub mod cards;
pub mod infos;
pub mod labels;
pub mod lent;
pub mod manifests;
pub mod meshes;
pub mod places;
pub mod rng;
pub mod shards;

pub use lent::{same_writing, Lent};
pub use rng::Rng;

/// Which refusal numbers a test has met, so that it can show that it reached
/// the ones it should.
#[derive(Clone, Copy, Debug, Default, PartialEq, Eq)]
pub struct Met {
    seen: u32,
}

impl Met {
    /// Nothing met yet.
    pub fn new() -> Self {
        Met::default()
    }

    /// Notes the number of a refusal; success counts as 0.
    pub fn note<T, E: Copy + Into<reference::Refusal>>(&mut self, answer: &Result<T, E>) {
        let number = match answer {
            Ok(_) => 0,
            Err(refusal) => (*refusal).into().number,
        };
        self.seen |= 1 << number;
    }

    /// The numbers met, rising; 0 stands for success.
    pub fn numbers(&self) -> Vec<u8> {
        (0..32)
            .filter(|number| self.seen >> number & 1 == 1)
            .collect()
    }

    /// Panics unless exactly these numbers were met; 0 stands for success.
    pub fn assert_exactly(&self, expected: &[u8]) {
        assert_eq!(self.numbers(), expected, "refusals met");
    }
}
