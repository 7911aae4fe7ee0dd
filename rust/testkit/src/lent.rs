//! Buffers to lend, with items around them that must not change.

use crate::Rng;

/// How many items stand guard on each side, at least.
const GUARD: usize = 32;

/// A buffer of random items with random items before and behind it. Two of
/// them are equal only where all of these items are.
#[derive(Debug, PartialEq, Eq)]
pub struct Lent<T = u8> {
    items: Vec<T>,
    start: usize,
}

impl<T: Clone> Clone for Lent<T> {
    fn clone(&self) -> Self {
        Lent {
            items: self.items.clone(),
            start: self.start,
        }
    }

    /// A copy in the place of another, whose memory it takes.
    fn clone_from(&mut self, source: &Self) {
        self.items.clone_from(&source.items);
        self.start = source.start;
    }
}

impl Lent<u8> {
    /// A buffer of this length, at a place of any alignment.
    pub fn new(rng: &mut Rng, length: usize) -> Self {
        let start = GUARD + rng.index(8);
        Lent {
            items: rng.bytes(start + length + GUARD),
            start,
        }
    }

    /// A buffer that holds these bytes, at a place of any alignment.
    pub fn holding(rng: &mut Rng, bytes: &[u8]) -> Self {
        let start = GUARD + rng.index(8);
        let mut items = rng.bytes(start);
        items.extend(bytes);
        items.extend(rng.bytes(GUARD));
        Lent { items, start }
    }
}

impl Lent<u64> {
    /// A buffer of this many numbers.
    pub fn numbers(rng: &mut Rng, length: usize) -> Self {
        let items = (0..GUARD + length + GUARD).map(|_| rng.bits());
        Lent {
            items: items.collect(),
            start: GUARD,
        }
    }
}

impl<T> Lent<T> {
    /// The part to lend.
    pub fn part(&mut self) -> &mut [T] {
        let end = self.items.len() - GUARD;
        &mut self.items[self.start..end]
    }

    /// The part to lend for reading.
    pub fn held(&self) -> &[T] {
        &self.items[self.start..self.items.len() - GUARD]
    }
}

/// Lets both write into equal buffers and panics unless they answer the same
/// and leave the same items. Gives the answer.
pub fn same_writing<T: Clone + PartialEq, A: PartialEq + std::fmt::Debug>(
    lent: &Lent<T>,
    one: impl FnOnce(&mut [T]) -> A,
    other: impl FnOnce(&mut [T]) -> A,
) -> A {
    let (mut first, mut second) = (lent.clone(), lent.clone());
    let (answer, expected) = (one(first.part()), other(second.part()));
    assert_eq!(answer, expected, "the answers");
    assert!(first == second, "the bytes left behind");
    answer
}

#[cfg(test)]
mod tests {
    use super::*;

    #[test]
    fn the_part_has_its_length_and_bytes() {
        let mut rng = Rng::new(1);
        for length in 0..50 {
            let bytes = rng.bytes(length);
            let mut held = Lent::holding(&mut rng, &bytes);
            assert_eq!(held.held(), bytes);
            assert_eq!(held.part(), bytes);
            assert_eq!(Lent::new(&mut rng, length).part().len(), length);
            assert_eq!(Lent::numbers(&mut rng, length).part().len(), length);
        }
    }

    #[test]
    fn every_item_counts() {
        let mut rng = Rng::new(2);
        let lent = Lent::new(&mut rng, 5);
        for at in 0..lent.items.len() {
            let mut other = lent.clone();
            other.items[at] ^= 1;
            assert!(other != lent);
        }
    }
}
