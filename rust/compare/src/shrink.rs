//! Shrinking: from an input that shows a difference to a small one.

/// How many inputs are tried at most.
const MOST_TRIES: usize = 100_000;

/// A smaller input that still differs: blocks are cut out, set to 0, and bytes
/// lowered, as long as the difference stays.
pub fn shrink(input: &[u8], differs: impl FnMut(&[u8]) -> bool) -> Vec<u8> {
    shrink_within(MOST_TRIES, input, differs)
}

/// Shrinks with at most this many tries.
fn shrink_within(tries: usize, input: &[u8], differs: impl FnMut(&[u8]) -> bool) -> Vec<u8> {
    let mut shrinking = Shrinking {
        best: input.to_vec(),
        tries,
        differs,
    };
    while shrinking.cut() | shrinking.clear() | shrinking.lower() {}
    shrinking.best
}

/// The smallest input so far.
struct Shrinking<F> {
    best: Vec<u8>,
    tries: usize,
    differs: F,
}

impl<F: FnMut(&[u8]) -> bool> Shrinking<F> {
    /// Keeps the candidate where it still differs.
    fn keep(&mut self, candidate: Vec<u8>) -> bool {
        if self.tries == 0 || candidate == self.best {
            return false;
        }
        self.tries -= 1;
        let kept = (self.differs)(&candidate);
        if kept {
            self.best = candidate;
        }
        kept
    }

    /// Lengths of blocks, from half of the input down to 1.
    fn lengths(&self) -> impl Iterator<Item = usize> {
        let half = self.best.len().div_ceil(2);
        std::iter::successors(Some(half), |length| Some(length / 2))
            .take_while(|length| *length > 0)
    }

    /// Cuts out blocks; says whether any could go.
    fn cut(&mut self) -> bool {
        let mut changed = false;
        for length in self.lengths() {
            let mut at = 0;
            while at < self.best.len() {
                let end = (at + length).min(self.best.len());
                let candidate = [&self.best[..at], &self.best[end..]].concat();
                if self.keep(candidate) {
                    changed = true;
                } else {
                    at = end;
                }
            }
        }
        changed
    }

    /// Sets blocks to 0; says whether any could be.
    fn clear(&mut self) -> bool {
        let mut changed = false;
        for length in self.lengths() {
            for at in (0..self.best.len()).step_by(length) {
                let mut candidate = self.best.clone();
                let end = (at + length).min(candidate.len());
                candidate[at..end].fill(0);
                changed |= self.keep(candidate);
            }
        }
        changed
    }

    /// Lowers single bytes, by half and by 1; says whether any could be.
    fn lower(&mut self) -> bool {
        let mut changed = false;
        for at in 0..self.best.len() {
            while self.lower_to(at, self.best[at] / 2)
                || self.lower_to(at, self.best[at].saturating_sub(1))
            {
                changed = true;
            }
        }
        changed
    }

    fn lower_to(&mut self, at: usize, byte: u8) -> bool {
        let mut candidate = self.best.clone();
        candidate[at] = byte;
        self.keep(candidate)
    }
}

#[cfg(test)]
mod tests {
    use super::*;
    use testkit::Rng;

    #[test]
    fn one_byte_at_its_place() {
        let mut rng = Rng::new(1);
        for length in [4, 5, 64, 1000] {
            let mut input = rng.bytes(length);
            input[3] = 7;
            let small = shrink(&input, |bytes| bytes.get(3) == Some(&7));
            assert_eq!(small, [0, 0, 0, 7]);
        }
    }

    #[test]
    fn a_byte_anywhere() {
        let mut input = Rng::new(2).bytes(500);
        input.retain(|byte| *byte != 9);
        input[300] = 9;
        assert_eq!(shrink(&input, |bytes| bytes.contains(&9)), [9]);
    }

    #[test]
    fn bytes_are_lowered() {
        let small = shrink(&[255; 40], |bytes| bytes.iter().any(|byte| *byte >= 100));
        assert_eq!(small, [100]);
    }

    #[test]
    fn a_length() {
        assert_eq!(shrink(&[1; 77], |bytes| bytes.len() >= 10), [0; 10]);
        assert_eq!(shrink(&[1; 77], |_| true), []);
    }

    #[test]
    fn tries_are_bounded() {
        let mut tries = 0;
        let small = shrink_within(50, &[1; 1000], |bytes| {
            tries += 1;
            bytes.len() > 600
        });
        assert_eq!(tries, 50);
        assert!((601..1000).contains(&small.len()), "{}", small.len());
    }
}
