//! Unlisted bytes (document 02, order 8), by a bitmap of the whole file.

use crate::endian::read_u64;
use crate::shard::list;
use crate::sharding::Sharding;
use crate::Refusal;

/// A bit for each byte of a file.
struct Bitmap {
    words: Vec<u64>,
    length: usize,
}

impl Bitmap {
    fn new(length: usize) -> Self {
        Bitmap {
            words: vec![0; length.div_ceil(64)],
            length,
        }
    }

    fn mark(&mut self, byte: usize) {
        self.words[byte / 64] |= 1 << (byte % 64);
    }

    /// Marks the bytes from one on and before another: those of a word that is
    /// whole at once.
    fn mark_all(&mut self, mut from: usize, to: usize) {
        while from < to && !from.is_multiple_of(64) {
            self.mark(from);
            from += 1;
        }
        let whole = from / 64..(to / 64).max(from / 64);
        from = from.max(64 * whole.end);
        self.words[whole].fill(u64::MAX);
        for byte in from..to {
            self.mark(byte);
        }
    }

    fn is_marked(&self, byte: usize) -> bool {
        self.words[byte / 64] >> (byte % 64) & 1 == 1
    }

    /// The runs of bytes that are not marked, each as where it starts and its
    /// length.
    fn gaps(&self) -> Vec<(u64, u64)> {
        let mut gaps = Vec::new();
        let mut byte = 0;
        while byte < self.length {
            if byte.is_multiple_of(64) && self.words[byte / 64] == u64::MAX {
                byte += 64;
                continue;
            }
            let start = byte;
            while byte < self.length && !self.is_marked(byte) {
                byte += 1;
            }
            if start == byte {
                byte += 1;
            } else {
                gaps.push((start as u64, (byte - start) as u64));
            }
        }
        gaps
    }
}

/// The gaps of a sound shard: the runs of unlisted bytes, rising, each with
/// where it starts in the file and its length. Else the refusal of the check,
/// which names no minishard.
pub fn gaps(sharding: &Sharding, number: u64, file: &[u8]) -> Result<Vec<(u64, u64)>, Refusal> {
    let entries = list(sharding, number, file).map_err(Refusal::passed_on)?;
    let index_end = sharding.index_end();
    let mut bitmap = Bitmap::new(file.len());
    bitmap.mark_all(0, index_end as usize);
    for entry in entries {
        let start = entry.start - entry.fragments;
        bitmap.mark_all(start as usize, (entry.start + entry.length) as usize);
    }
    for minishard in 0..sharding.minishard_count() as usize {
        let [start, end] = [0, 8].map(|at| read_u64(file, 16 * minishard + at));
        if start < end {
            let [start, end] = [start, end].map(|place| (index_end + place) as usize);
            bitmap.mark_all(start, end);
        }
    }
    Ok(bitmap.gaps())
}

/// How many bytes of a sound shard are unlisted, refused likewise.
pub fn unlisted(sharding: &Sharding, number: u64, file: &[u8]) -> Result<u64, Refusal> {
    let gaps = gaps(sharding, number, file)?;
    Ok(gaps.iter().map(|(_, length)| length).sum())
}

#[cfg(test)]
mod tests {
    use super::*;
    use crate::sharding::VOLUME;

    #[test]
    fn marks_and_gaps() {
        for length in [0, 1, 63, 64, 65, 200] {
            for from in 0..=length {
                for to in from..=length {
                    let mut bitmap = Bitmap::new(length);
                    bitmap.mark_all(from, to);
                    let marked = |byte: &usize| bitmap.is_marked(*byte);
                    assert!((0..length).filter(marked).eq(from..to));
                    let ends = [(0, from), (to, length)].map(|(a, b)| (a as u64, (b - a) as u64));
                    let expected = match (from == to, ends) {
                        (true, _) => vec![(0, length as u64)],
                        (false, ends) => ends.to_vec(),
                    };
                    let expected: Vec<_> = expected.into_iter().filter(|gap| gap.1 > 0).collect();
                    assert_eq!(bitmap.gaps(), expected);
                }
            }
        }
    }

    #[test]
    fn the_example() {
        let sharding = Sharding {
            preshift: 0,
            hash: 0,
            minishard_bits: 1,
            shard_bits: 0,
            kind: VOLUME,
        };
        // A byte in front, two chunks that share one, an entry of an empty
        // minishard in the midst, and two bytes behind.
        let rows = [4, 6, 1, 1u64.wrapping_neg(), 2, 3];
        let numbers = |numbers: &[u64]| -> Vec<u8> {
            let bytes = numbers.iter().flat_map(|number| number.to_le_bytes());
            bytes.collect()
        };
        let front = numbers(&[5, 53, 2, 2]);
        let file = [&front[..], b"-abcd", &numbers(&rows), b"--"].concat();
        assert_eq!(gaps(&sharding, 0, &file), Ok(vec![(32, 1), (85, 2)]));
        assert_eq!(unlisted(&sharding, 0, &file), Ok(3));
        assert_eq!(unlisted(&sharding, 1, &file), Err(Refusal::bare(5)));
    }
}
