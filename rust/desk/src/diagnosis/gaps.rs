//! The gaps of a sound shard: runs of bytes past the shard index that nothing
//! lists. How many bytes these are together is the library's answer; where they
//! are is found here, by a map with a bit for each byte.

use std::fmt;
use std::ops::Range;

use coronagamba::{Manifest, Sharding, Span};

use super::seen::Seen;
use crate::edition::Bytes;
use crate::fragments::{is_mesh, length_of};
use crate::text::counted;

/// How many gaps are told with their places.
const TOLD: usize = 5;

/// The gaps of a shard.
#[derive(Clone, Debug, Default, PartialEq, Eq)]
pub struct Gaps {
    /// How many there are.
    pub count: u64,
    /// How many bytes they have together.
    pub bytes: u64,
    /// The first of them.
    pub first: Vec<Span>,
}

impl Gaps {
    /// Those of a shard that passed the check and has so many unlisted bytes.
    /// `None` where there is no memory for the map, or where this reading finds
    /// another number.
    pub fn of(sharding: &Sharding, number: u64, bytes: Bytes, unlisted: u64) -> Option<Gaps> {
        if unlisted == 0 {
            return Some(Gaps::default());
        }
        let gaps = Seen::of(sharding, number, bytes).held()?.gaps();
        (gaps.bytes == unlisted).then_some(gaps)
    }

    /// `5 unlisted bytes in 2 gaps`
    pub fn size(&self) -> String {
        let bytes = counted(self.bytes, "unlisted byte");
        format!("{bytes} in {}", counted(self.count, "gap"))
    }

    fn add(&mut self, gap: Range<usize>) {
        let span = Span {
            start: gap.start as u64,
            length: gap.len() as u64,
        };
        self.count += 1;
        self.bytes += span.length;
        if self.first.len() < TOLD {
            self.first.push(span);
        }
    }
}

/// `byte 32 (3 bytes), byte 90 (1 byte), and 7 more gaps`
impl fmt::Display for Gaps {
    fn fmt(&self, f: &mut fmt::Formatter<'_>) -> fmt::Result {
        for (i, Span { start, length }) in self.first.iter().enumerate() {
            let comma = if i == 0 { "" } else { ", " };
            write!(f, "{comma}byte {start} ({})", counted(*length, "byte"))?;
        }
        match self.count - self.first.len() as u64 {
            0 => Ok(()),
            more => write!(f, ", and {}", counted(more, "more gap")),
        }
    }
}

/// A bit for each byte of a file.
struct Map {
    words: Vec<u64>,
    length: usize,
}

impl Map {
    /// Of no byte yet, where there is memory for it.
    fn new(length: usize) -> Option<Self> {
        let mut words = Vec::new();
        words.try_reserve_exact(length.div_ceil(64)).ok()?;
        words.resize(length.div_ceil(64), 0);
        Some(Map { words, length })
    }

    fn mark(&mut self, bytes: Range<usize>) {
        let (mut at, end) = (bytes.start, bytes.end);
        while at < end {
            let word = at / 64;
            let stop = end.min(64 * (word + 1));
            let bits = u64::MAX >> (64 - (stop - at));
            self.words[word] |= bits << (at % 64);
            at = stop;
        }
    }

    /// The first byte from a place on that is marked, or is not; the end where
    /// there is none.
    fn next(&self, from: usize, marked: bool) -> usize {
        let flip = if marked { 0 } else { u64::MAX };
        let mut at = from;
        while at < self.length {
            let left = (self.words[at / 64] ^ flip) >> (at % 64);
            if left != 0 {
                return self.length.min(at + left.trailing_zeros() as usize);
            }
            at = 64 * (at / 64 + 1);
        }
        self.length
    }

    fn gaps(&self) -> Gaps {
        let mut gaps = Gaps::default();
        let mut at = self.next(0, false);
        while at < self.length {
            let end = self.next(at, true);
            gaps.add(at..end);
            at = self.next(end, false);
        }
        gaps
    }
}

impl Seen<'_> {
    /// The bytes of the shard index, of the minishard indexes, of the chunks and
    /// of their fragments.
    fn held(&self) -> Option<Map> {
        let mut map = Map::new(self.bytes.len())?;
        let base = self.index_length();
        map.mark(0..usize::try_from(base).ok()?);
        for minishard in 0..self.minishards() {
            let rows = self.rows(minishard)?;
            let begin = usize::try_from(rows.begin).ok()?;
            map.mark(begin..begin + rows.bytes.len());
            for Span { start, length } in rows.spans() {
                let chunk = base.checked_add(start)?;
                let end = chunk.checked_add(length)?;
                let bytes = self.bytes.get(chunk..end)?;
                let [chunk, end] = [chunk, end].map(|place| place as usize);
                let lead = match is_mesh(self.sharding) {
                    true => length_of(&Manifest::open(bytes))? as usize,
                    false => 0,
                };
                map.mark(chunk.checked_sub(lead)?..end);
            }
        }
        Some(map)
    }
}

#[cfg(test)]
mod tests {
    use super::*;

    #[test]
    fn maps() {
        for length in [0, 1, 63, 64, 65, 130] {
            for start in 0..=length {
                for end in start..=length {
                    let mut map = Map::new(length).expect("there is memory");
                    map.mark(start..end);
                    let bytes = (length - (end - start)) as u64;
                    let gaps = map.gaps();
                    assert_eq!(gaps.bytes, bytes);
                    let at_front = u64::from(start > 0 && start < end);
                    let behind = u64::from(end < length && start < end);
                    let whole = u64::from(start == end && length > 0);
                    assert_eq!(gaps.count, at_front + behind + whole);
                }
            }
        }
    }

    #[test]
    fn many_gaps_are_told_in_part() {
        let mut map = Map::new(40).expect("there is memory");
        for start in (0..40).step_by(5) {
            map.mark(start..start + 3);
        }
        let gaps = map.gaps();
        assert_eq!(gaps.size(), "16 unlisted bytes in 8 gaps");
        assert_eq!(
            gaps.to_string(),
            "byte 3 (2 bytes), byte 8 (2 bytes), byte 13 (2 bytes), byte 18 (2 bytes), \
             byte 23 (2 bytes), and 3 more gaps"
        );
        map.mark(0..39);
        assert_eq!(map.gaps().size(), "1 unlisted byte in 1 gap");
        assert_eq!(map.gaps().to_string(), "byte 39 (1 byte)");
    }
}
