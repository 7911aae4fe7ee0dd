//! Shards of the earlier edition, an index file and a data file (source
//! document 002; document 02, order 10). The two are joined here, which the
//! order's own calls must not do.

use crate::shard::{self, Entry, Fragment};
use crate::sharding::Sharding;
use crate::{settle, unlisted, Refusal, MOST_SHARD_BYTES};
use std::ops::Range;

/// The two files of a shard.
#[derive(Clone, Copy, Debug, PartialEq, Eq)]
pub struct Pair<'a> {
    /// All bytes of the index file.
    pub index: &'a [u8],
    /// All bytes of the data file.
    pub data: &'a [u8],
}

/// A part of one of the two files.
#[derive(Clone, Debug, PartialEq, Eq)]
pub enum Held {
    /// These bytes of the index file.
    Index(Range<u64>),
    /// These bytes of the data file.
    Data(Range<u64>),
}

impl<'a> Pair<'a> {
    /// A file cut in two.
    pub fn cut(file: &'a [u8], seam: usize) -> Self {
        let (index, data) = file.split_at(seam);
        Pair { index, data }
    }

    /// The one file that the two make.
    pub fn joined(&self) -> Vec<u8> {
        [self.index, self.data].concat()
    }

    /// Test 23.
    fn has_its_seam(&self, sharding: &Sharding) -> bool {
        self.index.len() as u64 == sharding.index_end()
    }

    /// What a call answers: as for the joined file, but 23 where the seam is not
    /// at the end of the shard index and none of 1, 5 and 33 is given.
    fn answer<T>(
        &self,
        sharding: &Sharding,
        call: impl FnOnce(&[u8]) -> Result<T, Refusal>,
    ) -> Result<T, Refusal> {
        let answer = call(&self.joined());
        match answer {
            Err(refusal) if matches!(refusal.number, 1 | 5 | 33) => Err(refusal),
            _ if !self.has_its_seam(sharding) => Err(Refusal::bare(23)),
            answer => answer,
        }
    }

    /// As [`Pair::answer`], of a call that writes.
    fn answer_writing<N: Clone>(
        &self,
        sharding: &Sharding,
        out: &mut [N],
        call: impl FnOnce(&[u8], &mut [N]) -> Result<usize, Refusal>,
    ) -> Result<usize, Refusal> {
        let mut written = out.to_vec();
        let length = self.answer(sharding, |file| call(file, &mut written))?;
        out.clone_from_slice(&written);
        Ok(length)
    }

    /// Whether the pair is sound.
    pub fn check(&self, sharding: &Sharding, number: u64) -> Result<(), Refusal> {
        self.answer(sharding, |file| shard::check(sharding, number, file))
    }

    /// The chunk of an id, with its place in the joined file.
    pub fn lookup(&self, sharding: &Sharding, number: u64, id: u64) -> Result<Entry, Refusal> {
        self.answer(sharding, |file| shard::lookup(sharding, number, id, file))
    }

    /// The bytes of the data file at a place in the joined file.
    pub fn data_bytes(&self, start: u64, length: u64) -> &'a [u8] {
        let start = start as usize - self.index.len();
        &self.data[start..][..length as usize]
    }

    /// The fragment of a node, with its place in the joined file.
    pub fn fragment(
        &self,
        sharding: &Sharding,
        number: u64,
        id: u64,
        level: u64,
        node: u64,
    ) -> Result<Fragment, Refusal> {
        self.answer(sharding, |file| {
            shard::fragment(sharding, number, id, level, node, file)
        })
    }

    /// What all minishards list, in stored order.
    pub fn list(&self, sharding: &Sharding, number: u64) -> Result<Vec<Entry>, Refusal> {
        self.answer(sharding, |file| shard::list(sharding, number, file))
    }

    /// What a minishard lists, in stored order.
    pub fn list_minishard(
        &self,
        sharding: &Sharding,
        number: u64,
        minishard: u64,
    ) -> Result<Vec<Entry>, Refusal> {
        self.answer(sharding, |file| {
            shard::list_minishard(sharding, number, file, minishard)
        })
    }

    /// Writes that as three numbers for each chunk and gives how many these are.
    pub fn write_listing(
        &self,
        sharding: &Sharding,
        number: u64,
        minishard: u64,
        out: &mut [u64],
    ) -> Result<usize, Refusal> {
        self.answer_writing(sharding, out, |file, out| {
            shard::write_listing(sharding, number, file, minishard, out)
        })
    }

    /// How many bytes are unlisted.
    pub fn unlisted(&self, sharding: &Sharding, number: u64) -> Result<u64, Refusal> {
        self.answer(sharding, |file| unlisted::unlisted(sharding, number, file))
    }

    /// How many bytes the settled form has.
    pub fn settled_length(
        &self,
        sharding: &Sharding,
        number: u64,
        dropping: bool,
    ) -> Result<u64, Refusal> {
        self.answer(sharding, |file| {
            settle::length_of(sharding, number, file, dropping)
        })
    }

    /// Writes the settled form and gives its length.
    pub fn settle(
        &self,
        sharding: &Sharding,
        number: u64,
        dropping: bool,
        out: &mut [u8],
    ) -> Result<usize, Refusal> {
        self.answer_writing(sharding, out, |file, out| {
            settle::settle(sharding, number, file, dropping, out)
        })
    }

    /// Where the bytes of the joined file from `start` up to `end` are, or 1, 23,
    /// 6, 24. Both files could be said to hold nothing at the seam: there it is
    /// the data file.
    pub fn range(&self, sharding: &Sharding, start: u64, end: u64) -> Result<Held, u8> {
        sharding.allowed()?;
        if !self.has_its_seam(sharding) {
            return Err(23);
        }
        let seam = self.index.len() as u64;
        let all = seam + self.data.len() as u64;
        if all > MOST_SHARD_BYTES {
            return Err(6);
        }
        let held_by = |file: Range<u64>| file.start <= start && start <= end && end <= file.end;
        if held_by(seam..all) {
            Ok(Held::Data(start - seam..end - seam))
        } else if held_by(0..seam) {
            Ok(Held::Index(start..end))
        } else {
            Err(24)
        }
    }

    /// The bytes of a part.
    pub fn held_bytes(&self, held: &Held) -> &'a [u8] {
        match held {
            Held::Index(part) => &self.index[part.start as usize..part.end as usize],
            Held::Data(part) => &self.data[part.start as usize..part.end as usize],
        }
    }
}

#[cfg(test)]
mod tests {
    use super::*;
    use crate::sharding::VOLUME;

    /// One minishard in one shard.
    const ONE: Sharding = Sharding {
        preshift: 0,
        hash: 0,
        minishard_bits: 0,
        shard_bits: 0,
        kind: VOLUME,
    };

    /// Lists id 7 with the bytes `abc`, which stand right behind the shard index.
    fn file() -> Vec<u8> {
        let numbers =
            |numbers: &[u64]| -> Vec<u8> { numbers.iter().flat_map(|n| n.to_le_bytes()).collect() };
        [numbers(&[3, 27]), b"abc".to_vec(), numbers(&[7, 0, 3])].concat()
    }

    #[test]
    fn a_pair_answers_as_the_joined_file() {
        let file = file();
        let pair = Pair::cut(&file, 16);
        assert_eq!(pair.joined(), file);
        assert_eq!(pair.check(&ONE, 0), Ok(()));
        let found = pair.lookup(&ONE, 0, 7).unwrap();
        assert_eq!((found.start, found.length), (16, 3));
        assert_eq!(pair.data_bytes(found.start, found.length), b"abc");
        assert_eq!(pair.lookup(&ONE, 0, 8), Err(Refusal::bare(12)));
        assert_eq!(pair.unlisted(&ONE, 0), Ok(0));
        let mut out = [0; 43];
        assert_eq!(pair.settle(&ONE, 0, false, &mut out), Ok(43));
        assert_eq!(out[..], file);
    }

    #[test]
    fn another_seam_is_23_after_1_and_5_and_before_6() {
        let file = file();
        for seam in (0..=file.len()).filter(|seam| *seam != 16) {
            let pair = Pair::cut(&file, seam);
            assert_eq!(pair.check(&ONE, 0), Err(Refusal::bare(23)));
            assert_eq!(pair.lookup(&ONE, 0, 7), Err(Refusal::bare(23)));
            assert_eq!(pair.range(&ONE, 0, 0), Err(23));
            let mut out = [9; 43];
            assert_eq!(
                pair.settle(&ONE, 0, false, &mut out),
                Err(Refusal::bare(23))
            );
            assert_eq!(out, [9; 43]);
        }
        let short = Pair::cut(&file[..15], 15);
        assert_eq!(short.check(&ONE, 0), Err(Refusal::bare(23)));
        assert_eq!(short.check(&ONE, 1), Err(Refusal::bare(5)));
        let listed = |number, minishard| short.list_minishard(&ONE, number, minishard);
        assert_eq!(listed(1, 1), Err(Refusal::bare(5)));
        assert_eq!(listed(0, 1), Err(Refusal::bare(33)));
        assert_eq!(listed(0, 0), Err(Refusal::bare(23)));
        let none = Sharding { hash: 2, ..ONE };
        assert_eq!(short.check(&none, 1), Err(Refusal::bare(1)));
        assert_eq!(short.range(&none, 0, 0), Err(1));
    }

    #[test]
    fn ranges() {
        let file = file();
        let pair = Pair::cut(&file, 16);
        let held = |start, end| pair.range(&ONE, start, end);
        assert_eq!(held(0, 16), Ok(Held::Index(0..16)));
        assert_eq!(held(0, 0), Ok(Held::Index(0..0)));
        assert_eq!(held(15, 15), Ok(Held::Index(15..15)));
        assert_eq!(held(16, 16), Ok(Held::Data(0..0)));
        assert_eq!(held(16, 19), Ok(Held::Data(0..3)));
        assert_eq!(held(43, 43), Ok(Held::Data(27..27)));
        for (start, end) in [(15, 17), (0, 43), (17, 16), (16, 44), (44, 44), (1, 0)] {
            assert_eq!(held(start, end), Err(24), "{start} {end}");
        }
        assert_eq!(held(u64::MAX, u64::MAX), Err(24));
        assert_eq!(pair.held_bytes(&Held::Data(0..3)), b"abc");
    }
}
