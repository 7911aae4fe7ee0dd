//! A shard as a second reading sees it: its index and the rows of its minishards.

use coronagamba::{Sharding, Span};

use super::places::MOST_MINISHARD_BITS;
use super::words::u64_at;
use crate::edition::{Bytes, Opened};

/// Bytes of an entry of the shard index: start and end.
pub const ENTRY: u64 = 16;
/// The most bytes of a shard index.
pub const MOST_INDEX_BYTES: u64 = ENTRY << MOST_MINISHARD_BITS;
/// Bytes of a chunk's entry in a minishard index: a number in each row.
pub const ROWS: u64 = 24;

/// A shard as this reading sees it.
pub struct Seen<'a> {
    pub sharding: &'a Sharding,
    pub number: u64,
    pub bytes: Bytes<'a>,
}

impl<'a> Seen<'a> {
    /// These bytes under this specification and number.
    pub fn of(sharding: &'a Sharding, number: u64, bytes: impl Into<Bytes<'a>>) -> Self {
        Seen {
            sharding,
            number,
            bytes: bytes.into(),
        }
    }

    /// The library's view of it.
    pub fn open(&self) -> Opened<'a> {
        self.bytes.open(self.sharding, self.number)
    }

    /// The number at a place.
    pub fn number_at(&self, place: u64) -> Option<u64> {
        u64_at(self.bytes.get(place..place.checked_add(8)?)?, 0)
    }

    /// How many minishards there are.
    pub fn minishards(&self) -> u64 {
        1 << self.sharding.minishard_bits.min(MOST_MINISHARD_BITS)
    }

    /// The length of the shard index, from whose end all places count.
    pub fn index_length(&self) -> u64 {
        ENTRY * self.minishards()
    }

    pub fn file_length(&self) -> u64 {
        self.bytes.len() as u64
    }

    /// Start and end of a minishard index, counted from the end of the shard
    /// index, by the entry at this byte.
    pub fn entry(&self, position: u64) -> Option<(u64, u64)> {
        Some((self.number_at(position)?, self.number_at(position + 8)?))
    }

    /// The rows of a minishard that has neither 7 nor 8: none where its entry is
    /// empty, wherever that points.
    pub fn rows(&self, minishard: u64) -> Option<Rows<'a>> {
        let base = self.index_length();
        let (start, end) = match self.entry(ENTRY * minishard)? {
            (start, end) if start == end => (base, base),
            (start, end) => (base.checked_add(start)?, base.checked_add(end)?),
        };
        Some(Rows {
            bytes: self.bytes.get(start..end)?,
            begin: start,
        })
    }
}

/// The three rows of a minishard index (scope, 'From id to shard').
pub struct Rows<'a> {
    pub bytes: &'a [u8],
    /// Where they begin in the file.
    pub begin: u64,
}

/// A row by its number.
pub const ID_STEPS: u64 = 0;
pub const START_STEPS: u64 = 1;
pub const SIZES: u64 = 2;

impl Rows<'_> {
    /// How many entries there are.
    pub fn count(&self) -> u64 {
        self.bytes.len() as u64 / ROWS
    }

    /// The byte of the file at which an entry's number in a row begins.
    pub fn place(&self, row: u64, entry: u64) -> u64 {
        self.begin + 8 * (row * self.count() + entry)
    }

    /// The entry whose number in a row begins at this byte of the file.
    pub fn entry(&self, row: u64, position: u64) -> Option<u64> {
        Some(position.checked_sub(self.place(row, 0))? / 8)
    }

    /// The numbers of a row.
    pub fn numbers(&self, row: u64) -> impl Iterator<Item = u64> + '_ {
        let number = move |entry| u64_at(self.bytes, self.place(row, entry) - self.begin);
        (0..self.count()).filter_map(number)
    }

    /// The ids: sums of the id steps modulo 2^64 (change requests, order 2).
    pub fn ids(&self) -> impl Iterator<Item = u64> + '_ {
        self.numbers(ID_STEPS).scan(0u64, |id, step| {
            *id = id.wrapping_add(step);
            Some(*id)
        })
    }

    /// The id of an entry.
    pub fn id(&self, entry: u64) -> Option<u64> {
        self.ids().nth(usize::try_from(entry).ok()?)
    }

    /// Where each chunk is, its start counted from the end of the shard index.
    pub fn spans(&self) -> impl Iterator<Item = Span> + '_ {
        let numbers = self.numbers(START_STEPS).zip(self.numbers(SIZES));
        numbers.scan(0u64, |end, (step, length)| {
            let start = end.wrapping_add(step);
            *end = start.wrapping_add(length);
            Some(Span { start, length })
        })
    }

    /// Where an entry's chunk starts, counted from the end of the shard index:
    /// the sum modulo 2^64 of the start steps so far and the sizes before.
    pub fn start(&self, entry: u64) -> u64 {
        let steps = self.numbers(START_STEPS).take(entry as usize + 1);
        let sizes = self.numbers(SIZES).take(entry as usize);
        steps.chain(sizes).fold(0, u64::wrapping_add)
    }
}
