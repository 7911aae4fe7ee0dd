//! The two editions of a shard: one file, or in the earlier one a pair, an index
//! file and a data file. The two files of a pair are never joined: the library
//! takes them as they are.

use std::ops::Range;
use std::path::{Path, PathBuf};

use coronagamba::{Counts, Listed, Pair, Refusal, Shard, Sharding, Sheet, Span, Unlisted};

use crate::fault::Fault;
use crate::files::{length_and_change, read_front, read_into};

/// The most bytes that are read of an index file: one more than a shard index may
/// have, 16 for each of 65,536 minishards, so that the library sees that it is too
/// long and gives 23.
const MOST_INDEX_BYTES: u64 = 16 * (1 << 16) + 1;

/// The files of a shard.
#[derive(Clone, Debug, PartialEq, Eq, PartialOrd, Ord)]
pub struct Source {
    /// The file; of a pair the index file, by which it is named.
    pub path: PathBuf,
    /// The data file of a pair.
    pub data: Option<PathBuf>,
}

impl Source {
    /// A shard in one file.
    pub fn file(path: &Path) -> Self {
        Source {
            path: path.to_path_buf(),
            data: None,
        }
    }

    /// A pair.
    pub fn pair(index: PathBuf, data: PathBuf) -> Self {
        Source {
            path: index,
            data: Some(data),
        }
    }

    /// The one or two files.
    pub fn paths(&self) -> impl Iterator<Item = &Path> {
        [Some(&self.path), self.data.as_ref()]
            .into_iter()
            .flatten()
            .map(PathBuf::as_path)
    }

    /// How many bytes reading them will ask for at first.
    pub fn length_to_read(&self) -> u64 {
        self.length_and_change().0
    }

    /// The same, and a number that another time of change makes another one.
    pub fn length_and_change(&self) -> (u64, u64) {
        let (length, changed) = length_and_change(&self.path);
        let Some(data) = &self.data else {
            return (length, changed);
        };
        let (data, data_changed) = length_and_change(data);
        let changed = both_changes(changed, data_changed);
        (length.min(MOST_INDEX_BYTES) + data, changed)
    }
}

/// One number for the times of change of two files. They do not change places.
pub fn both_changes(first: u64, second: u64) -> u64 {
    first.wrapping_mul(31).wrapping_add(second)
}

/// The files of a shard in memory.
#[derive(Debug, Default)]
pub struct Loaded {
    /// The file, or the data file.
    file: Vec<u8>,
    /// The index file of a pair.
    index: Option<Vec<u8>>,
}

impl Loaded {
    /// Nothing yet, with memory for a file of so many bytes.
    #[cfg(test)]
    pub fn with_capacity(bytes: usize) -> Self {
        Loaded {
            file: Vec::with_capacity(bytes),
            index: None,
        }
    }

    /// A shard's files.
    pub fn of(source: &Source) -> Result<Self, Fault> {
        let mut loaded = Loaded::default();
        loaded.read(source)?;
        Ok(loaded)
    }

    /// Reads a shard's files in place of what was held. Memory that is used again
    /// spares the system from clearing new pages for each file.
    pub fn read(&mut self, source: &Source) -> Result<(), Fault> {
        self.file.clear();
        let Some(data) = &source.data else {
            self.index = None;
            return read_into(&source.path, &mut self.file);
        };
        let index = self.index.get_or_insert_default();
        read_front(&source.path, index, MOST_INDEX_BYTES)?;
        read_into(data, &mut self.file)
    }

    /// Forgets the files and keeps the memory.
    pub fn clear(&mut self) {
        self.file.clear();
        self.index = None;
    }

    /// The memory of the file, for bytes that are no shard's yet.
    pub fn memory(&mut self) -> &mut Vec<u8> {
        self.clear();
        &mut self.file
    }

    /// What was read.
    pub fn bytes(&self) -> Bytes<'_> {
        match &self.index {
            None => Bytes::One(&self.file),
            Some(index) => Bytes::Two {
                index,
                data: &self.file,
            },
        }
    }

    /// How many bytes of memory are held.
    pub fn capacity(&self) -> usize {
        self.file.capacity() + self.index.as_ref().map_or(0, Vec::capacity)
    }
}

/// The bytes of a shard.
#[derive(Clone, Copy, Debug)]
pub enum Bytes<'a> {
    /// Of its file.
    One(&'a [u8]),
    /// Of its index file and of its data file.
    Two {
        /// The index file.
        index: &'a [u8],
        /// The data file.
        data: &'a [u8],
    },
}

impl<'a, T: AsRef<[u8]> + ?Sized> From<&'a T> for Bytes<'a> {
    fn from(file: &'a T) -> Self {
        Bytes::One(file.as_ref())
    }
}

impl<'a> Bytes<'a> {
    /// The library's view of them, under this specification and number.
    pub fn open(self, sharding: &Sharding, number: u64) -> Opened<'a> {
        match self {
            Bytes::One(file) => Opened::Shard(Shard::open(*sharding, number, file)),
            Bytes::Two { index, data } => Opened::Pair(Pair::open(*sharding, number, index, data)),
        }
    }

    /// How many there are, of a pair in both files together.
    pub fn len(self) -> usize {
        match self {
            Bytes::One(file) => file.len(),
            Bytes::Two { index, data } => index.len() + data.len(),
        }
    }

    /// Some of them, counted from the start of the file, of a pair from the start
    /// of the index file; `None` where they are not there, or in no one file.
    pub fn get(self, range: Range<u64>) -> Option<&'a [u8]> {
        let (file, before) = match self {
            Bytes::One(file) => (file, 0),
            Bytes::Two { index, .. } if range.start < index.len() as u64 => (index, 0),
            Bytes::Two { index, data } => (data, index.len() as u64),
        };
        let place = |byte: u64| usize::try_from(byte.checked_sub(before)?).ok();
        file.get(place(range.start)?..place(range.end)?)
    }

    /// The bytes of a place that the library gave.
    pub fn part(self, Span { start, length }: Span) -> &'a [u8] {
        let part = self.get(start..start + length);
        part.expect("the library gives places that are there")
    }
}

/// A shard of either edition, as the library takes it.
pub enum Opened<'a> {
    /// In one file.
    Shard(Shard<'a>),
    /// In two.
    Pair(Pair<'a>),
}

/// Asks a shard of whichever edition.
macro_rules! ask {
    ($opened:ident, $shard:ident => $answer:expr) => {
        match $opened {
            Opened::Shard($shard) => $answer,
            Opened::Pair($shard) => $answer,
        }
    };
}

impl<'a> Opened<'a> {
    /// Whether it is sound.
    pub fn check(&self) -> Result<(), Refusal> {
        ask!(self, shard => shard.check())
    }

    /// Where an id's chunk is.
    pub fn lookup(&self, id: u64) -> Result<Span, Refusal> {
        ask!(self, shard => shard.lookup(id))
    }

    /// An id's chunk.
    pub fn chunk(&self, id: u64) -> Result<&'a [u8], Refusal> {
        ask!(self, shard => shard.chunk(id))
    }

    /// The fragment of a node.
    pub fn fragment(&self, id: u64, level: u64, node: u64) -> Result<&'a [u8], Refusal> {
        ask!(self, shard => shard.fragment(id, level, node))
    }

    /// How many chunks a minishard lists.
    pub fn listed_count(&self, minishard: u64) -> Result<u64, Refusal> {
        ask!(self, shard => shard.listed_count(minishard))
    }

    /// Writes id, start and length of each of them.
    pub fn write_listing(&self, minishard: u64, out: &mut [u64]) -> Result<usize, Refusal> {
        ask!(self, shard => shard.write_listing(minishard, out))
    }

    /// The chunks that a minishard lists.
    pub fn listing(&self, minishard: u64) -> Result<Vec<Listed>, Refusal> {
        ask!(self, shard => shard.listing(minishard))
    }

    /// How many bytes nothing lists.
    pub fn unlisted(&self) -> Result<u64, Refusal> {
        ask!(self, shard => shard.unlisted())
    }

    /// What it holds, judged once.
    pub fn measure(&self) -> Result<Counts, Refusal> {
        ask!(self, shard => shard.measure())
    }

    /// Adds it to a sheet, judged once.
    pub fn add_to(&self, sheet: &mut Sheet) -> Result<(), Refusal> {
        match self {
            Opened::Shard(shard) => sheet.add(shard),
            Opened::Pair(pair) => sheet.add_pair(pair),
        }
    }

    /// The length of its settled form.
    pub fn settled_length(&self, unlisted: Unlisted) -> Result<u64, Refusal> {
        ask!(self, shard => shard.settled_length(unlisted))
    }

    /// Writes its settled form.
    pub fn settle(&self, unlisted: Unlisted, out: &mut [u8]) -> Result<usize, Refusal> {
        ask!(self, shard => shard.settle(unlisted, out))
    }
}

#[cfg(test)]
mod tests {
    use super::*;
    use crate::trial::Folder;

    #[test]
    fn bytes_of_two_files() {
        let (index, data) = (&b"0123"[..], &b"456"[..]);
        let two = Bytes::Two { index, data };
        let one = Bytes::from(b"0123456");
        assert_eq!((two.len(), one.len()), (7, 7));
        for start in 0..10 {
            for end in 0..10 {
                let crosses = start < 4 && end > 4;
                let expected = one.get(start..end).filter(|_| !crosses);
                assert_eq!(two.get(start..end), expected, "{start} {end}");
            }
        }
        assert_eq!(two.get(4..4).map(<[u8]>::as_ptr), Some(data.as_ptr()));
        assert_eq!(two.get(u64::MAX..u64::MAX), None);
        assert_eq!(one.get(4..u64::MAX), None);
    }

    #[test]
    fn memory_is_used_again() {
        let folder = Folder::new("edition-memory");
        let [long, index, data] = [("long", 99), ("5.index", 16), ("5.data", 3)]
            .map(|(name, length)| folder.write(name, &vec![length; usize::from(length)]));
        let mut loaded = Loaded::of(&Source::file(&long)).unwrap();
        let held = loaded.capacity();
        let pair = Source::pair(index, data);
        assert_eq!(pair.length_to_read(), 19);
        loaded.read(&pair).unwrap();
        assert!(matches!(
            loaded.bytes(),
            Bytes::Two {
                index: [16, ..],
                data: [3, 3, 3]
            }
        ));
        assert_eq!(loaded.bytes().len(), 19);
        assert!(loaded.capacity() >= held + 16);
        loaded.read(&Source::file(&long)).unwrap();
        assert!(matches!(loaded.bytes(), Bytes::One([99, ..])));
        assert_eq!(loaded.capacity(), held);
        loaded.clear();
        assert_eq!((loaded.bytes().len(), loaded.capacity()), (0, held));
    }

    /// A file that is no index is not read to its end.
    #[test]
    fn the_front_of_an_index_file_is_enough() {
        let folder = Folder::new("edition-front");
        let data = folder.write("5.data", b"abc");
        let pair = Source::pair("/dev/zero".into(), data);
        let loaded = Loaded::of(&pair).unwrap();
        assert_eq!(loaded.bytes().len() as u64, MOST_INDEX_BYTES + 3);
    }
}
