//! Lookup, fragments, the whole-shard check and listings.

use crate::ffi;
use crate::manifest::narrowed;
use crate::pair::Pair;
use crate::refusal::{answer, given, written, Refusal};
use crate::sharding::Sharding;
use std::iter::FusedIterator;
use std::vec;

/// The place of a chunk or of a fragment in a shard file, or in the two files of a
/// [`Pair`] joined.
#[derive(Clone, Copy, Debug, Default, PartialEq, Eq, Hash)]
pub struct Span {
    /// Where it starts, counted from the start of the file.
    pub start: u64,
    /// How many bytes it has.
    pub length: u64,
}

/// A chunk that a minishard lists.
#[derive(Clone, Copy, Debug, Default, PartialEq, Eq, Hash)]
pub struct Listed {
    /// The chunk's id.
    pub id: u64,
    /// Its place in the file.
    pub span: Span,
}

/// A chunk of a sound shard.
#[derive(Clone, Copy, Debug, Default, PartialEq, Eq, Hash)]
pub struct Chunk<'a> {
    /// The minishard that lists it.
    pub minishard: u64,
    /// Its id.
    pub id: u64,
    /// Its place in the file.
    pub span: Span,
    /// Its bytes, as the part of the file, of a pair of the data file; in a mesh a
    /// manifest.
    pub bytes: &'a [u8],
}

/// A shard file with its specification and number, to be asked many times.
/// Opening it judges nothing.
///
/// The example is a shard of two minishards. Its shard index has the entries
/// 5 up to 53 and 0 up to 0, so the second minishard is empty. The first
/// lists ids 4 and 10.
///
/// ```
/// use coronagamba::{Shard, Sharding};
///
/// let rows = |numbers: &[u64]| -> Vec<u8> {
///     numbers.iter().flat_map(|number| number.to_le_bytes()).collect()
/// };
/// let file = [rows(&[5, 53, 0, 0]), b"abcde".to_vec(), rows(&[4, 6, 0, 0, 2, 3])].concat();
/// let sharding = Sharding { preshift: 0, hash: 0, minishard_bits: 1, shard_bits: 0, kind: 0 };
///
/// let shard = Shard::open(sharding, 0, &file);
/// shard.check()?;
/// assert_eq!(shard.chunk(4)?, b"ab");
/// assert_eq!(shard.chunk(10)?, b"cde");
/// assert_eq!(shard.chunk(6).unwrap_err().number, 12);
/// # Ok::<(), coronagamba::Refusal>(())
/// ```
#[derive(Clone, Copy, Debug)]
pub struct Shard<'a> {
    pub(crate) sharding: Sharding,
    pub(crate) number: u64,
    pub(crate) file: &'a [u8],
}

impl<'a> Shard<'a> {
    /// The shard of this specification and number in this file.
    pub fn open(sharding: Sharding, number: u64, file: &'a [u8]) -> Self {
        Shard {
            sharding,
            number,
            file,
        }
    }

    /// The specification.
    pub fn sharding(&self) -> Sharding {
        self.sharding
    }

    /// The shard number.
    pub fn number(&self) -> u64 {
        self.number
    }

    /// The file's bytes.
    pub fn file(&self) -> &'a [u8] {
        self.file
    }

    /// The place and length of an id's chunk, or refusal 1 or 5 to 12, in a mesh
    /// also 15 to 17 or 21; all of 7 to 11, 15 to 17 and 21 name a position. Of
    /// the minishards it judges the id's own alone.
    ///
    /// ```
    /// # use coronagamba::{Shard, Sharding, Span};
    /// # let rows = |numbers: &[u64]| -> Vec<u8> {
    /// #     numbers.iter().flat_map(|number| number.to_le_bytes()).collect()
    /// # };
    /// # let file = [rows(&[5, 53, 0, 0]), b"abcde".to_vec(), rows(&[4, 6, 0, 0, 2, 3])].concat();
    /// # let sharding = Sharding { preshift: 0, hash: 0, minishard_bits: 1, shard_bits: 0, kind: 0 };
    /// let shard = Shard::open(sharding, 0, &file);
    /// assert_eq!(shard.lookup(10)?, Span { start: 34, length: 3 });
    /// # Ok::<(), coronagamba::Refusal>(())
    /// ```
    pub fn lookup(&self, id: u64) -> Result<Span, Refusal> {
        // SAFETY: pointer and count are those of one live slice; the results
        // are two live numbers, lent to this call alone.
        given(|Span { start, length }| unsafe {
            ffi::coronagamba_lookup(
                self.sharding.into(),
                self.number,
                self.file.as_ptr(),
                self.file.len(),
                id,
                start,
                length,
            )
        })
    }

    /// An id's chunk, as the part of the file, refused as
    /// [`lookup`](Shard::lookup) is.
    pub fn chunk(&self, id: u64) -> Result<&'a [u8], Refusal> {
        Ok(self.part(self.lookup(id)?))
    }

    /// The place and length of the fragment of a node, by the id of its
    /// manifest, its level and its number, both counted from 0; refused as
    /// [`lookup`](Shard::lookup) is, then with 18 where there is no such node, or
    /// where the kind is volume.
    ///
    /// A manifest's fragments are the bytes right before it, one after the other
    /// in the order of its nodes. No entry of an index lists them.
    ///
    /// ```
    /// use coronagamba::{Refusal, Shard, Sharding, Span};
    ///
    /// // A manifest of one level with two nodes; their fragments have 4 and 3 bytes.
    /// let mut items = vec![1f32.to_bits(); 6]; // shape and origin
    /// items.extend([1, 0, 0, 0, 0, 2]); // level count, scale, vertex offset, node count
    /// items.extend([0, 1, 0, 0, 0, 0, 4, 3]); // two nodes: all x, y, z, all sizes
    /// let manifest: Vec<u8> = items.iter().flat_map(|item| item.to_le_bytes()).collect();
    /// assert_eq!(manifest.len(), 80);
    ///
    /// // Behind the shard index the fragments, the manifest, and the index of the one
    /// // minishard, which lists the manifest under id 9.
    /// let rows = |numbers: &[u64]| -> Vec<u8> {
    ///     numbers.iter().flat_map(|number| number.to_le_bytes()).collect()
    /// };
    /// let file = [rows(&[87, 111]), b"nearfar".to_vec(), manifest, rows(&[9, 7, 80])].concat();
    /// let mesh = Sharding { preshift: 0, hash: 0, minishard_bits: 0, shard_bits: 0, kind: 1 };
    ///
    /// let shard = Shard::open(mesh, 0, &file);
    /// shard.check()?;
    /// assert_eq!(shard.lookup(9)?, Span { start: 23, length: 80 });
    /// assert_eq!(shard.lookup_fragment(9, 0, 1)?, Span { start: 20, length: 3 });
    /// assert_eq!(shard.fragment(9, 0, 1)?, b"far");
    /// assert_eq!(shard.fragment(9, 0, 2).unwrap_err().number, Refusal::NO_SUCH_NODE);
    /// assert_eq!(shard.fragment(8, 0, 0).unwrap_err().number, Refusal::NOT_LISTED);
    ///
    /// let volume = Sharding { kind: Sharding::VOLUME, ..mesh };
    /// let refusal = Shard::open(volume, 0, &file).fragment(9, 0, 1).unwrap_err();
    /// assert_eq!(refusal.number, Refusal::NO_SUCH_NODE);
    /// # Ok::<(), coronagamba::Refusal>(())
    /// ```
    pub fn lookup_fragment(&self, id: u64, level: u64, node: u64) -> Result<Span, Refusal> {
        // SAFETY: pointer and count are those of one live slice; the results
        // are two live numbers, lent to this call alone.
        given(|Span { start, length }| unsafe {
            ffi::coronagamba_fragment(
                self.sharding.into(),
                self.number,
                self.file.as_ptr(),
                self.file.len(),
                id,
                narrowed(level),
                narrowed(node),
                start,
                length,
            )
        })
    }

    /// The fragment of a node, as the part of the file, refused as
    /// [`lookup_fragment`](Shard::lookup_fragment) is.
    pub fn fragment(&self, id: u64, level: u64, node: u64) -> Result<&'a [u8], Refusal> {
        Ok(self.part(self.lookup_fragment(id, level, node)?))
    }

    /// The bytes at a place that the library gave.
    fn part(&self, span: Span) -> &'a [u8] {
        &self.file[span.start as usize..][..span.length as usize]
    }

    /// Passes exactly the sound shards, else refusal 1 or 5 to 11, in a mesh also
    /// 15 to 17 or 21; all of 7 to 11, 15 to 17 and 21 name the first minishard
    /// with a fault, and a position.
    ///
    /// ```
    /// use coronagamba::{Refusal, Shard, Sharding};
    ///
    /// let sharding = Sharding { preshift: 0, hash: 0, minishard_bits: 1, shard_bits: 0, kind: 0 };
    /// let mut file = [0; 32];
    /// assert_eq!(Shard::open(sharding, 0, &file).check(), Ok(()));
    ///
    /// // The second entry of the shard index starts after its end.
    /// file[16] = 1;
    /// let refusal = Refusal { number: 7, minishard: Some(1), position: Some(16) };
    /// assert_eq!(Shard::open(sharding, 0, &file).check(), Err(refusal));
    /// ```
    pub fn check(&self) -> Result<(), Refusal> {
        // SAFETY: pointer and count are those of one live slice.
        answer(unsafe {
            ffi::coronagamba_check(
                self.sharding.into(),
                self.number,
                self.file.as_ptr(),
                self.file.len(),
            )
        })
    }

    /// How many chunks a minishard lists, or refusal 1, 5, 33 for a minishard that
    /// is not there, 6, or 7 to 11, 15 to 17 or 21 of that minishard with a position.
    pub fn listed_count(&self, minishard: u64) -> Result<u64, Refusal> {
        // SAFETY: pointer and count are those of one live slice; the result is
        // a live number, lent to this call alone.
        given(|chunks| unsafe {
            ffi::coronagamba_listed_count(
                self.sharding.into(),
                self.number,
                self.file.as_ptr(),
                self.file.len(),
                minishard,
                chunks,
            )
        })
    }

    /// Writes id, start and length of each chunk that a minishard lists, in
    /// stored order, to the front of `out` and gives how many numbers these
    /// are; refused as [`listed_count`](Shard::listed_count) is, then with 13.
    pub fn write_listing(&self, minishard: u64, out: &mut [u64]) -> Result<usize, Refusal> {
        // SAFETY: each pointer and count are those of one live slice; `out`
        // and the result are lent to this call alone.
        written(|length| unsafe {
            ffi::coronagamba_listing(
                self.sharding.into(),
                self.number,
                self.file.as_ptr(),
                self.file.len(),
                minishard,
                out.as_mut_ptr(),
                out.len(),
                length,
            )
        })
    }

    /// The chunks that a minishard lists, in stored order, refused as
    /// [`listed_count`](Shard::listed_count) is.
    ///
    /// ```
    /// # use coronagamba::{Shard, Sharding, Span};
    /// # let rows = |numbers: &[u64]| -> Vec<u8> {
    /// #     numbers.iter().flat_map(|number| number.to_le_bytes()).collect()
    /// # };
    /// # let file = [rows(&[5, 53, 0, 0]), b"abcde".to_vec(), rows(&[4, 6, 0, 0, 2, 3])].concat();
    /// # let sharding = Sharding { preshift: 0, hash: 0, minishard_bits: 1, shard_bits: 0, kind: 0 };
    /// let shard = Shard::open(sharding, 0, &file);
    /// let listed = shard.listing(0)?;
    /// assert_eq!((listed[0].id, listed[1].id), (4, 10));
    /// assert_eq!(listed[1].span, Span { start: 34, length: 3 });
    /// assert!(shard.listing(1)?.is_empty());
    /// assert_eq!(shard.listing(2).unwrap_err().number, 33);
    /// # Ok::<(), coronagamba::Refusal>(())
    /// ```
    pub fn listing(&self, minishard: u64) -> Result<Vec<Listed>, Refusal> {
        let count = self.listed_count(minishard)?;
        listed(count, |out| self.write_listing(minishard, out))
    }

    /// All chunks of a sound shard: the minishards in number order, the chunks
    /// of each in stored order. The [`check`](Shard::check) comes first, and
    /// refuses a shard that is not sound.
    ///
    /// ```
    /// # use coronagamba::{Shard, Sharding};
    /// # let rows = |numbers: &[u64]| -> Vec<u8> {
    /// #     numbers.iter().flat_map(|number| number.to_le_bytes()).collect()
    /// # };
    /// # let file = [rows(&[5, 53, 0, 0]), b"abcde".to_vec(), rows(&[4, 6, 0, 0, 2, 3])].concat();
    /// # let sharding = Sharding { preshift: 0, hash: 0, minishard_bits: 1, shard_bits: 0, kind: 0 };
    /// let shard = Shard::open(sharding, 0, &file);
    /// let mut all = Vec::new();
    /// for chunk in shard.chunks()? {
    ///     all.push((chunk.id, chunk.bytes));
    /// }
    /// assert_eq!(all, [(4, &b"ab"[..]), (10, &b"cde"[..])]);
    /// # Ok::<(), coronagamba::Refusal>(())
    /// ```
    pub fn chunks(&self) -> Result<Chunks<'a>, Refusal> {
        self.check()?;
        Chunks::of(Edition::Shard(*self))
    }
}

/// The listing of so many chunks, as the call writes it.
pub(crate) fn listed(
    count: u64,
    write: impl FnOnce(&mut [u64]) -> Result<usize, Refusal>,
) -> Result<Vec<Listed>, Refusal> {
    let mut numbers = vec![[0; 3]; count as usize];
    write(numbers.as_flattened_mut())?;
    let listed = |[id, start, length]: [u64; 3]| Listed {
        id,
        span: Span { start, length },
    };
    Ok(numbers.into_iter().map(listed).collect())
}

/// A shard in one file or in two.
#[derive(Clone, Copy, Debug)]
pub(crate) enum Edition<'a> {
    /// In one file.
    Shard(Shard<'a>),
    /// In an index file and a data file.
    Pair(Pair<'a>),
}

impl<'a> Edition<'a> {
    fn listing(&self, minishard: u64) -> Result<Vec<Listed>, Refusal> {
        match self {
            Edition::Shard(shard) => shard.listing(minishard),
            Edition::Pair(pair) => pair.listing(minishard),
        }
    }

    fn part(&self, span: Span) -> &'a [u8] {
        match self {
            Edition::Shard(shard) => shard.part(span),
            Edition::Pair(pair) => pair.part(span),
        }
    }
}

/// The chunks of a sound shard, from [`Shard::chunks`] or [`Pair::chunks`]. It
/// holds the listing of one minishard at a time, 24 bytes for each of its chunks.
#[derive(Clone, Debug)]
pub struct Chunks<'a> {
    shard: Edition<'a>,
    minishard: u64,
    listed: vec::IntoIter<Listed>,
}

impl<'a> Chunks<'a> {
    /// Those of a shard that has passed the check.
    pub(crate) fn of(shard: Edition<'a>) -> Result<Self, Refusal> {
        Ok(Chunks {
            shard,
            minishard: 0,
            listed: shard.listing(0)?.into_iter(),
        })
    }

    /// Goes on to the next minishard; `None` where there are no more.
    fn advance(&mut self) -> Option<()> {
        let next = self.minishard + 1;
        let listed = match self.shard.listing(next) {
            // Behind the last minishard there is none.
            Err(refusal) if refusal.number == Refusal::NO_SUCH_MINISHARD => return None,
            listed => listed.expect("the minishards of a sound shard are sound"),
        };
        self.minishard = next;
        self.listed = listed.into_iter();
        Some(())
    }
}

impl<'a> Iterator for Chunks<'a> {
    type Item = Chunk<'a>;

    fn next(&mut self) -> Option<Chunk<'a>> {
        loop {
            if let Some(Listed { id, span }) = self.listed.next() {
                return Some(Chunk {
                    minishard: self.minishard,
                    id,
                    span,
                    bytes: self.shard.part(span),
                });
            }
            self.advance()?;
        }
    }
}

impl FusedIterator for Chunks<'_> {}
