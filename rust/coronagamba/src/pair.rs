//! Shards of the earlier edition, an index file and a data file each.

use crate::ffi;
use crate::manifest::narrowed;
use crate::numbers::FILE_INDEX;
use crate::refusal::{answer, given, written, Refusal};
use crate::settle::{form, Unlisted};
use crate::shard::{listed, Chunks, Edition, Listed, Span};
use crate::sharding::Sharding;

/// A shard of the earlier edition with its specification and number: an index
/// file, which is the shard index, and a data file with all the rest. Opening it
/// judges nothing.
///
/// All calls answer as those of a [`Shard`](crate::Shard) over the two files
/// joined, which they never are; places count from the start of the index file. One
/// refusal comes before 6, right behind 5: with 23 the index file is not exactly as
/// long as the shard index.
///
/// ```
/// use coronagamba::{Pair, Shard, Sharding, Span};
///
/// let rows = |numbers: &[u64]| -> Vec<u8> {
///     numbers.iter().flat_map(|number| number.to_le_bytes()).collect()
/// };
/// let index = rows(&[5, 53, 0, 0]);
/// let data = [b"abcde".to_vec(), rows(&[4, 6, 0, 0, 2, 3])].concat();
/// let sharding = Sharding { preshift: 0, hash: 0, minishard_bits: 1, shard_bits: 0, kind: 0 };
///
/// let pair = Pair::open(sharding, 0, &index, &data);
/// pair.check()?;
/// assert_eq!(pair.lookup(10)?, Span { start: 34, length: 3 });
/// assert_eq!(pair.chunk(10)?, b"cde");
/// assert_eq!(pair.chunk(6).unwrap_err().number, 12);
///
/// let joined = [&index[..], &data].concat();
/// let shard = Shard::open(sharding, 0, &joined);
/// assert_eq!(pair.lookup(10), shard.lookup(10));
/// assert_eq!(pair.listing(0), shard.listing(0));
///
/// let short = Pair::open(sharding, 0, &index[..16], &data);
/// assert_eq!(short.check().unwrap_err().number, 23);
/// # Ok::<(), coronagamba::Refusal>(())
/// ```
#[derive(Clone, Copy, Debug)]
pub struct Pair<'a> {
    sharding: Sharding,
    number: u64,
    index: &'a [u8],
    data: &'a [u8],
}

/// One of the two files of a pair.
#[derive(Clone, Copy, Debug, PartialEq, Eq, Hash)]
pub enum Half {
    /// The index file.
    Index,
    /// The data file.
    Data,
}

/// Where a range of the joined file is.
#[derive(Clone, Copy, Debug, PartialEq, Eq, Hash)]
pub struct Held {
    /// The file that holds it whole.
    pub file: Half,
    /// Where it starts, counted from the start of that file.
    pub start: u64,
    /// How many bytes it has.
    pub length: u64,
}

impl<'a> Pair<'a> {
    /// The shard of this specification and number in these two files.
    pub fn open(sharding: Sharding, number: u64, index: &'a [u8], data: &'a [u8]) -> Self {
        Pair {
            sharding,
            number,
            index,
            data,
        }
    }

    /// The specification.
    pub fn sharding(&self) -> Sharding {
        self.sharding
    }

    /// The shard number.
    pub fn number(&self) -> u64 {
        self.number
    }

    /// The index file's bytes.
    pub fn index(&self) -> &'a [u8] {
        self.index
    }

    /// The data file's bytes.
    pub fn data(&self) -> &'a [u8] {
        self.data
    }

    /// The place and length of an id's chunk in the joined file, refused as
    /// [`Shard::lookup`](crate::Shard::lookup) is, and with 23.
    pub fn lookup(&self, id: u64) -> Result<Span, Refusal> {
        // SAFETY: each pointer and count are those of one live slice; the
        // results are two live numbers, lent to this call alone.
        given(|Span { start, length }| unsafe {
            ffi::coronagamba_pair_lookup(
                self.sharding.into(),
                self.number,
                self.index.as_ptr(),
                self.index.len(),
                self.data.as_ptr(),
                self.data.len(),
                id,
                start,
                length,
            )
        })
    }

    /// An id's chunk, as the part of the data file, refused as
    /// [`lookup`](Pair::lookup) is.
    pub fn chunk(&self, id: u64) -> Result<&'a [u8], Refusal> {
        Ok(self.part(self.lookup(id)?))
    }

    /// The place and length of the fragment of a node in the joined file, by the
    /// id of its manifest, its level and its number, refused as
    /// [`Shard::lookup_fragment`](crate::Shard::lookup_fragment) is, and with 23.
    pub fn lookup_fragment(&self, id: u64, level: u64, node: u64) -> Result<Span, Refusal> {
        // SAFETY: each pointer and count are those of one live slice; the
        // results are two live numbers, lent to this call alone.
        given(|Span { start, length }| unsafe {
            ffi::coronagamba_pair_fragment(
                self.sharding.into(),
                self.number,
                self.index.as_ptr(),
                self.index.len(),
                self.data.as_ptr(),
                self.data.len(),
                id,
                narrowed(level),
                narrowed(node),
                start,
                length,
            )
        })
    }

    /// The fragment of a node, as the part of the data file, refused as
    /// [`lookup_fragment`](Pair::lookup_fragment) is.
    ///
    /// ```
    /// use coronagamba::{Pair, Sharding};
    ///
    /// // A manifest of one level with two nodes; their fragments have 4 and 3 bytes.
    /// let mut items = vec![1f32.to_bits(); 6]; // shape and origin
    /// items.extend([1, 0, 0, 0, 0, 2]); // level count, scale, vertex offset, node count
    /// items.extend([0, 1, 0, 0, 0, 0, 4, 3]); // two nodes: all x, y, z, all sizes
    /// let manifest: Vec<u8> = items.iter().flat_map(|item| item.to_le_bytes()).collect();
    /// let rows = |numbers: &[u64]| -> Vec<u8> {
    ///     numbers.iter().flat_map(|number| number.to_le_bytes()).collect()
    /// };
    /// let index = rows(&[87, 111]);
    /// let data = [b"nearfar".to_vec(), manifest, rows(&[9, 7, 80])].concat();
    /// let mesh = Sharding { preshift: 0, hash: 0, minishard_bits: 0, shard_bits: 0, kind: 1 };
    ///
    /// let pair = Pair::open(mesh, 0, &index, &data);
    /// assert_eq!(pair.fragment(9, 0, 1)?, b"far");
    /// assert_eq!(pair.fragment(9, 0, 2).unwrap_err().number, 18);
    /// # Ok::<(), coronagamba::Refusal>(())
    /// ```
    pub fn fragment(&self, id: u64, level: u64, node: u64) -> Result<&'a [u8], Refusal> {
        Ok(self.part(self.lookup_fragment(id, level, node)?))
    }

    /// The bytes at a place that the library gave: no chunk and no fragment
    /// begins before the seam.
    pub(crate) fn part(&self, span: Span) -> &'a [u8] {
        let start = span.start as usize - self.index.len();
        &self.data[start..][..span.length as usize]
    }

    /// Passes exactly the sound pairs, refused as
    /// [`Shard::check`](crate::Shard::check) is, and with 23. The position counts
    /// from the start of the index file.
    ///
    /// ```
    /// use coronagamba::{Pair, Refusal, Sharding};
    ///
    /// let rows = |numbers: &[u64]| -> Vec<u8> {
    ///     numbers.iter().flat_map(|number| number.to_le_bytes()).collect()
    /// };
    /// let sharding = Sharding { preshift: 0, hash: 0, minishard_bits: 0, shard_bits: 0, kind: 0 };
    /// // The second id step, byte 13 of the data file, should not be 0.
    /// let index = rows(&[5, 53]);
    /// let data = [b"abcde".to_vec(), rows(&[4, 0, 0, 0, 2, 3])].concat();
    /// let refusal = Pair::open(sharding, 0, &index, &data).check().unwrap_err();
    /// assert_eq!((refusal.number, refusal.position), (Refusal::ID_TWICE, Some(16 + 13)));
    ///
    /// // A byte that belongs to the data file stands in the index file.
    /// let joined = [&index[..], &data].concat();
    /// let (index, data) = joined.split_at(17);
    /// let refusal = Pair::open(sharding, 0, index, data).check().unwrap_err();
    /// assert_eq!(refusal.number, Refusal::INDEX_FILE_LENGTH);
    /// ```
    pub fn check(&self) -> Result<(), Refusal> {
        // SAFETY: each pointer and count are those of one live slice.
        answer(unsafe {
            ffi::coronagamba_pair_check(
                self.sharding.into(),
                self.number,
                self.index.as_ptr(),
                self.index.len(),
                self.data.as_ptr(),
                self.data.len(),
            )
        })
    }

    /// How many chunks a minishard lists, refused as
    /// [`Shard::listed_count`](crate::Shard::listed_count) is, and with 23.
    pub fn listed_count(&self, minishard: u64) -> Result<u64, Refusal> {
        // SAFETY: each pointer and count are those of one live slice; the
        // result is a live number, lent to this call alone.
        given(|chunks| unsafe {
            ffi::coronagamba_pair_listed_count(
                self.sharding.into(),
                self.number,
                self.index.as_ptr(),
                self.index.len(),
                self.data.as_ptr(),
                self.data.len(),
                minishard,
                chunks,
            )
        })
    }

    /// Writes id, start in the joined file and length of each chunk that a
    /// minishard lists, in stored order, to the front of `out` and gives how many
    /// numbers these are; refused as [`listed_count`](Pair::listed_count) is, then
    /// with 13.
    pub fn write_listing(&self, minishard: u64, out: &mut [u64]) -> Result<usize, Refusal> {
        // SAFETY: each pointer and count are those of one live slice; `out`
        // and the result are lent to this call alone.
        written(|length| unsafe {
            ffi::coronagamba_pair_listing(
                self.sharding.into(),
                self.number,
                self.index.as_ptr(),
                self.index.len(),
                self.data.as_ptr(),
                self.data.len(),
                minishard,
                out.as_mut_ptr(),
                out.len(),
                length,
            )
        })
    }

    /// The chunks that a minishard lists, in stored order, with their places in
    /// the joined file, refused as [`listed_count`](Pair::listed_count) is.
    pub fn listing(&self, minishard: u64) -> Result<Vec<Listed>, Refusal> {
        let count = self.listed_count(minishard)?;
        listed(count, |out| self.write_listing(minishard, out))
    }

    /// All chunks of a sound pair: the minishards in number order, the chunks of
    /// each in stored order, their bytes as parts of the data file. The
    /// [`check`](Pair::check) comes first, and refuses a pair that is not sound.
    ///
    /// ```
    /// # use coronagamba::{Pair, Sharding};
    /// # let rows = |numbers: &[u64]| -> Vec<u8> {
    /// #     numbers.iter().flat_map(|number| number.to_le_bytes()).collect()
    /// # };
    /// # let index = rows(&[5, 53, 0, 0]);
    /// # let data = [b"abcde".to_vec(), rows(&[4, 6, 0, 0, 2, 3])].concat();
    /// # let sharding = Sharding { preshift: 0, hash: 0, minishard_bits: 1, shard_bits: 0, kind: 0 };
    /// let pair = Pair::open(sharding, 0, &index, &data);
    /// let mut all = Vec::new();
    /// for chunk in pair.chunks()? {
    ///     all.push((chunk.id, chunk.span.start, chunk.bytes));
    /// }
    /// assert_eq!(all, [(4, 32, &b"ab"[..]), (10, 34, &b"cde"[..])]);
    /// # Ok::<(), coronagamba::Refusal>(())
    /// ```
    pub fn chunks(&self) -> Result<Chunks<'a>, Refusal> {
        self.check()?;
        Chunks::of(Edition::Pair(*self))
    }

    /// How many bytes of a sound pair are unlisted: they lie in the data file in
    /// no listed chunk, no fragment and no nonempty minishard index. Refused as
    /// [`check`](Pair::check) is, without the minishard.
    pub fn unlisted(&self) -> Result<u64, Refusal> {
        // SAFETY: each pointer and count are those of one live slice; the
        // result is a live number, lent to this call alone.
        given(|count| unsafe {
            ffi::coronagamba_pair_unlisted(
                self.sharding.into(),
                self.number,
                self.index.as_ptr(),
                self.index.len(),
                self.data.as_ptr(),
                self.data.len(),
                count,
            )
        })
    }

    /// The length of the settled form, which is one file, refused as
    /// [`Shard::settled_length`](crate::Shard::settled_length) is, and with 23.
    pub fn settled_length(&self, unlisted: Unlisted) -> Result<u64, Refusal> {
        // SAFETY: each pointer and count are those of one live slice; the
        // result is a live number, lent to this call alone.
        given(|length| unsafe {
            ffi::coronagamba_pair_settled_length(
                self.sharding.into(),
                self.number,
                self.index.as_ptr(),
                self.index.len(),
                self.data.as_ptr(),
                self.data.len(),
                unlisted.number(),
                length,
            )
        })
    }

    /// The settled form, refused as [`settled_length`](Pair::settled_length) is. It
    /// is one file: that of the shard in the present edition, and the same that the
    /// two files joined would settle to.
    ///
    /// ```
    /// use coronagamba::{Pair, Shard, Sharding, Unlisted};
    ///
    /// let rows = |numbers: &[u64]| -> Vec<u8> {
    ///     numbers.iter().flat_map(|number| number.to_le_bytes()).collect()
    /// };
    /// let sharding = Sharding { preshift: 0, hash: 0, minishard_bits: 1, shard_bits: 0, kind: 0 };
    /// // Two chunks behind their minishard index, with a byte between them.
    /// let index = rows(&[0, 48, 7, 7]);
    /// let data = [rows(&[4, 6, 48, 1, 2, 3]), b"ab-cde".to_vec()].concat();
    ///
    /// let pair = Pair::open(sharding, 0, &index, &data);
    /// assert_eq!(pair.unlisted()?, 1);
    /// assert_eq!(pair.settled(Unlisted::Refuse).unwrap_err().number, 22);
    /// let form = pair.settled(Unlisted::Drop)?;
    /// assert_eq!(form.len(), 85);
    /// assert_eq!(Shard::open(sharding, 0, &form).chunk(10)?, pair.chunk(10)?);
    /// # Ok::<(), coronagamba::Refusal>(())
    /// ```
    ///
    /// The form is a new `Vec`; where there is no memory for it, see
    /// [`Shard::settled`](crate::Shard::settled).
    pub fn settled(&self, unlisted: Unlisted) -> Result<Vec<u8>, Refusal> {
        let length = self.settled_length(unlisted)?;
        // What would be refused was refused, so nothing is counted again.
        form(length, |out| self.settle(Unlisted::Drop, out))
    }

    /// Writes the settled form to the front of `out` and gives its length, refused
    /// as [`settled_length`](Pair::settled_length) is, and with 13 where `out` is
    /// too short. Nothing past that length is touched, and nothing at all where it
    /// refuses.
    pub fn settle(&self, unlisted: Unlisted, out: &mut [u8]) -> Result<usize, Refusal> {
        // SAFETY: each pointer and count are those of one live slice; `out`
        // and the result are lent to this call alone.
        written(|length| unsafe {
            ffi::coronagamba_pair_settle(
                self.sharding.into(),
                self.number,
                self.index.as_ptr(),
                self.index.len(),
                self.data.as_ptr(),
                self.data.len(),
                unlisted.number(),
                out.as_mut_ptr(),
                out.len(),
                length,
            )
        })
    }

    /// Which file holds the bytes of the joined file from `start` up to `end`, end
    /// excluded, and where in that file they are; or refusal 1, 23, 6, or 24 where
    /// the range crosses the seam, is reversed or passes the end. An empty range at
    /// the seam is the data file's. No minishard is judged, and the shard number is
    /// not asked for.
    ///
    /// ```
    /// use coronagamba::{Half, Held, Pair, Refusal, Sharding};
    ///
    /// let sharding = Sharding { preshift: 0, hash: 0, minishard_bits: 0, shard_bits: 0, kind: 0 };
    /// let pair = Pair::open(sharding, 0, &[0; 16], b"abcde");
    /// let held = |file, start, length| Ok(Held { file, start, length });
    /// assert_eq!(pair.locate_range(8, 16), held(Half::Index, 8, 8));
    /// assert_eq!(pair.locate_range(16, 16), held(Half::Data, 0, 0));
    /// assert_eq!(pair.locate_range(17, 21), held(Half::Data, 1, 4));
    /// for (start, end) in [(15, 17), (4, 3), (17, 22)] {
    ///     let refusal = pair.locate_range(start, end).unwrap_err();
    ///     assert_eq!(refusal.number, Refusal::NO_SUCH_RANGE);
    /// }
    /// ```
    pub fn locate_range(&self, start: u64, end: u64) -> Result<Held, Refusal> {
        // SAFETY: each pointer and count are those of one live slice; the
        // results are three live numbers, lent to this call alone.
        let found = given(
            |(
                file,
                Span {
                    start: place,
                    length,
                },
            ): &mut (u32, Span)| unsafe {
                ffi::coronagamba_pair_range(
                    self.sharding.into(),
                    self.index.as_ptr(),
                    self.index.len(),
                    self.data.as_ptr(),
                    self.data.len(),
                    start,
                    end,
                    file,
                    place,
                    length,
                )
            },
        );
        found.map(|(file, Span { start, length })| Held {
            file: if file == FILE_INDEX {
                Half::Index
            } else {
                Half::Data
            },
            start,
            length,
        })
    }

    /// The bytes of the joined file from `start` up to `end`, end excluded, as the
    /// part of the file that holds them, refused as
    /// [`locate_range`](Pair::locate_range) is.
    ///
    /// ```
    /// use coronagamba::{Pair, Sharding};
    ///
    /// let sharding = Sharding { preshift: 0, hash: 0, minishard_bits: 0, shard_bits: 0, kind: 0 };
    /// let pair = Pair::open(sharding, 0, &[0; 16], b"abcde");
    /// assert_eq!(pair.range(0, 16)?, [0; 16]);
    /// assert_eq!(pair.range(17, 19)?, b"bc");
    /// assert_eq!(pair.range(15, 17).unwrap_err().number, 24);
    /// # Ok::<(), coronagamba::Refusal>(())
    /// ```
    pub fn range(&self, start: u64, end: u64) -> Result<&'a [u8], Refusal> {
        let held = self.locate_range(start, end)?;
        let file = match held.file {
            Half::Index => self.index,
            Half::Data => self.data,
        };
        Ok(&file[held.start as usize..][..held.length as usize])
    }
}
