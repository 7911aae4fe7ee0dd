//! What a shard holds, and the yearly holdings sheet over many shards.

use crate::ffi;
use crate::numbers::SHEET_ROWS;
use crate::pair::Pair;
use crate::refusal::{answer, given, Refusal};
use crate::shard::Shard;

/// What a sound shard holds, from [`Shard::measure`] or [`Pair::measure`].
#[derive(Clone, Copy, Debug, Default, PartialEq, Eq, Hash)]
pub struct Counts {
    /// How many chunks it lists.
    pub chunks: u64,
    /// Their sizes together, as stored: in a mesh those of the manifests, whose
    /// fragments are no chunks.
    pub bytes: u64,
    /// How many of its bytes are unlisted, as [`Shard::unlisted`] counts them.
    pub unlisted: u64,
    /// How many bytes its settled form has. It is [`Counts::TOO_LONG`] where that
    /// would pass 1 GiB, which settling refuses with 13.
    pub settled: u64,
}

impl Counts {
    /// What stands for the length of a settled form that is not made: one more
    /// than 1 GiB.
    pub const TOO_LONG: u64 = (1 << 30) + 1;

    fn of([chunks, bytes, unlisted, settled]: [u64; 4]) -> Self {
        Counts {
            chunks,
            bytes,
            unlisted,
            settled,
        }
    }
}

impl Shard<'_> {
    /// What a sound shard holds, refused as [`check`](Shard::check) is, then with
    /// 27 where the sizes of its chunks together pass 2^64 - 1. The shard is judged
    /// once for all four counts.
    ///
    /// ```
    /// use coronagamba::{Counts, Shard, Sharding};
    ///
    /// let rows = |numbers: &[u64]| -> Vec<u8> {
    ///     numbers.iter().flat_map(|number| number.to_le_bytes()).collect()
    /// };
    /// let sharding = Sharding { preshift: 0, hash: 0, minishard_bits: 0, shard_bits: 0, kind: 0 };
    /// // Chunks of 2 and 3 bytes, and a byte between them.
    /// let file = [rows(&[6, 54]), b"ab-cde".to_vec(), rows(&[4, 6, 0, 1, 2, 3])].concat();
    ///
    /// let counts = Shard::open(sharding, 0, &file).measure()?;
    /// assert_eq!(counts, Counts { chunks: 2, bytes: 5, unlisted: 1, settled: 69 });
    /// # Ok::<(), coronagamba::Refusal>(())
    /// ```
    pub fn measure(&self) -> Result<Counts, Refusal> {
        // SAFETY: pointer and count are those of one live slice; the result is
        // a live array, lent to this call alone.
        given(|counts| unsafe {
            ffi::coronagamba_measure(
                self.sharding.into(),
                self.number,
                self.file.as_ptr(),
                self.file.len(),
                counts,
            )
        })
        .map(Counts::of)
    }
}

impl Pair<'_> {
    /// What a sound pair holds, refused as [`check`](Pair::check) is, then with 27
    /// where the sizes of its chunks together pass 2^64 - 1. The pair is judged
    /// once for all four counts.
    pub fn measure(&self) -> Result<Counts, Refusal> {
        // SAFETY: each pointer and count are those of one live slice; the
        // result is a live array, lent to this call alone.
        given(|counts| unsafe {
            ffi::coronagamba_pair_measure(
                self.sharding().into(),
                self.number(),
                self.index().as_ptr(),
                self.index().len(),
                self.data().as_ptr(),
                self.data().len(),
                counts,
            )
        })
        .map(Counts::of)
    }
}

/// The yearly holdings sheet: shards sound, shards refused for each number that
/// the check gives, and over the sound ones chunks listed, the sum of their sizes
/// and unlisted bytes. It is plain numbers, and the default is the empty sheet.
///
/// Shards are added one at a time, each judged once. Where no total passes
/// 2^64 - 1, the same shards in another order give the same sheet, and sheets of
/// parts join to that of the whole.
///
/// ```
/// use coronagamba::{Shard, Sharding, Sheet};
///
/// let rows = |numbers: &[u64]| -> Vec<u8> {
///     numbers.iter().flat_map(|number| number.to_le_bytes()).collect()
/// };
/// let sharding = Sharding { preshift: 0, hash: 0, minishard_bits: 0, shard_bits: 0, kind: 0 };
/// // A shard of two chunks with a byte between them, and one that is cut short.
/// let file = [rows(&[6, 54]), b"ab-cde".to_vec(), rows(&[4, 6, 0, 1, 2, 3])].concat();
/// let (sound, cut) = (Shard::open(sharding, 0, &file), Shard::open(sharding, 0, &file[..9]));
///
/// let mut sheet = Sheet::default();
/// sheet.add(&sound)?;
/// sheet.add(&cut)?;
/// assert_eq!((sheet.sound(), sheet.refused(6), sheet.refused(7)), (1, Some(1), Some(0)));
/// assert_eq!((sheet.chunks(), sheet.bytes(), sheet.unlisted()), (2, 5, 1));
/// // The check never gives 12, so the sheet has no such row.
/// assert_eq!(sheet.refused(12), None);
///
/// let mut other = Sheet::default();
/// other.add(&cut)?;
/// other.add(&sound)?;
/// assert_eq!(other, sheet);
/// # Ok::<(), coronagamba::Refusal>(())
/// ```
#[derive(Clone, Copy, Debug, Default, PartialEq, Eq, Hash)]
pub struct Sheet {
    rows: [u64; SHEET_ROWS],
}

impl Sheet {
    /// The numbers that the check gives, in the order of their rows: 23 of a pair,
    /// 15 to 17 and 21 of a mesh.
    pub const NUMBERS: [u8; 13] = [1, 5, 6, 7, 8, 9, 10, 11, 15, 16, 17, 21, 23];

    /// The sheet of these rows, as [`rows`](Sheet::rows) gives them. Any numbers
    /// make one.
    pub fn from_rows(rows: [u64; SHEET_ROWS]) -> Self {
        Sheet { rows }
    }

    /// All rows: shards sound; shards refused, for each of [`Sheet::NUMBERS`];
    /// chunks, their bytes, unlisted bytes.
    pub fn rows(&self) -> [u64; SHEET_ROWS] {
        self.rows
    }

    /// How many shards are sound.
    pub fn sound(&self) -> u64 {
        self.rows[0]
    }

    /// How many shards the check refused with this number; `None` for a number
    /// that it never gives.
    pub fn refused(&self, number: u8) -> Option<u64> {
        let place = Sheet::NUMBERS.iter().position(|known| *known == number)?;
        Some(self.rows[1 + place])
    }

    /// How many chunks the sound shards list.
    pub fn chunks(&self) -> u64 {
        self.rows[SHEET_ROWS - 3]
    }

    /// The sizes of these chunks together, as stored.
    pub fn bytes(&self) -> u64 {
        self.rows[SHEET_ROWS - 2]
    }

    /// How many bytes of the sound shards are unlisted.
    pub fn unlisted(&self) -> u64 {
        self.rows[SHEET_ROWS - 1]
    }

    /// Adds a shard: a sound one with what it holds, another to those refused with
    /// its number. Refused is only, with 27, what would take a total past
    /// 2^64 - 1, and the sheet stays as it was.
    ///
    /// ```
    /// use coronagamba::{Refusal, Shard, Sharding, Sheet};
    ///
    /// let sharding = Sharding { preshift: 0, hash: 0, minishard_bits: 0, shard_bits: 0, kind: 0 };
    /// let empty = Shard::open(sharding, 0, &[0; 16]);
    /// let mut rows = [0; 17];
    /// rows[0] = u64::MAX;
    /// let mut sheet = Sheet::from_rows(rows);
    /// assert_eq!(sheet.add(&empty).unwrap_err().number, Refusal::TOTAL_TOO_LARGE);
    /// assert_eq!(sheet.rows(), rows);
    /// ```
    pub fn add(&mut self, shard: &Shard) -> Result<(), Refusal> {
        // SAFETY: pointer and count are those of one live slice; the rows are
        // a live array, lent to this call alone.
        answer(unsafe {
            ffi::coronagamba_sheet_add(
                &mut self.rows,
                shard.sharding.into(),
                shard.number,
                shard.file.as_ptr(),
                shard.file.len(),
            )
        })
    }

    /// Adds a pair, as [`add`](Sheet::add) adds a shard.
    pub fn add_pair(&mut self, pair: &Pair) -> Result<(), Refusal> {
        // SAFETY: each pointer and count are those of one live slice; the rows
        // are a live array, lent to this call alone.
        answer(unsafe {
            ffi::coronagamba_pair_sheet_add(
                &mut self.rows,
                pair.sharding().into(),
                pair.number(),
                pair.index().as_ptr(),
                pair.index().len(),
                pair.data().as_ptr(),
                pair.data().len(),
            )
        })
    }

    /// Adds the sheet of other shards, row by row, refused with 27 as
    /// [`add`](Sheet::add) is; then this sheet stays as it was.
    ///
    /// ```
    /// use coronagamba::{Shard, Sharding, Sheet};
    ///
    /// let sharding = Sharding { preshift: 0, hash: 0, minishard_bits: 0, shard_bits: 0, kind: 0 };
    /// let (mut whole, mut parts) = (Sheet::default(), [Sheet::default(); 2]);
    /// for (place, file) in [&[0; 16][..], &[0; 15], &[0; 20]].iter().enumerate() {
    ///     let shard = Shard::open(sharding, 0, file);
    ///     whole.add(&shard)?;
    ///     parts[place % 2].add(&shard)?;
    /// }
    /// let [mut sheet, other] = parts;
    /// sheet.join(&other)?;
    /// assert_eq!(sheet, whole);
    /// # Ok::<(), coronagamba::Refusal>(())
    /// ```
    pub fn join(&mut self, other: &Sheet) -> Result<(), Refusal> {
        // SAFETY: both are live arrays, and the one that is written is lent to
        // this call alone.
        answer(unsafe { ffi::coronagamba_sheet_join(&mut self.rows, &other.rows) })
    }
}
