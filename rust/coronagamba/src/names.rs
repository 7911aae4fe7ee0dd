//! Names of unsharded chunks and of the files of shards.

use crate::ffi;
use crate::grid::{Cell, Volume};
use crate::refusal::{written, Refusal};
use crate::sharding::Sharding;

/// The most bytes that a chunk name has: six numbers of at most 11 characters
/// and five marks between them.
const MOST_CHUNK_NAME_BYTES: usize = 6 * 11 + 5;

/// The most bytes that the name of a shard's file has: 8 digits and `.shard` or
/// `.index`.
const MOST_FILE_NAME_BYTES: usize = 8 + 6;

/// A name of at most so many bytes, as the call writes it.
fn text<const MOST: usize>(
    write: impl FnOnce(&mut [u8]) -> Result<usize, Refusal>,
) -> Result<String, Refusal> {
    let mut out = [0; MOST];
    let length = write(&mut out)?;
    Ok(String::from_utf8_lossy(&out[..length]).into_owned())
}

impl Volume {
    /// Writes the unsharded name of a cell to the front of `out` and gives its
    /// length, or refusal 2 or 13.
    pub fn write_chunk_name(&self, cell: Cell, out: &mut [u8]) -> Result<usize, Refusal> {
        // SAFETY: pointer and count are those of one live slice, which is lent
        // to this call alone, as is the result.
        written(|length| unsafe {
            ffi::coronagamba_chunk_name(*self, cell, out.as_mut_ptr(), out.len(), length)
        })
    }

    /// The unsharded name of a cell, or refusal 2.
    ///
    /// ```
    /// use coronagamba::Volume;
    ///
    /// let volume = Volume::new([100, 1, 1], [64, 1, 1], [-64, 0, 0]);
    /// assert_eq!(volume.chunk_name([0, 0, 0].into())?, "-64-0_0-1_0-1");
    /// assert_eq!(volume.chunk_name([1, 0, 0].into())?, "0-36_0-1_0-1");
    /// # Ok::<(), coronagamba::Refusal>(())
    /// ```
    pub fn chunk_name(&self, cell: Cell) -> Result<String, Refusal> {
        text::<MOST_CHUNK_NAME_BYTES>(|out| self.write_chunk_name(cell, out))
    }
}

impl Sharding {
    /// Writes the file name of a shard to the front of `out` and gives its
    /// length, or refusal 1, 5 or 13.
    pub fn write_shard_name(&self, shard: u64, out: &mut [u8]) -> Result<usize, Refusal> {
        // SAFETY: pointer and count are those of one live slice, which is lent
        // to this call alone, as is the result.
        written(|length| unsafe {
            ffi::coronagamba_shard_name((*self).into(), shard, out.as_mut_ptr(), out.len(), length)
        })
    }

    /// The file name of a shard, or refusal 1 or 5.
    ///
    /// ```
    /// use coronagamba::Sharding;
    ///
    /// let one = Sharding { preshift: 0, hash: 0, minishard_bits: 0, shard_bits: 0, kind: 0 };
    /// let of_bits = |shard_bits| Sharding { shard_bits, ..one };
    /// assert_eq!(of_bits(4).shard_name(10)?, "a.shard");
    /// assert_eq!(of_bits(5).shard_name(10)?, "0a.shard");
    /// assert_eq!(of_bits(0).shard_name(0)?, "0.shard");
    /// assert_eq!(of_bits(0).shard_name(1).unwrap_err().number, 5);
    /// # Ok::<(), coronagamba::Refusal>(())
    /// ```
    pub fn shard_name(&self, shard: u64) -> Result<String, Refusal> {
        text::<MOST_FILE_NAME_BYTES>(|out| self.write_shard_name(shard, out))
    }

    /// Writes the name of the index file that a shard has in the earlier edition
    /// to the front of `out` and gives its length, or refusal 1, 5 or 13.
    pub fn write_index_name(&self, shard: u64, out: &mut [u8]) -> Result<usize, Refusal> {
        // SAFETY: pointer and count are those of one live slice, which is lent
        // to this call alone, as is the result.
        written(|length| unsafe {
            ffi::coronagamba_index_name((*self).into(), shard, out.as_mut_ptr(), out.len(), length)
        })
    }

    /// The name of the index file that a shard has in the earlier edition, or
    /// refusal 1 or 5; the file beside it has the
    /// [`data_name`](Sharding::data_name).
    ///
    /// ```
    /// use coronagamba::Sharding;
    ///
    /// let one = Sharding { preshift: 0, hash: 0, minishard_bits: 0, shard_bits: 0, kind: 0 };
    /// let of_bits = |shard_bits| Sharding { shard_bits, ..one };
    /// assert_eq!(of_bits(4).index_name(10)?, "a.index");
    /// assert_eq!(of_bits(5).data_name(10)?, "0a.data");
    /// assert_eq!(of_bits(32).index_name(10)?, "0000000a.index");
    /// assert_eq!(of_bits(0).data_name(1).unwrap_err().number, 5);
    /// # Ok::<(), coronagamba::Refusal>(())
    /// ```
    pub fn index_name(&self, shard: u64) -> Result<String, Refusal> {
        text::<MOST_FILE_NAME_BYTES>(|out| self.write_index_name(shard, out))
    }

    /// Writes the name of the data file that a shard has in the earlier edition
    /// to the front of `out` and gives its length, or refusal 1, 5 or 13.
    pub fn write_data_name(&self, shard: u64, out: &mut [u8]) -> Result<usize, Refusal> {
        // SAFETY: pointer and count are those of one live slice, which is lent
        // to this call alone, as is the result.
        written(|length| unsafe {
            ffi::coronagamba_data_name((*self).into(), shard, out.as_mut_ptr(), out.len(), length)
        })
    }

    /// The name of the data file that a shard has in the earlier edition, or
    /// refusal 1 or 5; the file beside it has the
    /// [`index_name`](Sharding::index_name).
    pub fn data_name(&self, shard: u64) -> Result<String, Refusal> {
        text::<MOST_FILE_NAME_BYTES>(|out| self.write_data_name(shard, out))
    }
}
