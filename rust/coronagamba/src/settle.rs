//! Settling, and the bytes that it would lose.

use crate::ffi;
use crate::refusal::{given, written, Refusal};
use crate::shard::Shard;

/// What settling does with a shard that has unlisted bytes, which no settled form
/// keeps (see [`Shard::unlisted`]); with a [`Pair`](crate::Pair) likewise.
#[derive(Clone, Copy, Debug, PartialEq, Eq, Hash)]
pub enum Unlisted {
    /// It is refused with 22.
    Refuse,
    /// It is settled without them.
    Drop,
}

impl Unlisted {
    /// The wish as the C interface takes it.
    pub(crate) fn number(self) -> u64 {
        match self {
            Unlisted::Refuse => 0,
            Unlisted::Drop => 1,
        }
    }
}

/// The settled form of this length, as the call writes it.
pub(crate) fn form(
    length: u64,
    settle: impl FnOnce(&mut [u8]) -> Result<usize, Refusal>,
) -> Result<Vec<u8>, Refusal> {
    let mut form = vec![0; length as usize];
    settle(&mut form)?;
    Ok(form)
}

impl Shard<'_> {
    /// How many bytes of a sound shard are unlisted: they lie past the shard index
    /// in no listed chunk, no fragment and no nonempty minishard index. Refused as
    /// [`check`](Shard::check) is, without the minishard.
    ///
    /// ```
    /// use coronagamba::{Refusal, Shard, Sharding, Unlisted};
    ///
    /// let rows = |numbers: &[u64]| -> Vec<u8> {
    ///     numbers.iter().flat_map(|number| number.to_le_bytes()).collect()
    /// };
    /// let sharding = Sharding { preshift: 0, hash: 0, minishard_bits: 0, shard_bits: 0, kind: 0 };
    /// // One chunk, with a byte before it and two behind its minishard index.
    /// let file = [rows(&[3, 27]), b"-ab".to_vec(), rows(&[4, 1, 2]), b"--".to_vec()].concat();
    ///
    /// let shard = Shard::open(sharding, 0, &file);
    /// assert_eq!(shard.unlisted()?, 3);
    /// let refusal = shard.settled(Unlisted::Refuse).unwrap_err();
    /// assert_eq!(refusal.number, Refusal::UNLISTED_BYTES);
    /// let form = shard.settled(Unlisted::Drop)?;
    /// assert_eq!(form.len(), file.len() - 3);
    ///
    /// let settled = Shard::open(sharding, 0, &form);
    /// assert_eq!(settled.unlisted()?, 0);
    /// assert_eq!(settled.settled(Unlisted::Refuse)?, form);
    /// # Ok::<(), coronagamba::Refusal>(())
    /// ```
    pub fn unlisted(&self) -> Result<u64, Refusal> {
        // SAFETY: pointer and count are those of one live slice; the result is
        // a live number, lent to this call alone.
        given(|count| unsafe {
            ffi::coronagamba_unlisted(
                self.sharding.into(),
                self.number,
                self.file.as_ptr(),
                self.file.len(),
                count,
            )
        })
    }

    /// The length of the settled form, or refusal 1, 5 to 11, in a mesh 15 to 17
    /// or 21, 22 where bytes are unlisted and not to be dropped, or 13 where the
    /// form would pass 1 GiB; those of a minishard are the ones of
    /// [`check`](Shard::check), with the position and without the minishard.
    pub fn settled_length(&self, unlisted: Unlisted) -> Result<u64, Refusal> {
        // SAFETY: pointer and count are those of one live slice; the result is
        // a live number, lent to this call alone.
        given(|length| unsafe {
            ffi::coronagamba_settled_length(
                self.sharding.into(),
                self.number,
                self.file.as_ptr(),
                self.file.len(),
                unlisted.number(),
                length,
            )
        })
    }

    /// The settled form, refused as
    /// [`settled_length`](Shard::settled_length) is.
    ///
    /// Two sound shards of one specification and number have the same settled
    /// form exactly when they list the same ids with the same bytes, in a mesh
    /// those of the fragments too:
    ///
    /// ```
    /// use coronagamba::{Shard, Sharding, Unlisted};
    ///
    /// let rows = |numbers: &[u64]| -> Vec<u8> {
    ///     numbers.iter().flat_map(|number| number.to_le_bytes()).collect()
    /// };
    /// let sharding = Sharding { preshift: 0, hash: 0, minishard_bits: 1, shard_bits: 0, kind: 0 };
    /// // The same two chunks, first behind their minishard index and with a byte
    /// // between them.
    /// let one = [rows(&[0, 48, 7, 7]), rows(&[4, 6, 48, 1, 2, 3]), b"ab-cde".to_vec()].concat();
    /// let other = [rows(&[5, 53, 0, 0]), b"abcde".to_vec(), rows(&[4, 6, 0, 0, 2, 3])].concat();
    ///
    /// let form = Shard::open(sharding, 0, &one).settled(Unlisted::Drop)?;
    /// assert_eq!(form.len(), 85);
    /// assert_eq!(form, Shard::open(sharding, 0, &other).settled(Unlisted::Refuse)?);
    /// assert_eq!(form, other);
    /// # Ok::<(), coronagamba::Refusal>(())
    /// ```
    ///
    /// The form is a new `Vec`, and where there is no memory for it the
    /// program ends, as with any `Vec`. A program that must go on asks for
    /// [`settled_length`](Shard::settled_length), reserves that much in its
    /// own way and calls [`settle`](Shard::settle).
    pub fn settled(&self, unlisted: Unlisted) -> Result<Vec<u8>, Refusal> {
        let length = self.settled_length(unlisted)?;
        // What would be refused was refused, so nothing is counted again.
        form(length, |out| self.settle(Unlisted::Drop, out))
    }

    /// Writes the settled form to the front of `out` and gives its length,
    /// refused as [`settled_length`](Shard::settled_length) is, and with 13 where
    /// `out` is too short. Nothing past that length is touched, and nothing at
    /// all where it refuses.
    ///
    /// ```
    /// use coronagamba::{Shard, Sharding, Unlisted};
    ///
    /// // A shard of no chunks, with 4 bytes that no entry lists.
    /// let file = [0; 16 + 4];
    /// let sharding = Sharding { preshift: 0, hash: 0, minishard_bits: 0, shard_bits: 0, kind: 0 };
    /// let shard = Shard::open(sharding, 0, &file);
    /// let mut out = [7; 18];
    /// assert_eq!(shard.settle(Unlisted::Refuse, &mut out).unwrap_err().number, 22);
    /// assert_eq!(shard.settle(Unlisted::Drop, &mut out[..15]).unwrap_err().number, 13);
    /// assert_eq!(out, [7; 18]);
    /// assert_eq!(shard.settle(Unlisted::Drop, &mut out)?, 16);
    /// assert_eq!(out[15..], [0, 7, 7]);
    /// # Ok::<(), coronagamba::Refusal>(())
    /// ```
    pub fn settle(&self, unlisted: Unlisted, out: &mut [u8]) -> Result<usize, Refusal> {
        // SAFETY: each pointer and count are those of one live slice; `out`
        // and the result are lent to this call alone.
        written(|length| unsafe {
            ffi::coronagamba_settle(
                self.sharding.into(),
                self.number,
                self.file.as_ptr(),
                self.file.len(),
                unlisted.number(),
                out.as_mut_ptr(),
                out.len(),
                length,
            )
        })
    }
}
