//! From an id to its shard and minishard.

use crate::ffi;
use crate::numbers;
use crate::refusal::{given, written, Refusal};

/// A sharding specification, its fields as in a deposit card.
///
/// Any numbers may stand here; each call judges them. There is no default
/// worth assuming for a deposit: name all five, or read its card.
///
/// ```
/// use coronagamba::Sharding;
///
/// let sharding = Sharding {
///     preshift: 1,
///     hash: Sharding::IDENTITY,
///     minishard_bits: 1,
///     shard_bits: 0,
///     kind: Sharding::VOLUME,
/// };
/// assert_eq!(sharding.place(2)?.minishard, 1);
/// assert_eq!(sharding.place(3)?.minishard, 1);
/// assert_eq!(sharding.place(4)?.minishard, 0);
/// # Ok::<(), coronagamba::Refusal>(())
/// ```
#[derive(Clone, Copy, Debug, PartialEq, Eq, Hash)]
pub struct Sharding {
    /// Low bits of an id that do not count, at most 63.
    pub preshift: u8,
    /// [`IDENTITY`](Sharding::IDENTITY) or [`MURMUR`](Sharding::MURMUR).
    pub hash: u8,
    /// Low bits of the hashed id that give the minishard, at most 16.
    pub minishard_bits: u8,
    /// The next bits, which give the shard, at most 32.
    pub shard_bits: u8,
    /// [`VOLUME`](Sharding::VOLUME) or [`MESH`](Sharding::MESH). It decides what
    /// a shard holds, and nothing about the place of an id. A mesh that is
    /// settled as a volume loses its fragments.
    pub kind: u8,
}

/// The specification as C has it: wider fields, so that a caller's greater number
/// is refused with 1 and not cut off.
#[repr(C)]
#[derive(Clone, Copy)]
pub(crate) struct CSharding {
    pub preshift: u32,
    pub hash: u32,
    pub minishard_bits: u32,
    pub shard_bits: u32,
    pub kind: u32,
}

impl From<Sharding> for CSharding {
    fn from(given: Sharding) -> Self {
        CSharding {
            preshift: given.preshift.into(),
            hash: given.hash.into(),
            minishard_bits: given.minishard_bits.into(),
            shard_bits: given.shard_bits.into(),
            kind: given.kind.into(),
        }
    }
}

/// Where an id belongs.
#[derive(Clone, Copy, Debug, Default, PartialEq, Eq, Hash)]
pub struct Place {
    /// The shard number.
    pub shard: u64,
    /// The minishard number.
    pub minishard: u64,
}

impl Sharding {
    /// The hash that leaves an id as it is.
    pub const IDENTITY: u8 = numbers::HASH_IDENTITY;

    /// MurmurHash3_x86_128, its first 8 bytes.
    pub const MURMUR: u8 = numbers::HASH_MURMUR;

    /// The kind whose chunks are any bytes.
    pub const VOLUME: u8 = numbers::KIND_VOLUME;

    /// The kind whose chunks are manifests, each with its fragments right before
    /// it.
    pub const MESH: u8 = numbers::KIND_MESH;

    /// Passes exactly the allowed specifications, else refusal 1.
    ///
    /// ```
    /// use coronagamba::Sharding;
    ///
    /// let most = Sharding { preshift: 63, hash: 1, minishard_bits: 16, shard_bits: 32, kind: 1 };
    /// assert_eq!(most.allowed(), Ok(()));
    /// let more = Sharding { minishard_bits: 17, ..most };
    /// assert_eq!(more.allowed().unwrap_err().number, 1);
    /// let other = Sharding { kind: 2, ..most };
    /// assert_eq!(other.allowed().unwrap_err().number, 1);
    /// ```
    pub fn allowed(&self) -> Result<(), Refusal> {
        // Asking for the place of an id refuses with 1 and with nothing else.
        self.place(0).map(|_| ())
    }

    /// The shard and minishard of an id, or refusal 1.
    ///
    /// ```
    /// use coronagamba::{Place, Sharding};
    ///
    /// let sharding = Sharding { preshift: 0, hash: 0, minishard_bits: 1, shard_bits: 2, kind: 0 };
    /// assert_eq!(sharding.place(5)?, Place { shard: 2, minishard: 1 });
    /// # Ok::<(), coronagamba::Refusal>(())
    /// ```
    pub fn place(&self, id: u64) -> Result<Place, Refusal> {
        // SAFETY: the results are two live numbers, lent to this call alone.
        given(|Place { shard, minishard }| unsafe {
            ffi::coronagamba_place_of((*self).into(), id, shard, minishard)
        })
    }

    /// The shards and minishards of many ids, in their order, or refusal 1.
    ///
    /// ```
    /// use coronagamba::{Place, Sharding};
    ///
    /// let sharding = Sharding { preshift: 0, hash: 0, minishard_bits: 1, shard_bits: 2, kind: 0 };
    /// let places = sharding.places(&[5, 3])?;
    /// assert_eq!(places, [Place { shard: 2, minishard: 1 }, Place { shard: 1, minishard: 1 }]);
    /// # Ok::<(), coronagamba::Refusal>(())
    /// ```
    pub fn places(&self, ids: &[u64]) -> Result<Vec<Place>, Refusal> {
        let (mut shards, mut minishards) = (vec![0; ids.len()], vec![0; ids.len()]);
        self.write_places(ids, &mut shards, &mut minishards)?;
        let both = shards.into_iter().zip(minishards);
        Ok(both
            .map(|(shard, minishard)| Place { shard, minishard })
            .collect())
    }

    /// Writes the shards and minishards of many ids, in their order, to the
    /// front of the two buffers, and gives how many these are. Refusal 1, or 13
    /// where one of them is shorter than `ids`; both are then as they were.
    ///
    /// ```
    /// use coronagamba::Sharding;
    ///
    /// let sharding = Sharding { preshift: 0, hash: 0, minishard_bits: 1, shard_bits: 2, kind: 0 };
    /// let (mut shards, mut minishards) = ([9; 3], [9; 3]);
    /// assert_eq!(sharding.write_places(&[5, 3], &mut shards, &mut minishards)?, 2);
    /// assert_eq!((shards, minishards), ([2, 1, 9], [1, 1, 9]));
    /// # Ok::<(), coronagamba::Refusal>(())
    /// ```
    pub fn write_places(
        &self,
        ids: &[u64],
        shards: &mut [u64],
        minishards: &mut [u64],
    ) -> Result<usize, Refusal> {
        // SAFETY: each pointer and count are those of one live slice, the two
        // buffers and the result lent to this call alone.
        written(|length| unsafe {
            ffi::coronagamba_places_of(
                (*self).into(),
                ids.as_ptr(),
                ids.len(),
                shards.as_mut_ptr(),
                shards.len(),
                minishards.as_mut_ptr(),
                minishards.len(),
                length,
            )
        })
    }
}
