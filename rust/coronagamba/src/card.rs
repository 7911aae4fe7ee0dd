//! The deposit card.

use crate::ffi;
use crate::grid::Volume;
use crate::refusal::{given, written, Refusal};
use crate::sharding::Sharding;

/// What a deposit card says. One meaning has one card.
///
/// ```
/// use coronagamba::{Card, Sharding, Volume};
///
/// let card = Card {
///     sharding: Sharding { preshift: 0, hash: 0, minishard_bits: 1, shard_bits: 2, kind: 0 },
///     volume: Volume::new([100; 3], [64; 3], [0; 3]),
/// };
/// let bytes = card.to_bytes()?;
/// assert_eq!(bytes.len(), 46);
/// assert_eq!(Card::read(&bytes)?, card);
///
/// // That of a mesh has one field more.
/// let mesh = Card { sharding: Sharding { kind: Sharding::MESH, ..card.sharding }, ..card };
/// assert_eq!(mesh.to_bytes()?, [&bytes[..], &[8, 1, 0, 1]].concat());
/// assert_eq!(Card::read(&mesh.to_bytes()?)?, mesh);
/// # Ok::<(), coronagamba::Refusal>(())
/// ```
#[derive(Clone, Copy, Debug, PartialEq, Eq, Hash)]
pub struct Card {
    /// The sharding specification.
    pub sharding: Sharding,
    /// The volume.
    pub volume: Volume,
}

/// The most bytes that a card has.
const MOST_CARD_BYTES: usize = 65;

/// A card's numbers as the library gives them: the five of the specification,
/// then volume size, chunk size and offset along x, y, z.
type Numbers = ([u8; 5], [u32; 3], [u32; 3], [i32; 3]);

/// The card of these numbers.
fn of_numbers((sharding, size, chunk, offset): Numbers) -> Card {
    let [preshift, hash, minishard_bits, shard_bits, kind] = sharding;
    Card {
        sharding: Sharding {
            preshift,
            hash,
            minishard_bits,
            shard_bits,
            kind,
        },
        volume: Volume::new(size, chunk, offset),
    }
}

impl Card {
    /// Reads a card, or refusal 14, 1, 2 or 3.
    ///
    /// ```
    /// use coronagamba::Card;
    ///
    /// let bytes = [
    ///     1, 1, 0, 0, // preshift
    ///     2, 1, 0, 1, // hash
    ///     3, 1, 0, 3, // minishard bits
    ///     4, 1, 0, 9, // shard bits
    ///     5, 12, 0, 100, 0, 0, 0, 1, 0, 0, 0, 1, 0, 0, 0, // volume size
    ///     6, 12, 0, 64, 0, 0, 0, 1, 0, 0, 0, 1, 0, 0, 0, // chunk size
    /// ];
    /// let card = Card::read(&bytes)?;
    /// assert_eq!(card.sharding.shard_bits, 9);
    /// assert_eq!(card.volume.size, [100, 1, 1].into());
    /// assert_eq!(Card::read(&bytes[1..]).unwrap_err().number, 14);
    /// # Ok::<(), coronagamba::Refusal>(())
    /// ```
    pub fn read(bytes: &[u8]) -> Result<Card, Refusal> {
        // SAFETY: pointer and count are those of one live slice; the results
        // are four live arrays, lent to this call alone.
        let numbers = given(|(sharding, size, chunk, offset): &mut Numbers| unsafe {
            ffi::coronagamba_card_read(bytes.as_ptr(), bytes.len(), sharding, size, chunk, offset)
        });
        numbers.map(of_numbers)
    }

    /// Reads what the text of an info file says of its scale number `scale`,
    /// from 0, as a card of a volume; or refusal 19, 20, 1, 2 or 3.
    ///
    /// ```
    /// use coronagamba::Card;
    ///
    /// let text = br#"{"type": "image", "data_type": "uint8", "num_channels": 1,
    ///     "scales": [{"key": "8_8_8", "resolution": [8, 8, 8], "encoding": "raw",
    ///         "size": [100, 1, 1], "chunk_sizes": [[64, 1, 1]], "voxel_offset": [-64, 0, 0],
    ///         "sharding": {"@type": "neuroglancer_uint64_sharded_v1", "preshift_bits": 0,
    ///             "hash": "murmurhash3_x86_128", "minishard_bits": 3, "shard_bits": 9}}]}"#;
    /// let card = Card::read_info(text, 0)?;
    /// assert_eq!(card.sharding.shard_bits, 9);
    /// assert_eq!(card.volume.offset, [-64, 0, 0].into());
    /// assert_eq!(Card::read(&card.to_bytes()?)?, card);
    /// assert_eq!(Card::read_info(text, 1).unwrap_err().number, 20);
    /// assert_eq!(Card::read_info(&text[1..], 0).unwrap_err().number, 19);
    /// # Ok::<(), coronagamba::Refusal>(())
    /// ```
    pub fn read_info(text: &[u8], scale: u64) -> Result<Card, Refusal> {
        // SAFETY: pointer and count are those of one live slice; the results
        // are four live arrays, lent to this call alone.
        let numbers = given(|(sharding, size, chunk, offset): &mut Numbers| unsafe {
            let (from, count) = (text.as_ptr(), text.len());
            ffi::coronagamba_info_read(from, count, scale, sharding, size, chunk, offset)
        });
        numbers.map(of_numbers)
    }

    /// Writes the card to the front of `out` and gives its length, 46 or 61, of a
    /// mesh 50 or 65; or refusal 1, 2, 3 or 13.
    pub fn write(&self, out: &mut [u8]) -> Result<usize, Refusal> {
        let Card { sharding, volume } = *self;
        // SAFETY: pointer and count are those of one live slice, which is lent
        // to this call alone, as is the result.
        written(|length| unsafe {
            ffi::coronagamba_card_write(
                sharding.into(),
                volume,
                out.as_mut_ptr(),
                out.len(),
                length,
            )
        })
    }

    /// The bytes of the card, or refusal 1, 2 or 3.
    ///
    /// ```
    /// use coronagamba::{Card, Sharding, Volume};
    ///
    /// let card = Card {
    ///     sharding: Sharding { preshift: 0, hash: 0, minishard_bits: 1, shard_bits: 2, kind: 0 },
    ///     volume: Volume::new([100, 1, 1], [64, 1, 1], [-64, 0, 0]),
    /// };
    /// assert_eq!(card.to_bytes()?.len(), 61);
    /// let empty = Card { volume: Volume::default(), ..card };
    /// assert_eq!(empty.to_bytes().unwrap_err().number, 2);
    /// # Ok::<(), coronagamba::Refusal>(())
    /// ```
    pub fn to_bytes(&self) -> Result<Vec<u8>, Refusal> {
        let mut out = vec![0; MOST_CARD_BYTES];
        let length = self.write(&mut out)?;
        out.truncate(length);
        Ok(out)
    }
}
