//! An independent implementation of the archive's rules, in plain safe Rust.
//!
//! It follows the papers' words and looks at nothing else, so that the proved
//! library can be compared with it. Clarity comes before speed: whatever a
//! paper calls exact is computed in numbers too wide to overflow.

#![forbid(unsafe_code)]

pub mod card;
pub mod endian;
pub mod grid;
pub mod info;
pub mod intake;
pub mod json;
pub mod labels;
pub mod locate;
pub mod manifest;
pub mod murmur;
pub mod names;
pub mod pair;
pub mod settle;
pub mod shard;
pub mod sharding;
pub mod sheet;
pub mod unlisted;
pub mod vectors;

/// The most bytes that a shard or a settled form may have: 1 GiB.
pub const MOST_SHARD_BYTES: u64 = 1_073_741_824;

/// A refusal: its number in document 01's table; for 7 to 11, and in a mesh
/// shard for 15, 16, 17 and 21, the place of what offends (document 02, orders 6
/// and 7); and for these in a whole-shard check the minishard with the fault.
#[derive(Clone, Copy, Debug, PartialEq, Eq, Hash, PartialOrd, Ord)]
pub struct Refusal {
    /// The number in document 01's table.
    pub number: u8,
    /// The faulty minishard, where the rules name one.
    pub minishard: Option<u64>,
    /// The byte of the shard to look at, where the rules name one.
    pub position: Option<u64>,
}

impl Refusal {
    /// A refusal that names neither a minishard nor a position.
    pub const fn bare(number: u8) -> Self {
        Refusal {
            number,
            minishard: None,
            position: None,
        }
    }

    /// A refusal of what stands at this byte of the shard.
    pub const fn at(number: u8, position: u64) -> Self {
        Refusal {
            position: Some(position),
            ..Refusal::bare(number)
        }
    }

    /// The same refusal, found in this minishard.
    pub const fn in_minishard(self, minishard: u64) -> Self {
        Refusal {
            minishard: Some(minishard),
            ..self
        }
    }

    /// The same refusal as a call passes it on that names no minishard.
    pub const fn passed_on(self) -> Self {
        Refusal {
            minishard: None,
            ..self
        }
    }
}

impl From<u8> for Refusal {
    fn from(number: u8) -> Self {
        Refusal::bare(number)
    }
}
