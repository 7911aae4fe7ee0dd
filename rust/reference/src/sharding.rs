//! From an id to its shard and minishard (source document 002).

use crate::murmur::murmur3_x86_128;

/// The most preshift that refusal 1 allows.
pub const MOST_PRESHIFT: u8 = 63;
/// The most minishard bits that refusal 1 allows.
pub const MOST_MINISHARD_BITS: u8 = 16;
/// The most shard bits that refusal 1 allows.
pub const MOST_SHARD_BITS: u8 = 32;
/// The number of the identity hash.
pub const IDENTITY: u8 = 0;
/// The number of MurmurHash3_x86_128.
pub const MURMUR: u8 = 1;
/// The number of the kind of shard that holds a volume's chunks.
pub const VOLUME: u8 = 0;
/// The number of the kind of shard that holds meshes (document 02, order 7).
pub const MESH: u8 = 1;

/// A sharding specification, its fields as in a card.
#[derive(Clone, Copy, Debug, PartialEq, Eq, Hash)]
pub struct Sharding {
    /// Low bits of an id that do not count.
    pub preshift: u8,
    /// 0 identity, 1 murmur.
    pub hash: u8,
    /// Low bits of the hashed id that give the minishard.
    pub minishard_bits: u8,
    /// The next bits, which give the shard.
    pub shard_bits: u8,
    /// 0 volume, 1 mesh.
    pub kind: u8,
}

/// Where an id belongs.
#[derive(Clone, Copy, Debug, PartialEq, Eq, Hash)]
pub struct Place {
    /// The shard number.
    pub shard: u64,
    /// The minishard number.
    pub minishard: u64,
}

impl Sharding {
    /// Gives 1 where a field is out of its limits.
    pub fn allowed(&self) -> Result<(), u8> {
        let fine = self.preshift <= MOST_PRESHIFT
            && (self.hash == IDENTITY || self.hash == MURMUR)
            && self.minishard_bits <= MOST_MINISHARD_BITS
            && self.shard_bits <= MOST_SHARD_BITS
            && (self.kind == VOLUME || self.kind == MESH);
        if fine {
            Ok(())
        } else {
            Err(1)
        }
    }

    /// Whether the shards hold meshes.
    pub fn is_mesh(&self) -> bool {
        self.kind == MESH
    }

    /// How many minishards a shard of an allowed specification has.
    pub fn minishard_count(&self) -> u64 {
        1 << self.minishard_bits
    }

    /// How many shards an allowed specification has.
    pub fn shard_count(&self) -> u64 {
        1 << self.shard_bits
    }

    /// How many bytes the shard index of an allowed specification has.
    pub fn index_end(&self) -> u64 {
        16 * self.minishard_count()
    }

    /// The hashed id under an allowed specification.
    pub fn hashed_id(&self, id: u64) -> u64 {
        let shifted = id >> self.preshift;
        if self.hash == IDENTITY {
            return shifted;
        }
        let hash = murmur3_x86_128(&shifted.to_le_bytes(), 0);
        u64::from_le_bytes(hash[..8].try_into().unwrap())
    }

    /// The shard and minishard of an id under an allowed specification.
    pub fn place(&self, id: u64) -> Place {
        let hashed = self.hashed_id(id);
        Place {
            minishard: hashed % self.minishard_count(),
            shard: hashed / self.minishard_count() % self.shard_count(),
        }
    }
}

/// The shard and minishard of an id, or 1.
pub fn place_of(sharding: &Sharding, id: u64) -> Result<Place, u8> {
    sharding.allowed()?;
    Ok(sharding.place(id))
}

#[cfg(test)]
mod tests {
    use super::*;

    const PLAIN: Sharding = Sharding {
        preshift: 0,
        hash: IDENTITY,
        minishard_bits: 0,
        shard_bits: 0,
        kind: VOLUME,
    };

    #[test]
    fn preshift_comes_before_the_minishard() {
        let sharding = Sharding {
            preshift: 1,
            minishard_bits: 1,
            ..PLAIN
        };
        for (id, minishard) in [(2, 1), (3, 1), (4, 0)] {
            assert_eq!(
                place_of(&sharding, id),
                Ok(Place {
                    shard: 0,
                    minishard
                })
            );
        }
    }

    #[test]
    fn shard_bits_follow_the_minishard_bits() {
        let sharding = Sharding {
            minishard_bits: 4,
            shard_bits: 8,
            ..PLAIN
        };
        assert_eq!(
            place_of(&sharding, 0xdead_beef),
            Ok(Place {
                shard: 0xee,
                minishard: 0xf
            })
        );
    }

    #[test]
    fn limits_of_refusal_1() {
        let most = Sharding {
            preshift: 63,
            hash: MURMUR,
            minishard_bits: 16,
            shard_bits: 32,
            kind: MESH,
        };
        assert_eq!(most.allowed(), Ok(()));
        let beyond = [
            Sharding {
                preshift: 64,
                ..most
            },
            Sharding { hash: 2, ..most },
            Sharding {
                minishard_bits: 17,
                ..most
            },
            Sharding {
                shard_bits: 33,
                ..most
            },
            Sharding { kind: 2, ..most },
            Sharding { kind: 255, ..most },
        ];
        for sharding in beyond {
            assert_eq!(place_of(&sharding, 0), Err(1));
        }
    }

    #[test]
    fn the_kind_moves_no_id() {
        let volume = Sharding {
            hash: MURMUR,
            minishard_bits: 5,
            shard_bits: 7,
            ..PLAIN
        };
        let mesh = Sharding {
            kind: MESH,
            ..volume
        };
        for id in [0, 1, 99, 1 << 40, u64::MAX] {
            assert_eq!(place_of(&mesh, id), place_of(&volume, id));
        }
    }
}
