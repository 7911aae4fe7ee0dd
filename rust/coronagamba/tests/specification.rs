//! Which sharding specifications are allowed.

use coronagamba::Sharding;

/// The limits of the table, each field by itself (order 4: 16 minishard bits).
#[test]
fn every_value_of_each_field() {
    for value in 0..=u8::MAX {
        let allowed = |sharding: Sharding| sharding.allowed().is_ok();
        let zero = Sharding {
            preshift: 0,
            hash: 0,
            minishard_bits: 0,
            shard_bits: 0,
            kind: 0,
        };
        let preshift = Sharding {
            preshift: value,
            ..zero
        };
        let hash = Sharding {
            hash: value,
            ..zero
        };
        let minishard_bits = Sharding {
            minishard_bits: value,
            ..zero
        };
        let shard_bits = Sharding {
            shard_bits: value,
            ..zero
        };
        let kind = Sharding {
            kind: value,
            ..zero
        };
        assert_eq!(allowed(preshift), value <= 63);
        assert_eq!(
            allowed(hash),
            [Sharding::IDENTITY, Sharding::MURMUR].contains(&value)
        );
        assert_eq!(allowed(minishard_bits), value <= 16);
        assert_eq!(allowed(shard_bits), value <= 32);
        assert_eq!(
            allowed(kind),
            [Sharding::VOLUME, Sharding::MESH].contains(&value)
        );
    }
}
