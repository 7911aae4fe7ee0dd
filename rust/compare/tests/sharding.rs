//! Shard and minishard of ids: every value of each field, against the
//! reference, and the cases of the paper.

use compare::sides::{answer, place, sharding};
use reference::sharding::{place_of, Sharding, MURMUR};

#[test]
fn every_value_of_each_field() {
    let allowed = Sharding {
        preshift: 3,
        hash: MURMUR,
        minishard_bits: 2,
        shard_bits: 9,
        kind: 0,
    };
    for value in 0..=u8::MAX {
        let samples = [
            Sharding {
                preshift: value,
                ..allowed
            },
            Sharding {
                hash: value,
                ..allowed
            },
            Sharding {
                minishard_bits: value,
                ..allowed
            },
            Sharding {
                shard_bits: value,
                ..allowed
            },
            Sharding {
                kind: value,
                ..allowed
            },
        ];
        for sample in samples {
            let expected = place_of(&sample, 0x0123_4567_89ab_cdef);
            assert_eq!(
                sharding(&sample).place(0x0123_4567_89ab_cdef),
                answer(expected.map(place)),
                "{sample:?}"
            );
        }
    }
}

#[test]
fn the_cases_of_the_paper() {
    let specification = coronagamba::Sharding {
        preshift: 1,
        hash: 0,
        minishard_bits: 1,
        shard_bits: 0,
        kind: 0,
    };
    for (id, minishard) in [(2, 1), (3, 1), (4, 0)] {
        assert_eq!(specification.place(id).unwrap().minishard, minishard);
    }
}
