//! The hash vectors: hashed ids under murmur for a fixed list of ids.
//!
//! A line is the preshift, the id and the hashed id, in decimal, with a space
//! between. The ids are 0, each power of two below 2^64, 2^64-1 and 32 numbers
//! of an xorshift generator, under each of four preshifts.

use crate::sharding::{Sharding, MURMUR, VOLUME};

const PRESHIFTS: [u8; 4] = [0, 1, 9, 63];
const SEED: u64 = 88_172_645_463_325_252;
const RANDOM_IDS: usize = 32;

/// The next number of the generator.
fn xorshift(mut x: u64) -> u64 {
    x ^= x << 13;
    x ^= x >> 7;
    x ^ (x << 17)
}

/// The ids, in the order of the lines.
fn ids() -> impl Iterator<Item = u64> {
    let powers = (0..64).map(|bit| 1 << bit);
    let random = std::iter::successors(Some(xorshift(SEED)), |x| Some(xorshift(*x)));
    std::iter::once(0)
        .chain(powers)
        .chain([u64::MAX])
        .chain(random.take(RANDOM_IDS))
}

/// All lines of the vectors.
pub fn vectors() -> String {
    let mut lines = String::new();
    for preshift in PRESHIFTS {
        let sharding = Sharding {
            preshift,
            hash: MURMUR,
            minishard_bits: 0,
            shard_bits: 0,
            kind: VOLUME,
        };
        for id in ids() {
            lines += &format!("{preshift} {id} {}\n", sharding.hashed_id(id));
        }
    }
    lines
}
