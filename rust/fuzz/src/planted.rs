//! A comparison with a fault, to show that the fuzzer finds one.

use compare::Part;
use coronagamba::{Shard, Sharding};
use std::collections::HashSet;
use testkit::Rng;

/// One shard with one minishard.
const NO_BITS: Sharding = Sharding {
    preshift: 0,
    hash: Sharding::IDENTITY,
    minishard_bits: 0,
    shard_bits: 0,
    kind: Sharding::VOLUME,
};

/// The whole-shard check of one minishard, beside a judge that lets the end of
/// a chunk wrap at 2^64, which change requests, order 2, takes exactly: 11. Its
/// samples are sound: the fuzzer has to make the start in front of 2^64.
pub const PLANTED: Part = Part {
    name: "planted",
    about: "a check whose ends wrap: the fuzzer has to find the difference",
    meets: &[0, 6, 7, 8, 9, 11],
    compare,
    sample,
};

const INDEX_END: usize = 16;

fn compare(file: &[u8]) -> u8 {
    let shard = Shard::open(NO_BITS, 0, file);
    let answer = shard.check().map_or_else(|refusal| refusal.number, |()| 0);
    assert_eq!(answer, wrapping_check(file), "the check of {file:02x?}");
    answer
}

fn number(bytes: &[u8], at: usize) -> u64 {
    u64::from_le_bytes(bytes[at..at + 8].try_into().expect("8 bytes"))
}

/// The judge with the fault.
fn wrapping_check(file: &[u8]) -> u8 {
    let Some(data) = file.get(INDEX_END..) else {
        return 6;
    };
    let (start, end) = (number(file, 0), number(file, 8));
    if start == end {
        return 0;
    }
    if start > end || end > data.len() as u64 {
        return 7;
    }
    let index = &data[start as usize..end as usize];
    if index.len() % 24 != 0 {
        return 8;
    }
    let rows: Vec<u64> = (0..index.len() / 8).map(|i| number(index, 8 * i)).collect();
    let (ids, places) = rows.split_at(rows.len() / 3);
    let (steps, sizes) = places.split_at(ids.len());
    let mut seen = HashSet::new();
    let mut id = 0u64;
    for step in ids {
        id = id.wrapping_add(*step);
        if !seen.insert(id) {
            return 9;
        }
    }
    let mut end = 0u64;
    for (step, size) in steps.iter().zip(sizes) {
        end = end.wrapping_add(*step).wrapping_add(*size);
        if end > data.len() as u64 {
            return 11;
        }
    }
    0
}

/// A sound shard of three chunks, none of them empty.
fn sample(rng: &mut Rng) -> Vec<u8> {
    let sizes: [u64; 3] = std::array::from_fn(|_| rng.within(1, 8));
    let length: u64 = sizes.iter().sum();
    let ids: [u64; 3] = std::array::from_fn(|_| 1 + rng.below(99));
    let chunks = rng.bytes(length as usize);
    let numbers = |all: &[u64]| all.iter().flat_map(|n| n.to_le_bytes()).collect::<Vec<_>>();
    let rows = numbers(&[ids, [0; 3], sizes].concat());
    [numbers(&[length, length + 72]), chunks, rows].concat()
}

#[cfg(test)]
mod tests {
    use super::*;

    #[test]
    fn samples_are_sound() {
        for seed in 1..100 {
            assert_eq!(compare(&sample(&mut Rng::new(seed))), 0);
        }
    }

    /// The first chunk begins one byte in front of 2^64.
    #[test]
    #[should_panic(expected = "the check of")]
    fn an_end_that_wraps_is_told() {
        let mut file = sample(&mut Rng::new(1));
        let at = file.len() - 6 * 8;
        file[at..at + 8].fill(0xff);
        compare(&file);
    }

    /// The second chunk steps back by one byte, which is no fault.
    #[test]
    fn a_step_back_is_sound() {
        let mut file = sample(&mut Rng::new(1));
        let at = file.len() - 5 * 8;
        file[at..at + 8].fill(0xff);
        assert_eq!(compare(&file), 0);
    }
}
