//! Boxes of cells and places of ids.

use crate::runner::{numbers, Measure};
use bench::plain::places as plain;
use coronagamba::{Bounds, Place, Sharding, Volume};
use std::hint::black_box;

/// A volume in chunks of 64 with this grid.
pub fn volume(grid: [u32; 3]) -> Volume {
    Volume::new(grid.map(|cells| 64 * cells), [64; 3], [0; 3])
}

/// The keys of a box of so many cells that begins in this cell, some voxels
/// past the cell's own begin.
fn covering(name: &str, grid: [u32; 3], first: [u32; 3], cells: [u32; 3]) {
    let volume = black_box(volume(grid));
    let voxel = |axis: usize, cell: u32, past: i64| 64 * i64::from(first[axis] + cell) + past;
    let within = Bounds {
        begin: [0, 1, 2].map(|axis| voxel(axis, 0, 17)).into(),
        end: [0, 1, 2]
            .map(|axis| voxel(axis, cells[axis] - 1, 40))
            .into(),
    };
    let count = cells.iter().product::<u32>() as usize;
    let (mut ours, mut theirs) = (vec![0; count], vec![0; count]);
    let rounds = (1 << 19) / count.min(1 << 19);
    Measure {
        name: &format!("cover, {name}, a key"),
        operations: rounds * count,
        bar: Some(1.0),
    }
    .run(
        || {
            (0..rounds).fold(0, |all, _| {
                assert_eq!(volume.write_cover(black_box(within), &mut ours), Ok(count));
                all ^ ours[count - 1] ^ ours[count / 2]
            })
        },
        || {
            (0..rounds).fold(0, |all, _| {
                let written = plain::cover(&volume, black_box(within), &mut theirs);
                assert_eq!(written, Ok(count));
                all ^ theirs[count - 1] ^ theirs[count / 2]
            })
        },
    );
    assert_eq!(ours, theirs, "{name}");
}

/// A box of all cells of a grid with room for ten keys, which is refused.
fn refusing(name: &str, grid: [u32; 3]) {
    let volume = black_box(volume(grid));
    let within = Bounds {
        begin: [i64::MIN; 3].into(),
        end: [i64::MAX; 3].into(),
    };
    let (mut ours, mut theirs) = ([0; 10], [0; 10]);
    let calls = 100_000;
    Measure {
        name: &format!("cover, {name}, room for 10: refused"),
        operations: calls,
        bar: None,
    }
    .run(
        || {
            (0..calls).fold(0, |all, _| {
                let answer = volume.write_cover(black_box(within), &mut ours);
                all + answer.map_or_else(|refusal| u64::from(refusal.number), |_| 0)
            })
        },
        || {
            (0..calls).fold(0, |all, _| {
                let answer = plain::cover(&volume, black_box(within), &mut theirs);
                all + answer.map_or_else(u64::from, |_| 0)
            })
        },
    );
}

/// A specification with this hash.
fn sharding(hash: u8) -> Sharding {
    black_box(Sharding {
        preshift: 3,
        hash,
        minishard_bits: 9,
        shard_bits: 14,
        kind: 0,
    })
}

/// One number for a place.
fn folded(Place { shard, minishard }: Place) -> u64 {
    shard << 16 ^ minishard
}

/// Shards and minishards of ids under one hash, a call for each: beside plain
/// Rust that is inlined into the loop, and beside a call of it.
fn placement(name: &str, hash: u8) {
    let ids = numbers(1_000_000);
    let sharding = sharding(hash);
    let library = |id: &u64| folded(sharding.place(*id).unwrap_or_default());
    let inlined = |id: &u64| {
        let (shard, minishard) = plain::place(&sharding, *id).unwrap_or_default();
        folded(Place { shard, minishard })
    };
    let called = |id: &u64| {
        let mut place = Place::default();
        plain::place_called(&sharding, *id, &mut place.shard, &mut place.minishard);
        folded(place)
    };
    Measure {
        name: &format!("place of an id, {name}"),
        operations: ids.len(),
        bar: None,
    }
    .run(
        || ids.iter().fold(0, |all, id| all ^ library(id)),
        || ids.iter().fold(0, |all, id| all ^ inlined(id)),
    );
    Measure {
        name: &format!("place of an id, {name}, plain called too"),
        operations: ids.len(),
        bar: Some(1.2),
    }
    .run(
        || ids.iter().fold(0, |all, id| all ^ library(id)),
        || ids.iter().fold(0, |all, id| all ^ called(id)),
    );
}

/// The same with all ids in one call, beside plain Rust with this murmur; the
/// limit copies the ids twice.
fn placements(name: &str, hash: u8, murmur: impl Fn(u64) -> u64 + Copy) {
    let ids = numbers(1_000_000);
    let sharding = sharding(hash);
    let (mut shards, mut minishards) = (vec![0; ids.len()], vec![0; ids.len()]);
    let (mut shards_too, mut minishards_too) = (shards.clone(), minishards.clone());
    let (mut one, mut other) = (shards.clone(), shards.clone());
    Measure {
        name: &format!("place of an id in a batch, {name}"),
        operations: ids.len(),
        bar: Some(1.2),
    }
    .run_beside(
        || {
            assert!(sharding
                .write_places(&ids, &mut shards, &mut minishards)
                .is_ok());
            shards[ids.len() / 2] ^ minishards[ids.len() / 3]
        },
        || {
            assert!(plain::places(
                &sharding,
                &ids,
                &mut shards_too,
                &mut minishards_too,
                murmur
            )
            .is_ok());
            shards_too[ids.len() / 2] ^ minishards_too[ids.len() / 3]
        },
        || {
            black_box(&mut one[..]).copy_from_slice(black_box(&ids));
            black_box(&mut other[..]).copy_from_slice(black_box(&ids));
            one[0] ^ other[1]
        },
    );
}

/// Prints the lines of boxes.
pub fn run_covers() {
    let published = [101, 104, 127];
    let large = [2_000_000; 3];
    let far = [333_333, 55_555, 99_999];
    let (even, flat) = ([5_000; 3], [5_000, 1, 5_000]);
    covering("16 x 16 x 16 of 21 bits", published, [3, 5, 9], [16; 3]);
    covering("64 x 64 x 64 of 21 bits", published, [3, 5, 9], [64; 3]);
    covering("16 x 16 x 16 of 63 bits", large, far, [16; 3]);
    covering("64 x 64 x 64 of 63 bits", large, far, [64; 3]);
    covering("64 x 64 x 1 of 21 bits", published, [3, 5, 9], [64, 64, 1]);
    covering("1 x 64 x 64 of 21 bits", published, [3, 5, 9], [1, 64, 64]);
    covering("4096 x 1 x 1 of 63 bits", large, far, [4096, 1, 1]);
    covering("1 x 4096 x 1 of 63 bits", large, far, [1, 4096, 1]);
    covering("1 x 1 x 4096 of 63 bits", large, far, [1, 1, 4096]);
    covering("1 x 2 x 2048 of 39 bits", even, [77, 8, 9], [1, 2, 2048]);
    covering("1 x 1 x 4096 of 26 bits", flat, [8, 0, 9], [1, 1, 4096]);
    refusing("the whole of 63 bits", large);
}

/// Prints the lines of places.
pub fn run_places() {
    placement("identity", 0);
    placement("murmur", 1);
    placements("identity", 0, plain::murmur);
    placements("murmur, plain Rust with 32-bit products", 1, plain::murmur);
    placements(
        "murmur, plain Rust with 16-bit halves",
        1,
        plain::murmur_by_halves,
    );
}
