//! Mesh manifests: the check, a node, all nodes.

use crate::runner::{numbers, pass, Measure};
use bench::plain::manifests as plain;
use coronagamba::manifest::Manifest;
use reference::manifest::{z_curve, MOST_BYTES};
use std::hint::black_box;

/// As many nodes as a manifest of one level can have.
const NODES: usize = (MOST_BYTES - 48) / 16;

/// A manifest of levels with these positions.
fn manifest_of(levels: &[&[[u32; 3]]]) -> Vec<u8> {
    let mut items = vec![1f32.to_bits(); 3];
    items.extend([0, 0, 0, levels.len() as u32]);
    items.resize(items.len() + 4 * levels.len(), 0);
    items.extend(levels.iter().map(|positions| positions.len() as u32));
    for positions in levels {
        for axis in 0..3 {
            items.extend(positions.iter().map(|position| position[axis]));
        }
        items.extend(positions.iter().map(|_| 1_000));
    }
    items.into_iter().flat_map(u32::to_le_bytes).collect()
}

/// A manifest of one level with these positions.
fn manifest(positions: &[[u32; 3]]) -> Vec<u8> {
    manifest_of(&[positions])
}

/// The first positions of the curve, without gaps.
fn dense() -> Vec<[u32; 3]> {
    let bits = |place: usize, axis: usize| {
        let bit = |height: usize| place >> (3 * height + axis) & 1;
        (0..7).fold(0, |number, height| number | (bit(height) as u32) << height)
    };
    (0..NODES)
        .map(|place| std::array::from_fn(|axis| bits(place, axis)))
        .collect()
}

/// Positions all over the curve.
fn scattered() -> Vec<[u32; 3]> {
    let mut positions: Vec<[u32; 3]> = numbers(3 * NODES)
        .chunks_exact(3)
        .map(|at| std::array::from_fn(|axis| (at[axis] >> 32) as u32))
        .collect();
    positions.sort_by_cached_key(|position| z_curve(*position));
    positions
}

/// The library's answer to a check: 0 or the refusal's number.
fn library(bytes: &[u8]) -> u64 {
    let answer = Manifest::open(black_box(bytes)).check();
    answer.map_or_else(|refusal| u64::from(refusal.number), |()| 0)
}

/// The answer of plain Rust likewise.
fn plain(bytes: &[u8]) -> u64 {
    let answer = plain::check(black_box(bytes));
    answer.map_or_else(u64::from, |()| 0)
}

/// The check of a sound manifest with these positions, timed by node; the limit
/// loads all bytes.
fn checks(name: &str, mut positions: Vec<[u32; 3]>) {
    let bytes = manifest(&positions);
    assert_eq!(bytes.len(), MOST_BYTES, "{name}: the length");
    assert_eq!(library(&bytes), 0, "{name}: the manifest is sound");
    let measure = Measure {
        name,
        operations: NODES,
        bar: Some(1.3),
    };
    measure.run_beside(|| library(&bytes), || plain(&bytes), || pass(&bytes));
    // Both sides get as far as the last node.
    positions[NODES - 1] = positions[NODES - 2];
    let equal = manifest(&positions);
    assert_eq!((library(&equal), plain(&equal)), (17, 17), "{name}: order");
}

/// One number for a node.
fn folded([x, y, z]: [u32; 3], start: u64, size: u32) -> u64 {
    start ^ u64::from(x ^ y << 8 ^ z << 16) ^ u64::from(size) << 32
}

/// All nodes of a manifest, a call for each level, timed by node; the limit
/// loads all bytes and fills the output once.
fn all_nodes(name: &str, levels: &[&[[u32; 3]]]) {
    let bytes = manifest_of(levels);
    let count = levels.iter().map(|positions| positions.len()).sum();
    let room = || vec![1; 5 * count];
    let (mut ours, mut theirs, mut filled) = (room(), room(), room());
    let measure = Measure {
        name,
        operations: count,
        bar: Some(1.3),
    };
    measure.run_beside(
        || {
            let manifest = Manifest::open(black_box(&bytes));
            written(levels.len(), &mut ours, |level, out| {
                manifest.write_nodes_of(level as u64, out).ok()
            })
        },
        || {
            written(levels.len(), &mut theirs, |level, out| {
                plain::nodes(black_box(&bytes), level, out).ok()
            })
        },
        || {
            black_box(&mut filled[..]).fill(bytes.len() as u64);
            pass(&bytes) ^ filled[count]
        },
    );
    assert!(ours == theirs, "{name}: the numbers");
}

/// Lets each of that many levels be written behind the one before it, and gives
/// how many numbers these are.
fn written(
    levels: usize,
    out: &mut [u64],
    write: impl Fn(usize, &mut [u64]) -> Option<usize>,
) -> u64 {
    let mut length = 0;
    for level in 0..levels {
        let room = black_box(&mut out[length..]);
        length += write(level, room).expect("the manifest is sound and its nodes fit");
    }
    length as u64
}

/// A node of a small manifest, which each call judges anew.
fn nodes(name: &str, positions: &[[u32; 3]]) {
    let bytes = manifest(positions);
    let count = positions.len();
    Measure {
        name,
        operations: count,
        bar: None,
    }
    .run(
        || {
            (0..count as u64).fold(0, |all, number| {
                let node = Manifest::open(black_box(&bytes)).node(0, number);
                let node = node.expect("there is such a node");
                all ^ folded(node.position, node.start, node.size)
            })
        },
        || {
            (0..count).fold(0, |all, number| {
                let node = plain::node(black_box(&bytes), 0, number);
                let (position, start, size) = node.expect("there is such a node");
                all ^ folded(position, start, size)
            })
        },
    );
}

/// Prints the lines.
pub fn run() {
    let dense = dense();
    nodes("manifest, a node of 64", &dense[..64]);
    nodes("manifest, a node of 4096", &dense[..4096]);
    all_nodes("manifest, all nodes, a node", &[&dense]);
    let cube = |level: usize| &dense[..1 << (18 - 3 * level)];
    let levels: Vec<_> = (0..7).map(cube).collect();
    all_nodes("manifest, all nodes of 7 levels, a node", &levels);
    checks("manifest check, dense, a node", dense);
    checks("manifest check, scattered, a node", scattered());
}
