//! Random mesh manifests, sound and damaged.

use crate::Rng;
use reference::endian::read_u32;
use reference::manifest::{z_curve, MOST_LEVELS};

/// A real of usual size, in eighths.
fn usual(rng: &mut Rng) -> f32 {
    rng.within(0, 4_000) as f32 / 8.0 - 250.0
}

/// A real of one of 31 sizes, so that sums and products are mostly rounded and
/// never overflow.
fn rounding(rng: &mut Rng) -> f32 {
    let exponent = rng.within(110, 140) as u32;
    f32::from_bits(exponent << 23 | rng.bits() as u32 & 0x807f_ffff)
}

/// A finite real of any size; zeros and the smallest and largest are common.
fn finite(rng: &mut Rng) -> f32 {
    const SPECIAL: [f32; 8] = [
        0.0,
        -0.0,
        1.0,
        -1.0,
        f32::MAX,
        f32::MIN,
        f32::MIN_POSITIVE,
        f32::EPSILON,
    ];
    match rng.below(4) {
        0 => *rng.pick(&SPECIAL),
        1 => f32::from_bits(rng.below(1 << 24) as u32),
        2 => usual(rng),
        _ => {
            let real = f32::from_bits(rng.bits() as u32);
            if real.is_finite() {
                real
            } else {
                10.0
            }
        }
    }
}

/// This real's size, or the smallest one above zero in place of zero.
fn above_zero(real: f32) -> f32 {
    if real == 0.0 {
        f32::from_bits(1)
    } else {
        real.abs()
    }
}

/// A node: its position and the size of its fragment.
pub type Node = ([u32; 3], u32);

/// A manifest in its parts, as they are to be written.
#[derive(Clone, Debug, Default, PartialEq)]
pub struct Parts {
    /// Extents of a node of level 0.
    pub shape: [f32; 3],
    /// Where the octree begins.
    pub origin: [f32; 3],
    /// The scale of each level.
    pub scales: Vec<f32>,
    /// The vertex offset of each level.
    pub offsets: Vec<[f32; 3]>,
    /// The nodes of each level.
    pub levels: Vec<Vec<Node>>,
}

impl Parts {
    /// Parts with these nodes, whose other reals are 0.
    pub fn new(shape: [f32; 3], origin: [f32; 3], levels: Vec<Vec<Node>>) -> Self {
        Parts {
            shape,
            origin,
            scales: vec![0.0; levels.len()],
            offsets: vec![[0.0; 3]; levels.len()],
            levels,
        }
    }

    /// The manifest's bytes.
    pub fn bytes(&self) -> Vec<u8> {
        let head = self.shape.iter().chain(&self.origin);
        let mut items: Vec<u32> = head.map(|real| real.to_bits()).collect();
        items.push(self.levels.len() as u32);
        let reals = self.scales.iter().chain(self.offsets.iter().flatten());
        items.extend(reals.map(|real| real.to_bits()));
        items.extend(self.levels.iter().map(|nodes| nodes.len() as u32));
        for nodes in &self.levels {
            for axis in 0..3 {
                items.extend(nodes.iter().map(|(position, _)| position[axis]));
            }
            items.extend(nodes.iter().map(|(_, size)| size));
        }
        let mut bytes = Vec::new();
        for item in items {
            bytes.extend_from_slice(&item.to_le_bytes());
        }
        bytes
    }
}

/// Positions in strictly rising Z-curve order, mostly small.
fn positions(rng: &mut Rng, most: usize) -> Vec<[u32; 3]> {
    let count = rng.index(most + 1);
    let bits = *rng.pick(&[1, 2, 4, 23, 25, 32]);
    let mut positions: Vec<[u32; 3]> = (0..count)
        .map(|_| std::array::from_fn(|_| rng.edge(bits) as u32))
        .collect();
    positions.sort_by_cached_key(|position| z_curve(*position));
    positions.dedup();
    positions
}

/// Nodes in strictly rising Z-curve order, with fragments of such a size.
fn nodes(rng: &mut Rng, most: usize, size: fn(&mut Rng) -> u32) -> Vec<Node> {
    let positions = positions(rng, most).into_iter();
    positions.map(|at| (at, size(rng))).collect()
}

/// How many levels: every count from 0 to 32, the ends and small ones more
/// often.
fn level_count(rng: &mut Rng) -> usize {
    match rng.below(4) {
        0 => rng.index(33),
        _ => *rng.pick(&[0, 1, 1, 2, 3, 4, 5, 31, 32]),
    }
}

/// A sound manifest with up to `most` nodes on a level.
pub fn sound(rng: &mut Rng, most: usize) -> Vec<u8> {
    let count = level_count(rng);
    parts(rng, count, most, Rng::edge_u32).bytes()
}

/// The parts of a sound manifest with this many levels, up to `most` nodes on
/// each and fragments of such a size. Its reals are of one kind, so that the
/// corners of some manifests are all finite.
pub fn parts(rng: &mut Rng, count: usize, most: usize, size: fn(&mut Rng) -> u32) -> Parts {
    let real = rng.pick(&[usual, rounding, finite]);
    Parts {
        shape: std::array::from_fn(|_| above_zero(real(rng))),
        origin: std::array::from_fn(|_| real(rng)),
        scales: (0..count).map(|_| real(rng)).collect(),
        offsets: (0..count)
            .map(|_| std::array::from_fn(|_| real(rng)))
            .collect(),
        levels: (0..count).map(|_| nodes(rng, most, size)).collect(),
    }
}

/// The numbers of the items that say how many nodes a level has.
fn counts(bytes: &[u8]) -> std::ops::Range<usize> {
    let levels = read_u32(bytes, 24).min(32) as usize;
    7 + 4 * levels..7 + 5 * levels
}

/// The rows of each level of a manifest of the right length: the number of
/// their first item, and how many nodes the level has.
pub fn rows(bytes: &[u8]) -> Vec<(usize, usize)> {
    let counts = counts(bytes);
    let mut first = counts.end;
    let mut rows = Vec::new();
    for number in counts {
        let count = read_u32(bytes, 4 * number) as usize;
        rows.push((first, count));
        first += 4 * count;
    }
    rows
}

/// The numbers of the items that are fragment sizes, in the order of the
/// fragments, in a manifest of the right length.
pub fn size_items(bytes: &[u8]) -> Vec<usize> {
    let sizes = |(first, count)| first + 3 * count..first + 4 * count;
    rows(bytes).into_iter().flat_map(sizes).collect()
}

/// A sound manifest cut short: anywhere, by a few bytes, or by the 16 bytes of
/// a node. In the last case a node count may follow, and then the length is
/// right but the rows are not where they were.
pub fn truncated(rng: &mut Rng, most: usize) -> Vec<u8> {
    let mut bytes = sound(rng, most);
    let length = bytes.len();
    match rng.below(4) {
        0 => bytes.truncate(rng.index(length)),
        1 => bytes.truncate(length - 1 - rng.index(28)),
        _ => {
            bytes.truncate(length - 16);
            let filled = counts(&bytes).filter(|number| read_u32(&bytes, 4 * number) > 0);
            let filled: Vec<usize> = filled.collect();
            if !filled.is_empty() && rng.once_in(2) {
                let number = *rng.pick(&filled);
                let count = read_u32(&bytes, 4 * number);
                set(&mut bytes, number, count - 1);
            }
        }
    }
    bytes
}

/// A sound manifest made longer: by a few bytes, or by the 16 bytes of a node.
/// In the last case a node count may follow, and then the length is right but
/// the rows are not where they were.
pub fn extended(rng: &mut Rng, most: usize) -> Vec<u8> {
    let mut bytes = sound(rng, most);
    if rng.once_in(2) {
        let more = 1 + rng.index(40);
        bytes.extend(rng.bytes(more));
        return bytes;
    }
    bytes.extend((0..4).flat_map(|_| rng.edge_u32().to_le_bytes()));
    let counts: Vec<usize> = counts(&bytes).collect();
    if !counts.is_empty() && rng.once_in(2) {
        let number = *rng.pick(&counts);
        let count = read_u32(&bytes, 4 * number);
        set(&mut bytes, number, count + 1);
    }
    bytes
}

/// Writes item `number` of the manifest, where it has one.
pub fn set(bytes: &mut [u8], number: usize, value: u32) {
    if let Some(place) = bytes.get_mut(4 * number..4 * number + 4) {
        place.copy_from_slice(&value.to_le_bytes());
    }
}

/// Damages the manifest in one place: its length, its level count, a node
/// count, a real, or a position. It may stay sound.
pub fn damage(rng: &mut Rng, bytes: &mut Vec<u8>) {
    const REALS: [f32; 7] = [
        f32::NAN,
        f32::INFINITY,
        f32::NEG_INFINITY,
        0.0,
        -0.0,
        -1.0,
        f32::MAX,
    ];
    let levels = read_u32(bytes, 24).min(32) as usize;
    let items = (bytes.len() / 4).max(1);
    match rng.below(10) {
        0 => {
            let cut = rng.index(bytes.len() + 1);
            bytes.truncate(cut);
        }
        1 => {
            let more = rng.index(40);
            bytes.extend(rng.bytes(more));
        }
        2 => set(bytes, 6, rng.edge_u32()),
        3 => set(bytes, rng.index(6), rng.pick(&REALS).to_bits()),
        4 => {
            let number = 7 + rng.index(4 * levels + 1);
            set(bytes, number, rng.pick(&REALS).to_bits());
        }
        5 if levels > 0 => {
            let number = 7 + 4 * levels + rng.index(levels);
            set(bytes, number, rng.edge_u32());
        }
        6 if levels > 1 => {
            let counts = 7 + 4 * levels;
            let (a, b) = (counts + rng.index(levels), counts + rng.index(levels));
            let (from, to) = (read_u32(bytes, 4 * a), read_u32(bytes, 4 * b));
            if a != b && from > 0 {
                set(bytes, a, from - 1);
                set(bytes, b, to.wrapping_add(1));
            }
        }
        7 | 8 => {
            let first = 7 + 5 * levels;
            if first < items {
                let a = first + rng.index(items - first);
                let b = first + rng.index(items - first);
                let value = read_u32(bytes, 4 * a);
                set(bytes, b, value);
            }
        }
        _ => {
            if !bytes.is_empty() {
                let at = rng.index(bytes.len());
                bytes[at] ^= 1 << rng.below(8);
            }
        }
    }
}

/// A manifest that was damaged in one or two places; it may still be sound.
pub fn damaged(rng: &mut Rng, most: usize) -> Vec<u8> {
    let mut bytes = sound(rng, most);
    for _ in 0..rng.within(1, 2) {
        damage(rng, &mut bytes);
    }
    bytes
}

/// A manifest of any kind: sound, damaged, of another length, or of random
/// bytes.
pub fn any(rng: &mut Rng) -> Vec<u8> {
    let most = if rng.once_in(200) {
        100
    } else {
        *rng.pick(&[1, 4, 8, 8, 20])
    };
    match rng.below(32) {
        0 => {
            let length = rng.index(200);
            rng.bytes(length)
        }
        1 => truncated(rng, most),
        2 => extended(rng, most),
        3..12 => damaged(rng, most),
        _ => sound(rng, most),
    }
}

/// How many levels the manifest says that it has, as far as it may.
pub fn levels_said(bytes: &[u8]) -> u32 {
    read_u32(bytes, 24).min(MOST_LEVELS)
}

/// How many nodes the manifest says that a level has, 0 for no level of it.
pub fn nodes_said(bytes: &[u8], level: u64) -> u32 {
    let levels = levels_said(bytes);
    if level >= u64::from(levels) {
        return 0;
    }
    read_u32(bytes, 28 + 16 * levels as usize + 4 * level as usize)
}

/// A level and node to ask for: mostly ones that the manifest has.
pub fn question(rng: &mut Rng, bytes: &[u8]) -> (u64, u64) {
    let levels = u64::from(levels_said(bytes));
    let filled: Vec<u64> = (0..levels)
        .filter(|level| nodes_said(bytes, *level) > 0)
        .collect();
    let level = if filled.is_empty() || rng.once_in(4) {
        rng.below(levels + 1)
    } else {
        *rng.pick(&filled)
    };
    let count = nodes_said(bytes, level);
    let node = rng.below(u64::from(count.min(1_000)) + 1);
    match rng.below(12) {
        0 => (rng.edge_u64(), node),
        1 => (level, rng.edge_u64()),
        _ => (level, node),
    }
}

#[cfg(test)]
mod tests {
    use super::*;
    use crate::Met;
    use reference::manifest::{check, corners, node};

    #[test]
    fn sound_ones_pass_and_damage_reaches_each_refusal() {
        let mut rng = Rng::new(1);
        let (mut checks, mut nodes, mut corner) = (Met::new(), Met::new(), Met::new());
        for _ in 0..5_000 {
            let whole = sound(&mut rng, 6);
            assert_eq!(check(&whole), Ok(()));
            let (level, number) = question(&mut rng, &whole);
            nodes.note(&node(&whole, level, number));
            corner.note(&corners(&whole, level, number));
            checks.note(&check(&damaged(&mut rng, 6)));
        }
        checks.assert_exactly(&[0, 15, 16, 17]);
        nodes.assert_exactly(&[0, 18]);
        corner.assert_exactly(&[0, 18]);
    }

    #[test]
    fn other_lengths_are_wrong_unless_a_count_follows() {
        let mut rng = Rng::new(2);
        let (mut shorter, mut longer) = (Met::new(), Met::new());
        for _ in 0..5_000 {
            shorter.note(&check(&truncated(&mut rng, 6)));
            longer.note(&check(&extended(&mut rng, 6)));
        }
        shorter.assert_exactly(&[0, 15, 17]);
        longer.assert_exactly(&[0, 15, 17]);
    }

    #[test]
    fn every_level_count_is_met() {
        let mut rng = Rng::new(3);
        let counts = (0..5_000).map(|_| level_count(&mut rng));
        let met: std::collections::BTreeSet<usize> = counts.collect();
        assert!(met.into_iter().eq(0..=32));
    }
}
