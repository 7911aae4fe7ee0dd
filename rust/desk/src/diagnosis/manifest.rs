//! Refusals of a mesh manifest: 15 to 18.

use std::cmp::Ordering;

use coronagamba::Refusal;

use super::words::{commas, u32_at, Diagnosis, Place};
use crate::text::counted;

/// The most bytes of a manifest.
const MOST_BYTES: u64 = 1 << 24;
/// The most levels.
const MOST_LEVELS: u64 = 32;
/// Where the level count stands.
const LEVELS: u64 = 24;
/// Where the reals of the levels begin.
const REALS: u64 = 28;
/// Positions from here on have no corners.
const POSITIONS: u32 = 1 << 24;

const AXES: [&str; 3] = ["x", "y", "z"];

/// A refusal of a manifest: 15, 16 or 17.
pub fn of_manifest(bytes: &[u8], refusal: Refusal) -> Diagnosis {
    let seen = Seen { bytes };
    let told = match refusal.number {
        15 => seen.bad_length(),
        16 => seen.bad_real(),
        17 => seen.bad_order(),
        _ => None,
    };
    told.unwrap_or_else(Diagnosis::not_found_again)
}

/// Refusal 18 of a level or node that a sound manifest does not have.
pub fn of_no_node(bytes: &[u8], level: u64, node: u64) -> Option<Diagnosis> {
    Seen { bytes }.no_node(level, node)
}

/// A refusal of a node or of its corners: 15 to 18.
pub fn of_node(bytes: &[u8], level: u64, node: u64, refusal: Refusal) -> Diagnosis {
    if refusal.number != 18 {
        return of_manifest(bytes, refusal);
    }
    let seen = Seen { bytes };
    let told = seen.no_node(level, node);
    told.or_else(|| seen.no_corners(level, node))
        .unwrap_or_else(Diagnosis::not_found_again)
}

/// A byte of the manifest and what stands there.
fn byte(place: u64, what: &str) -> Place {
    Place::byte(place, "the manifest", what)
}

/// A manifest as this reading sees it.
struct Seen<'a> {
    bytes: &'a [u8],
}

impl Seen<'_> {
    fn length(&self) -> u64 {
        self.bytes.len() as u64
    }

    /// The level count, at most 32.
    fn levels(&self) -> Option<u64> {
        u32_at(self.bytes, LEVELS)
            .map(u64::from)
            .filter(|levels| *levels <= MOST_LEVELS)
    }

    /// Where the node counts begin: behind a scale and three vertex offsets for
    /// each level.
    fn counts(&self) -> Option<u64> {
        Some(REALS + 16 * self.levels()?)
    }

    /// How many nodes a level has.
    fn nodes(&self, level: u64) -> Option<u64> {
        let place = self.counts()? + 4 * level;
        u32_at(self.bytes, place).map(u64::from)
    }

    /// Where the rows of a level begin: x, y, z positions and fragment sizes.
    fn rows(&self, level: u64) -> Option<u64> {
        let before: Option<u64> = (0..level).map(|level| self.nodes(level)).sum();
        Some(REALS + 20 * self.levels()? + 16 * before?)
    }

    /// Refusal 15.
    fn bad_length(&self) -> Option<Diagnosis> {
        let length = self.length();
        let found = format!("a manifest of {}", counted(length, "byte"));
        let at_length = "the manifest's length: was it cut short, or is it another kind of file?";
        if length > MOST_BYTES {
            let found = format!("a manifest of more than {MOST_BYTES} bytes");
            let expected = format!("at most {MOST_BYTES} bytes");
            let look_at = "the manifest's length: does it hold the fragments too, or is it \
                           another kind of file?";
            return Some(Diagnosis::new(found, expected, look_at));
        }
        if length < REALS {
            let expected = "at least 28 bytes: chunk shape, grid origin and level count";
            return Some(Diagnosis::new(found, expected, at_length));
        }
        let levels = u64::from(u32_at(self.bytes, LEVELS)?);
        if levels > MOST_LEVELS {
            return Some(Diagnosis::new(
                counted(levels, "level"),
                "at most 32 levels",
                byte(LEVELS, "level count"),
            ));
        }
        let head = REALS + 20 * levels;
        if length < head {
            let expected = format!("at least 28 + 20 x {levels} = {head} bytes, for its levels");
            let look_at = byte(LEVELS, "level count").and(" and the manifest's length");
            return Some(Diagnosis::new(found, expected, look_at));
        }
        let nodes: Option<u64> = (0..levels).map(|level| self.nodes(level)).sum();
        let (nodes, counts) = (nodes?, self.counts()?);
        let whole = head + 16 * nodes;
        let look_at = match levels {
            // Without levels there are no node counts either.
            0 => byte(whole, "the first byte too many").and(" and the level count at byte 24"),
            _ => byte(counts, "node counts").and(" and the manifest's length"),
        };
        (length != whole).then(|| {
            Diagnosis::new(
                found,
                format!("28 + 20 x {levels} levels + 16 x {nodes} nodes = {whole} bytes"),
                look_at,
            )
        })
    }

    /// Refusal 16: the first bad real in file order.
    fn bad_real(&self) -> Option<Diagnosis> {
        let levels = self.levels()?;
        let head = (0..6).map(|number| 4 * number);
        let of_levels = (0..4 * levels).map(|number| REALS + 4 * number);
        for place in head.chain(of_levels) {
            let real = f32::from_bits(u32_at(self.bytes, place)?);
            let shape = place < 12;
            if real.is_finite() && (!shape || real > 0.0) {
                continue;
            }
            return Some(Diagnosis::new(
                format!("{} as {}", f64::from(real), real_name(place, levels)),
                if shape {
                    "a finite number above 0"
                } else {
                    "a finite number"
                },
                byte(place, &real_name(place, levels)),
            ));
        }
        None
    }

    /// The position of a node.
    fn position(&self, level: u64, node: u64) -> Option<[u32; 3]> {
        let (nodes, rows) = (self.nodes(level)?, self.rows(level)?);
        let item = |axis| u32_at(self.bytes, rows + 4 * (axis * nodes + node));
        Some([item(0)?, item(1)?, item(2)?])
    }

    /// Refusal 17: the first node that does not come after the one before it.
    fn bad_order(&self) -> Option<Diagnosis> {
        (0..self.levels()?).find_map(|level| self.bad_order_in(level))
    }

    /// The first such node of a level.
    fn bad_order_in(&self, level: u64) -> Option<Diagnosis> {
        let (nodes, rows) = (self.nodes(level)?, self.rows(level)?);
        let mut before = self.position(level, 0)?;
        for node in 1..nodes {
            let here = self.position(level, node)?;
            if z_order(before, here) != Ordering::Less {
                return Some(Diagnosis::new(
                    format!(
                        "node {node} of level {level} at {} does not come after node {} at {}",
                        commas(here),
                        node - 1,
                        commas(before)
                    ),
                    "nodes in strictly rising Z-curve order",
                    byte(
                        rows + 4 * node,
                        &format!("x position of node {node} of level {level}"),
                    ),
                ));
            }
            before = here;
        }
        None
    }

    /// Refusal 18 of a level or node that is not there.
    fn no_node(&self, level: u64, node: u64) -> Option<Diagnosis> {
        let levels = self.levels()?;
        if level >= levels {
            return Some(Diagnosis::new(
                format!("level {level} of {}", counted(levels, "level")),
                numbers_below("level", levels),
                byte(LEVELS, "level count"),
            ));
        }
        let nodes = self.nodes(level)?;
        (node >= nodes).then(|| {
            Diagnosis::new(
                format!("node {node} of {} of level {level}", counted(nodes, "node")),
                numbers_below("node", nodes),
                byte(
                    self.counts().unwrap_or_default() + 4 * level,
                    &format!("node count of level {level}"),
                ),
            )
        })
    }

    /// Refusal 18 of corners: a position of 2^24 or more, or a corner that is
    /// not finite.
    fn no_corners(&self, level: u64, node: u64) -> Option<Diagnosis> {
        let position = self.position(level, node)?;
        let (nodes, rows) = (self.nodes(level)?, self.rows(level)?);
        let place = |axis: usize| rows + 4 * (axis as u64 * nodes + node);
        let position_of = |axis: usize| {
            byte(
                place(axis),
                &format!("{} position of node {node} of level {level}", AXES[axis]),
            )
        };
        if let Some(axis) = (0..3).find(|axis| position[*axis] >= POSITIONS) {
            return Some(Diagnosis::new(
                format!("{} position {}", AXES[axis], position[axis]),
                format!("a position below {POSITIONS} where corners are asked for"),
                position_of(axis),
            ));
        }
        let real = |place| u32_at(self.bytes, place).map(f32::from_bits);
        for axis in 0..3 {
            let shape = real(4 * axis as u64)?;
            let origin = real(12 + 4 * axis as u64)?;
            let scale = 2f32.powi(i32::try_from(level).ok()?);
            let near = origin + (position[axis] as f32 * shape) * scale;
            let far = near + shape * scale;
            if !(near.is_finite() && far.is_finite()) {
                return Some(Diagnosis::new(
                    format!(
                        "corners {} and {} along {}",
                        f64::from(near),
                        f64::from(far),
                        AXES[axis]
                    ),
                    "corners that are finite numbers",
                    position_of(axis).and(format_args!(
                        "; and chunk shape and grid origin along {}",
                        AXES[axis]
                    )),
                ));
            }
        }
        None
    }
}

/// The numbers that there are.
fn numbers_below(what: &str, count: u64) -> String {
    match count {
        0 => format!("a {what} that is there; there is none"),
        1 => format!("{what} 0"),
        _ => format!("a {what} from 0 to {}", count - 1),
    }
}

/// What a real of a manifest is.
fn real_name(place: u64, levels: u64) -> String {
    let axis = |number: u64| AXES[(number % 3) as usize];
    let number = place / 4;
    match place {
        0..12 => format!("chunk shape along {}", axis(number)),
        12..24 => format!("grid origin along {}", axis(number)),
        _ if number < 7 + levels => format!("scale of level {}", number - 7),
        _ => {
            let number = number - 7 - levels;
            format!(
                "vertex offset of level {} along {}",
                number / 3,
                axis(number)
            )
        }
    }
}

/// The Z-curve order of two positions: the highest differing bit decides; at
/// equal height z outranks y, y outranks x (scope, 'Manifest').
fn z_order(one: [u32; 3], other: [u32; 3]) -> Ordering {
    let height = |axis: &usize| u32::BITS - (one[*axis] ^ other[*axis]).leading_zeros();
    let decides = (0..3).max_by_key(height).unwrap_or_default();
    one[decides].cmp(&other[decides])
}

#[cfg(test)]
mod tests {
    use super::*;
    use coronagamba::Manifest;

    /// Two levels: nodes 0,0,0 and 1,0,0 and 0,0,1 of level 0, node 0,0,0 of
    /// level 1. Level count at byte 24, scales at 28, vertex offsets at 36,
    /// node counts at 60, x, y, z of level 0 at 68, 80, 92, of level 1 at 116.
    fn sound() -> Vec<u8> {
        let reals = |values: &[f32]| {
            values
                .iter()
                .flat_map(|v| v.to_le_bytes())
                .collect::<Vec<_>>()
        };
        let wholes = |values: &[u32]| {
            values
                .iter()
                .flat_map(|v| v.to_le_bytes())
                .collect::<Vec<_>>()
        };
        let mut bytes = reals(&[8.0, 8.0, 8.0, 10.0, 10.0, 10.0]);
        bytes.extend(wholes(&[2]));
        bytes.extend(reals(&[1.0, 2.0]));
        bytes.extend(reals(&[0.0; 6]));
        bytes.extend(wholes(&[3, 1]));
        bytes.extend(wholes(&[0, 1, 0, 0, 0, 0, 0, 0, 1, 7, 7, 7]));
        bytes.extend(wholes(&[0, 0, 0, 9]));
        bytes
    }

    fn changed(place: usize, item: u32) -> Vec<u8> {
        let mut bytes = sound();
        bytes[place..][..4].copy_from_slice(&item.to_le_bytes());
        bytes
    }

    /// The check's refusal, explained.
    fn told(bytes: &[u8], number: u8) -> Diagnosis {
        let refusal = Manifest::open(bytes).check().unwrap_err();
        assert_eq!(refusal.number, number);
        let told = of_manifest(bytes, refusal);
        assert_eq!(of_node(bytes, 0, 0, refusal), told);
        told
    }

    fn told_node(bytes: &[u8], level: u64, node: u64) -> Diagnosis {
        let refusal = Manifest::open(bytes).corners(level, node).unwrap_err();
        assert_eq!(refusal.number, 18);
        of_node(bytes, level, node, refusal)
    }

    #[test]
    fn the_sound_manifest_is_sound() {
        assert_eq!(sound().len(), 132);
        assert_eq!(Manifest::open(&sound()).check(), Ok(()));
    }

    #[test]
    fn lengths_and_counts() {
        let short = told(&sound()[..27], 15);
        assert_eq!(short.found, "a manifest of 27 bytes");
        assert!(short.expected.starts_with("at least 28 bytes"));
        let levels = told(&changed(24, 33), 15);
        assert_eq!(levels.found, "33 levels");
        assert_eq!(levels.look_at, "byte 24 of the manifest (level count)");
        let head = told(&changed(24, 6), 15);
        assert_eq!(
            head.expected,
            "at least 28 + 20 x 6 = 148 bytes, for its levels"
        );
        let nodes = told(&changed(60, 4), 15);
        assert_eq!(nodes.found, "a manifest of 132 bytes");
        assert_eq!(
            nodes.expected,
            "28 + 20 x 2 levels + 16 x 5 nodes = 148 bytes"
        );
        assert_eq!(
            nodes.look_at,
            "byte 60 of the manifest (node counts) and the manifest's length"
        );
        let long = told(&vec![0; (1 << 24) + 1], 15);
        assert_eq!(long.expected, "at most 16777216 bytes");
        assert!(!long.look_at.contains("cut short"), "{}", long.look_at);
        // Shape 8,8,8, no levels, and a byte behind them.
        let mut empty = sound()[..28].to_vec();
        empty[24] = 0;
        assert_eq!(Manifest::open(&empty).check(), Ok(()));
        empty.push(0);
        let surplus = told(&empty, 15);
        assert_eq!(
            surplus.expected,
            "28 + 20 x 0 levels + 16 x 0 nodes = 28 bytes"
        );
        assert_eq!(
            surplus.look_at,
            "byte 28 of the manifest (the first byte too many) and the level count at byte 24"
        );
    }

    #[test]
    fn reals() {
        let shape = told(&changed(4, 0x8000_0000), 16);
        assert_eq!(shape.found, "-0 as chunk shape along y");
        assert_eq!(shape.expected, "a finite number above 0");
        let infinite = told(&changed(20, 0xff80_0000), 16);
        assert_eq!(infinite.found, "-inf as grid origin along z");
        assert_eq!(
            infinite.look_at,
            "byte 20 of the manifest (grid origin along z)"
        );
        let scale = told(&changed(32, 0x7fc0_0000), 16);
        assert_eq!(scale.found, "NaN as scale of level 1");
        let offset = told(&changed(52, 0x7f80_0000), 16);
        assert_eq!(offset.found, "inf as vertex offset of level 1 along y");
        assert_eq!(
            offset.look_at,
            "byte 52 of the manifest (vertex offset of level 1 along y)"
        );
    }

    #[test]
    fn order_of_nodes() {
        let equal = told(&changed(72, 0), 17);
        assert_eq!(
            equal.found,
            "node 1 of level 0 at 0,0,0 does not come after node 0 at 0,0,0"
        );
        assert_eq!(
            equal.look_at,
            "byte 72 of the manifest (x position of node 1 of level 0)"
        );
        let falling = told(&changed(96, 1), 17);
        assert_eq!(
            falling.found,
            "node 2 of level 0 at 0,0,1 does not come after node 1 at 1,0,1"
        );
    }

    #[test]
    fn the_z_curve() {
        assert_eq!(z_order([0, 0, 1], [1, 1, 0]), Ordering::Greater);
        assert_eq!(z_order([2, 0, 0], [1, 1, 1]), Ordering::Greater);
        assert_eq!(z_order([3, 3, 3], [0, 4, 0]), Ordering::Less);
        assert_eq!(z_order([5, 6, 7], [5, 6, 7]), Ordering::Equal);
    }

    #[test]
    fn levels_and_nodes_that_are_not_there() {
        let level = told_node(&sound(), 2, 0);
        assert_eq!(level.found, "level 2 of 2 levels");
        assert_eq!(level.expected, "a level from 0 to 1");
        let node = told_node(&sound(), 1, 1);
        assert_eq!(node.found, "node 1 of 1 node of level 1");
        assert_eq!(node.expected, "node 0");
        assert_eq!(
            node.look_at,
            "byte 64 of the manifest (node count of level 1)"
        );
        let wide = told_node(&sound(), 0, 1 << 40);
        assert_eq!(wide.expected, "a node from 0 to 2");
    }

    #[test]
    fn corners_that_are_not_there() {
        // The last node's z.
        let far = told_node(&changed(100, 1 << 24), 0, 2);
        assert_eq!(far.found, "z position 16777216");
        assert_eq!(
            far.look_at,
            "byte 100 of the manifest (z position of node 2 of level 0)"
        );
        // A shape of 2^127 along x, at position 1: the far corner is 2^128.
        let wide = told_node(&changed(0, 254 << 23), 0, 1);
        assert_eq!(
            wide.found,
            "corners 170141183460469230000000000000000000000 and inf along x"
        );
        assert!(wide
            .look_at
            .starts_with("byte 72 of the manifest (x position of node 1"));
    }
}
