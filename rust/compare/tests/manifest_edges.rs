//! Mesh manifests at the edges of the rules: one thing is put into each place
//! of a small manifest in turn.

mod common;

use common::manifest::{bits, corner_bits, same_answers, same_check, same_corners};
use coronagamba::manifest::Manifest;
use testkit::manifests::{set, Node, Parts};
use testkit::Rng;

/// The bits of reals that are easy to get wrong.
const SPECIAL: [u32; 22] = [
    0x7fc0_0000, // quiet NaNs, with and without sign and payload
    0xffc0_0000,
    0x7fff_ffff,
    0xffff_ffff,
    0x7f80_0001, // signalling NaNs
    0xff80_0001,
    0x7fbf_ffff,
    0xffbf_ffff,
    0x7f80_0000, // infinities
    0xff80_0000,
    0x0000_0000, // zeros
    0x8000_0000,
    0x0000_0001, // the smallest and the largest subnormals
    0x8000_0001,
    0x007f_ffff,
    0x807f_ffff,
    0x0080_0000, // the smallest normal numbers
    0x8080_0000,
    0x7f7f_ffff, // the greatest and the least
    0xff7f_ffff,
    0x3f80_0000, // 1 and -1
    0xbf80_0000,
];

/// Nodes with these positions.
fn nodes(positions: &[[u32; 3]]) -> Vec<Node> {
    let sizes = 100..;
    positions.iter().copied().zip(sizes).collect()
}

/// A small sound manifest: levels of 5, 0, 1 and 4 nodes. Each axis decides
/// the order of some neighbours, at low bits and at high ones.
fn small() -> Parts {
    let first = [[0, 0, 0], [1, 0, 0], [0, 1, 0], [7, 7, 1], [0, 0, 1 << 31]];
    let last = [[2, 3, 3], [0, 4, 1], [9, 0, 0], [1 << 24, 0, 9]];
    let levels = vec![nodes(&first), vec![], nodes(&[[5, 6, 7]]), nodes(&last)];
    Parts {
        scales: vec![1.0, 2.0, 4.0, 8.0],
        offsets: vec![[0.5; 3], [0.25; 3], [-0.5; 3], [-0.25; 3]],
        ..Parts::new([8.0, 4.0, 2.0], [10.0, -3.0, 0.5], levels)
    }
}

/// The numbers of the small manifest's reals.
fn reals() -> impl Iterator<Item = usize> {
    (0..6).chain(7..7 + 4 * small().levels.len())
}

/// Whether these bits are those of a finite number: not all of the exponent is
/// set.
fn finite(real: u32) -> bool {
    real >> 23 & 0xff != 0xff
}

/// Whether these bits are those of a finite number above zero.
fn finite_above_zero(real: u32) -> bool {
    finite(real) && real >> 31 == 0 && real != 0
}

#[test]
fn special_floats_in_every_real() {
    for number in reals() {
        for real in SPECIAL {
            let mut bytes = small().bytes();
            set(&mut bytes, number, real);
            let right = match number {
                0..3 => finite_above_zero(real),
                _ => finite(real),
            };
            let expected = if right { Ok(()) } else { Err(16) };
            let checked = same_answers(&bytes, 5);
            assert_eq!(checked, expected, "{real:08x} at {number}");
            if right {
                let field = Manifest::open(&bytes).field(number as u64).map(bits);
                assert_eq!(field, Ok((true, real)), "{real:08x} at {number}");
            }
        }
    }
}

#[test]
fn bits_of_special_floats_elsewhere_are_whole_numbers() {
    let mut bytes = small().bytes();
    let items = bytes.len() / 4;
    // The last row is the four sizes of the last level.
    for number in items - 4..items {
        for real in SPECIAL {
            set(&mut bytes, number, real);
            assert_eq!(same_answers(&bytes, 5), Ok(()));
            let field = Manifest::open(&bytes).field(number as u64).map(bits);
            assert_eq!(field, Ok((false, real)));
        }
    }
}

/// The check of a manifest whose level `level` has these nodes instead.
fn check_with(level: usize, changed: Vec<Node>) -> Result<(), u8> {
    let mut parts = small();
    parts.levels[level] = changed;
    same_answers(&parts.bytes(), 5)
}

#[test]
fn nodes_out_of_order_at_every_place() {
    for (level, nodes) in small().levels.iter().enumerate() {
        assert_eq!(check_with(level, nodes.clone()), Ok(()));
        for a in 0..nodes.len() {
            for b in a + 1..nodes.len() {
                let mut swapped = nodes.clone();
                swapped.swap(a, b);
                assert_eq!(check_with(level, swapped), Err(17), "{level}: {a}, {b}");
            }
        }
    }
}

#[test]
fn equal_nodes_at_every_place() {
    for (level, nodes) in small().levels.iter().enumerate() {
        for place in 0..nodes.len() {
            let mut doubled = nodes.clone();
            let (position, size) = doubled[place];
            doubled.insert(place, (position, size + 1));
            assert_eq!(check_with(level, doubled), Err(17), "{level}: {place}");
        }
    }
}

#[test]
fn levels_are_ordered_each_by_itself() {
    let levels = vec![nodes(&[[9, 9, 9]]), nodes(&[[9, 9, 9]]), nodes(&[[0; 3]])];
    let bytes = Parts::new([1.0; 3], [0.0; 3], levels).bytes();
    assert_eq!(same_answers(&bytes, 1), Ok(()));
}

/// The check of a manifest of these two nodes.
fn check_pair(a: [u32; 3], b: [u32; 3]) -> Result<(), u8> {
    let levels = vec![nodes(&[a, b])];
    same_check(&Parts::new([1.0; 3], [0.0; 3], levels).bytes())
}

#[test]
fn pairs_of_a_small_cube() {
    let cell = |number: u32| [number & 3, number >> 2 & 3, number >> 4];
    for a in 0..64 {
        for b in 0..64 {
            let _ = check_pair(cell(a), cell(b));
        }
    }
}

/// This position with one bit turned: bit `height` of an axis, counted as
/// 3 × height + axis.
fn turned(mut position: [u32; 3], bit: u32) -> [u32; 3] {
    position[bit as usize % 3] ^= 1 << (bit / 3);
    position
}

#[test]
fn the_highest_differing_bit_decides() {
    let mut rng = Rng::new(1);
    for high in 0..96 {
        for low in 0..high {
            // Of two positions that differ in these two bits, the one where
            // the higher bit is 1 is later, whatever the lower one says.
            let base = std::array::from_fn(|_| rng.bits() as u32);
            let other = turned(turned(base, high), low);
            let later = base[high as usize % 3] >> (high / 3) & 1 == 1;
            let (first, last) = if later { (other, base) } else { (base, other) };
            assert_eq!(check_pair(first, last), Ok(()), "{first:?} {last:?}");
            assert_eq!(check_pair(last, first), Err(17), "{last:?} {first:?}");
        }
    }
}

/// The corners of a node at `position` of a level, as the bits on each axis,
/// after comparing them with the reference's.
fn corners(
    shape: [f32; 3],
    origin: [f32; 3],
    position: [u32; 3],
    level: usize,
) -> Result<([u32; 3], [u32; 3]), u8> {
    let mut levels = vec![vec![]; level];
    levels.push(nodes(&[position]));
    let bytes = Parts::new(shape, origin, levels).bytes();
    let _ = same_corners(&bytes, level as u64, 0);
    corner_bits(&bytes, level as u64, 0)
}

#[test]
fn positions_around_the_limit() {
    const LIMIT: u32 = 1 << 24;
    for axis in 0..3 {
        for level in [0, 1, 30, 31] {
            let at = |number| {
                let mut position = [1; 3];
                position[axis] = number;
                corners([1.0; 3], [0.0; 3], position, level)
            };
            let scale = (1u64 << level) as f32;
            let (near, far) = at(LIMIT - 1).expect("the last position");
            assert_eq!(f32::from_bits(near[axis]), 16_777_215.0 * scale);
            assert_eq!(f32::from_bits(far[axis]), 16_777_216.0 * scale);
            for number in [LIMIT, LIMIT + 1, u32::MAX] {
                assert_eq!(at(number), Err(18), "{number} on axis {axis}");
            }
        }
    }
}

/// What is asked on one axis: origin, shape, position and level; and the near
/// and far corner, or none where one of them overflows.
type AxisCase = ((f32, f32, u32, usize), Option<(f32, f32)>);

/// 2^103: half a step at the greatest real, so a tie that goes to infinity.
const HALF_STEP: f32 = f32::from_bits(0x7300_0000);
/// The number before it.
const LESS_THAN_HALF: f32 = f32::from_bits(0x72ff_ffff);
/// 2^127, the greatest power of two.
const HUGE: f32 = f32::from_bits(0x7f00_0000);
/// The smallest real above zero.
const TINY: f32 = f32::from_bits(1);

const AXIS_CASES: [AxisCase; 17] = [
    // Position × shape overflows.
    ((0.0, HUGE, 2, 0), None),
    ((f32::MIN, HUGE, 2, 0), None),
    // The product with 2^level does.
    ((0.0, HUGE / 4.0, 1, 3), None),
    ((f32::MIN, HUGE / 2.0, 1, 31), None),
    // The sum for the near corner does.
    ((f32::MAX, HALF_STEP, 1, 0), None),
    ((HUGE, HUGE, 1, 0), None),
    // Only the far corner does.
    ((f32::MAX, HALF_STEP, 0, 0), None),
    ((0.0, f32::MAX, 1, 0), None),
    ((0.0, HUGE, 1, 0), None),
    ((0.0, HUGE, 0, 1), None),
    ((0.0, HUGE / 4.0, 1, 2), None),
    // Nothing does: the far corner stays below the end, the sums round to the
    // greatest, or they come back from the least.
    ((0.0, HUGE / 2.0, 2, 0), Some((HUGE, 1.5 * HUGE))),
    ((f32::MAX, LESS_THAN_HALF, 1, 0), Some((f32::MAX, f32::MAX))),
    ((0.0, f32::MAX, 0, 0), Some((0.0, f32::MAX))),
    ((f32::MIN, f32::MAX, 1, 0), Some((0.0, f32::MAX))),
    // Zeros add up to the positive one, and subnormals stay exact.
    ((-0.0, TINY, 0, 0), Some((0.0, TINY))),
    (
        (-0.0, TINY, 3, 1),
        Some((f32::from_bits(6), f32::from_bits(8))),
    ),
];

#[test]
fn corners_at_the_ends_of_the_reals() {
    for ((origin, shape, position, level), expected) in AXIS_CASES {
        for axis in 0..3 {
            let mut all = ([1.0; 3], [0.0; 3], [1; 3]);
            all.0[axis] = shape;
            all.1[axis] = origin;
            all.2[axis] = position;
            let found = corners(all.0, all.1, all.2, level);
            let found = found.map(|(near, far)| (near[axis], far[axis]));
            let expected = expected.map(|(near, far)| (near.to_bits(), far.to_bits()));
            let case = (origin, shape, position, level, axis);
            assert_eq!(found, expected.ok_or(18), "{case:?}");
        }
    }
}
