//! The multi-resolution mesh manifest (source document 001; document 01,
//! "Manifest").

use crate::endian::read_u32;

/// The most bytes that a manifest may have.
pub const MOST_BYTES: usize = 16_777_216;
/// The most levels that a manifest may have.
pub const MOST_LEVELS: u32 = 32;
/// Positions from here on have no corners.
pub const POSITION_LIMIT: u32 = 1 << 24;

/// The shape of the finest nodes and the origin of the grid.
#[derive(Clone, Copy, Debug, PartialEq)]
pub struct Header {
    /// Extents of a node of level 0.
    pub shape: [f32; 3],
    /// Where the octree begins.
    pub origin: [f32; 3],
}

/// A 4-byte item of a manifest, by its kind.
#[derive(Clone, Copy, Debug, PartialEq)]
pub enum Field {
    /// A real.
    Real(f32),
    /// A whole number.
    Whole(u32),
}

/// A node of a level.
#[derive(Clone, Copy, Debug, PartialEq, Eq, Hash)]
pub struct Node {
    /// Its x, y, z position.
    pub position: [u32; 3],
    /// The size of its fragment in bytes.
    pub size: u32,
    /// Where its fragment starts: the sum of all earlier sizes.
    pub start: u64,
}

impl Node {
    /// Where its fragment ends, counted like its start.
    pub fn end(&self) -> u64 {
        self.start + u64::from(self.size)
    }
}

/// The corners of a node, as the bits of f32 numbers.
#[derive(Clone, Copy, Debug, PartialEq, Eq, Hash)]
pub struct Corners {
    /// The corner next to the origin.
    pub near: [u32; 3],
    /// The opposite corner.
    pub far: [u32; 3],
}

/// A manifest of the right length, in its parts.
struct Parts {
    header: Header,
    /// Level scales, then vertex offsets, three for each level.
    other_reals: Vec<f32>,
    levels: Vec<Level>,
}

/// The nodes of a level: their positions and fragment sizes.
struct Level {
    positions: Vec<[u32; 3]>,
    sizes: Vec<u32>,
}

/// Item `number` as its 4 bytes say.
fn item(bytes: &[u8], number: usize) -> u32 {
    read_u32(bytes, 4 * number)
}

/// Item `number` as a real.
fn real(bytes: &[u8], number: usize) -> f32 {
    f32::from_bits(item(bytes, number))
}

/// The node counts by level, after test 15.
fn node_counts(bytes: &[u8]) -> Result<Vec<usize>, u8> {
    if bytes.len() > MOST_BYTES || bytes.len() < 28 || item(bytes, 6) > MOST_LEVELS {
        return Err(15);
    }
    let levels = item(bytes, 6) as usize;
    if bytes.len() < 28 + 20 * levels {
        return Err(15);
    }
    let first = 7 + 4 * levels;
    let counts: Vec<usize> = (first..first + levels)
        .map(|number| item(bytes, number) as usize)
        .collect();
    let nodes: u128 = counts.iter().map(|count| *count as u128).sum();
    if bytes.len() as u128 == 28 + 20 * levels as u128 + 16 * nodes {
        Ok(counts)
    } else {
        Err(15)
    }
}

/// The level of `count` nodes whose items start at `first`: all x, all y, all
/// z, all sizes.
fn level(bytes: &[u8], first: usize, count: usize) -> Level {
    let row = |number: usize, node: usize| item(bytes, first + number * count + node);
    Level {
        positions: (0..count)
            .map(|node| std::array::from_fn(|axis| row(axis, node)))
            .collect(),
        sizes: (0..count).map(|node| row(3, node)).collect(),
    }
}

/// The parts of a manifest, after test 15.
fn parts(bytes: &[u8]) -> Result<Parts, u8> {
    let counts = node_counts(bytes)?;
    let mut levels = Vec::new();
    let mut first = 7 + 5 * counts.len();
    for count in &counts {
        levels.push(level(bytes, first, *count));
        first += 4 * count;
    }
    Ok(Parts {
        header: Header {
            shape: std::array::from_fn(|axis| real(bytes, axis)),
            origin: std::array::from_fn(|axis| real(bytes, 3 + axis)),
        },
        other_reals: (7..7 + 4 * counts.len())
            .map(|number| real(bytes, number))
            .collect(),
        levels,
    })
}

/// Test 16: the reals are finite and the shape is above zero.
fn reals_right(parts: &Parts) -> Result<(), u8> {
    let Header { shape, origin } = parts.header;
    let mut reals = shape.iter().chain(&origin).chain(&parts.other_reals);
    if reals.all(|real| real.is_finite()) && shape.iter().all(|real| *real > 0.0) {
        Ok(())
    } else {
        Err(16)
    }
}

/// The place on the Z curve: at each height x, y, z from low to high.
pub fn z_curve(position: [u32; 3]) -> u128 {
    let mut place = 0;
    // Above the highest bit of the three all bits are 0.
    let heights = 32 - (position[0] | position[1] | position[2]).leading_zeros();
    for height in 0..heights as usize {
        for (axis, number) in position.iter().enumerate() {
            place |= u128::from(number >> height & 1) << (3 * height + axis);
        }
    }
    place
}

/// Test 17: in each level the nodes rise strictly on the Z curve.
fn nodes_rise(parts: &Parts) -> Result<(), u8> {
    let rising = |level: &Level| {
        let places: Vec<u128> = level.positions.iter().map(|at| z_curve(*at)).collect();
        places.windows(2).all(|pair| pair[0] < pair[1])
    };
    if parts.levels.iter().all(rising) {
        Ok(())
    } else {
        Err(17)
    }
}

/// The parts of a sound manifest, or 15, then 16, then 17.
fn judged(bytes: &[u8]) -> Result<Parts, u8> {
    let parts = parts(bytes)?;
    reals_right(&parts)?;
    nodes_rise(&parts)?;
    Ok(parts)
}

/// Checks a manifest: 15, then 16, then 17.
pub fn check(bytes: &[u8]) -> Result<(), u8> {
    judged(bytes).map(|_| ())
}

/// The level count of a manifest, or 15 to 17.
pub fn level_count(bytes: &[u8]) -> Result<u32, u8> {
    Ok(judged(bytes)?.levels.len() as u32)
}

/// The shape and origin, or 15 to 17.
pub fn header(bytes: &[u8]) -> Result<Header, u8> {
    Ok(judged(bytes)?.header)
}

/// The field of this number, or 15 to 18.
pub fn field(bytes: &[u8], number: u64) -> Result<Field, u8> {
    let levels = judged(bytes)?.levels.len();
    if number >= bytes.len() as u64 / 4 {
        return Err(18);
    }
    let number = number as usize;
    let is_real = number < 6 || (7..7 + 4 * levels).contains(&number);
    Ok(if is_real {
        Field::Real(real(bytes, number))
    } else {
        Field::Whole(item(bytes, number))
    })
}

/// The element of this number, or 18.
fn nth<T>(items: &[T], number: u64) -> Result<&T, u8> {
    let number = usize::try_from(number).map_err(|_| 18)?;
    items.get(number).ok_or(18)
}

/// The node count of a level, or 15 to 18.
pub fn node_count(bytes: &[u8], level: u64) -> Result<u32, u8> {
    let parts = judged(bytes)?;
    Ok(nth(&parts.levels, level)?.sizes.len() as u32)
}

/// How many bytes the fragments of all nodes have together, or 15 to 17.
pub fn fragments_length(bytes: &[u8]) -> Result<u64, u8> {
    let parts = judged(bytes)?;
    let sizes = parts.levels.iter().flat_map(|level| &level.sizes);
    Ok(sizes.map(|size| u64::from(*size)).sum())
}

/// A node of a sound manifest, or 18.
fn node_of(parts: &Parts, level: u64, node: u64) -> Result<Node, u8> {
    let nodes = nth(&parts.levels, level)?;
    let position = *nth(&nodes.positions, node)?;
    let earlier_levels = parts.levels[..level as usize].iter();
    let earlier = earlier_levels
        .flat_map(|level| &level.sizes)
        .chain(&nodes.sizes[..node as usize]);
    Ok(Node {
        position,
        size: nodes.sizes[node as usize],
        start: earlier.map(|size| u64::from(*size)).sum(),
    })
}

/// A node's position, fragment size and fragment start, or 15 to 18.
pub fn node(bytes: &[u8], level: u64, node: u64) -> Result<Node, u8> {
    node_of(&judged(bytes)?, level, node)
}

/// The nodes of a level in their order, or 15 to 18. Fragments follow one
/// another through all levels, so each starts where the one before it ends.
pub fn nodes(bytes: &[u8], level: u64) -> Result<Vec<Node>, u8> {
    let parts = judged(bytes)?;
    let asked = nth(&parts.levels, level)?;
    let mut start = 0;
    for earlier in &parts.levels[..level as usize] {
        start += earlier.sizes.iter().copied().map(u64::from).sum::<u64>();
    }
    let mut nodes = Vec::new();
    for (position, size) in asked.positions.iter().zip(&asked.sizes) {
        let node = Node {
            position: *position,
            size: *size,
            start,
        };
        start = node.end();
        nodes.push(node);
    }
    Ok(nodes)
}

/// Writes x, y, z, fragment start and fragment size of each node of a level, in
/// their order, to the front of `out` and gives how many numbers these are, or
/// 15 to 18, or 13 where they do not fit.
pub fn write_nodes(bytes: &[u8], level: u64, out: &mut [u64]) -> Result<usize, u8> {
    let mut numbers = Vec::new();
    for node in nodes(bytes, level)? {
        numbers.extend(node.position.map(u64::from));
        numbers.extend([node.start, u64::from(node.size)]);
    }
    let front = out.get_mut(..numbers.len()).ok_or(13)?;
    front.copy_from_slice(&numbers);
    Ok(numbers.len())
}

/// The near and far corner on one axis, each operation rounded once.
fn corner(origin: f32, shape: f32, position: u32, level: u64) -> (f32, f32) {
    let scale = (1u64 << level) as f32;
    let near = origin + (position as f32 * shape) * scale;
    (near, near + shape * scale)
}

/// A node's corners, or 15 to 18.
pub fn corners(bytes: &[u8], level: u64, node: u64) -> Result<Corners, u8> {
    let parts = judged(bytes)?;
    let position = node_of(&parts, level, node)?.position;
    if position.iter().any(|number| *number >= POSITION_LIMIT) {
        return Err(18);
    }
    let Header { shape, origin } = parts.header;
    let mut corners = Corners {
        near: [0; 3],
        far: [0; 3],
    };
    for axis in 0..3 {
        let (near, far) = corner(origin[axis], shape[axis], position[axis], level);
        if !near.is_finite() || !far.is_finite() {
            return Err(18);
        }
        corners.near[axis] = near.to_bits();
        corners.far[axis] = far.to_bits();
    }
    Ok(corners)
}

#[cfg(test)]
mod tests {
    use super::*;

    /// A manifest: shape, origin, then nodes of each level with their sizes.
    fn build(shape: [f32; 3], origin: [f32; 3], levels: &[&[([u32; 3], u32)]]) -> Vec<u8> {
        let mut items: Vec<u32> = shape.iter().chain(&origin).map(|r| r.to_bits()).collect();
        items.push(levels.len() as u32);
        items.extend(vec![0; 4 * levels.len()]);
        items.extend(levels.iter().map(|nodes| nodes.len() as u32));
        for nodes in levels {
            for axis in 0..3 {
                items.extend(nodes.iter().map(|(position, _)| position[axis]));
            }
            items.extend(nodes.iter().map(|(_, size)| size));
        }
        items.into_iter().flat_map(u32::to_le_bytes).collect()
    }

    #[test]
    fn lengths() {
        let none = build([1.0; 3], [0.0; 3], &[]);
        assert_eq!((none.len(), check(&none)), (28, Ok(())));
        let mut one = build([1.0; 3], [0.0; 3], &[&[([0; 3], 5)]]);
        assert_eq!((one.len(), check(&one)), (64, Ok(())));
        one.push(0);
        assert_eq!(check(&one), Err(15));
        for length in 0..64 {
            assert_eq!(check(&one[..length]), Err(15));
        }
    }

    #[test]
    fn level_counts() {
        let empty: &[([u32; 3], u32)] = &[];
        let most = build([1.0; 3], [0.0; 3], &[empty; 32]);
        assert_eq!(check(&most), Ok(()));
        let more = build([1.0; 3], [0.0; 3], &[empty; 33]);
        assert_eq!(check(&more), Err(15));
    }

    #[test]
    fn a_manifest_beyond_16_mib_is_15() {
        let bytes = vec![0; MOST_BYTES + 1];
        assert_eq!(check(&bytes), Err(15));
    }

    #[test]
    fn reals() {
        for shape in [0.0, -0.0, -1.0, f32::NAN, f32::INFINITY] {
            let bytes = build([1.0, shape, 1.0], [0.0; 3], &[]);
            assert_eq!(check(&bytes), Err(16));
        }
        let bytes = build([f32::from_bits(1); 3], [-0.0, 0.0, -9.0], &[]);
        assert_eq!(check(&bytes), Ok(()));
        let mut bytes = build([1.0; 3], [0.0; 3], &[&[], &[]]);
        for number in 3..17 {
            let old = item(&bytes, number);
            bytes[4 * number..][..4].copy_from_slice(&f32::NAN.to_bits().to_le_bytes());
            let expected = if number == 6 || number >= 15 { 15 } else { 16 };
            assert_eq!(check(&bytes), Err(expected));
            bytes[4 * number..][..4].copy_from_slice(&old.to_le_bytes());
        }
    }

    #[test]
    fn z_curve_order() {
        let rising = [
            [0, 0, 0],
            [1, 0, 0],
            [0, 1, 0],
            [1, 1, 0],
            [0, 0, 1],
            [3, 0, 0],
            [0, 2, 0],
            [3, 3, 1],
            [0, 0, 2],
            [0, 0, 1 << 31],
        ];
        for pair in rising.windows(2) {
            let up = [(pair[0], 1), (pair[1], 1)];
            let down = [(pair[1], 1), (pair[0], 1)];
            let same = [(pair[0], 1), (pair[0], 1)];
            assert_eq!(check(&build([1.0; 3], [0.0; 3], &[&up])), Ok(()));
            assert_eq!(check(&build([1.0; 3], [0.0; 3], &[&up, &down])), Err(17));
            assert_eq!(check(&build([1.0; 3], [0.0; 3], &[&same])), Err(17));
        }
    }

    #[test]
    fn fields_by_number_and_kind() {
        let bytes = build([1.0, 2.0, 3.0], [4.0, 5.0, 6.0], &[&[([7, 8, 9], 10)]]);
        let reals = [1.0, 2.0, 3.0, 4.0, 5.0, 6.0];
        for (number, value) in reals.into_iter().enumerate() {
            assert_eq!(field(&bytes, number as u64), Ok(Field::Real(value)));
        }
        assert_eq!(field(&bytes, 6), Ok(Field::Whole(1)));
        for number in 7..11 {
            assert_eq!(field(&bytes, number), Ok(Field::Real(0.0)));
        }
        for (number, value) in [(11, 1), (12, 7), (13, 8), (14, 9), (15, 10)] {
            assert_eq!(field(&bytes, number), Ok(Field::Whole(value)));
        }
        assert_eq!(field(&bytes, 16), Err(18));
        assert_eq!(field(&bytes, 1 << 62), Err(18));
    }

    #[test]
    fn sizes_add_up_to_starts() {
        let first = [([0, 0, 0], u32::MAX), ([1, 0, 0], u32::MAX)];
        let second = [([0, 0, 0], 7), ([0, 1, 0], 8)];
        let bytes = build([1.0; 3], [0.0; 3], &[&first, &second]);
        let last = node(&bytes, 1, 1).unwrap();
        assert_eq!(last.position, [0, 1, 0]);
        assert_eq!(last.start, 2 * u64::from(u32::MAX) + 7);
        assert_eq!(last.end(), 2 * u64::from(u32::MAX) + 15);
        assert_eq!(fragments_length(&bytes), Ok(8_589_934_605));
        assert_eq!(fragments_length(&bytes[1..]), Err(15));
        assert_eq!(node(&bytes, 1, 2), Err(18));
        assert_eq!(node(&bytes, 2, 0), Err(18));
        assert_eq!(node(&bytes, u64::MAX, u64::MAX), Err(18));
        assert_eq!((level_count(&bytes), node_count(&bytes, 1)), (Ok(2), Ok(2)));
        assert_eq!(node_count(&bytes, 2), Err(18));
    }

    #[test]
    fn nodes_of_a_level() {
        let first = [([0, 0, 0], u32::MAX), ([1, 0, 0], u32::MAX)];
        let second = [([0, 0, 0], 7), ([0, 1, 2], 8)];
        let bytes = build([1.0; 3], [0.0; 3], &[&first, &[], &second]);
        let begin = 2 * u64::from(u32::MAX);
        let mut out = [9; 11];
        assert_eq!(write_nodes(&bytes, 2, &mut out), Ok(10));
        assert_eq!(out, [0, 0, 0, begin, 7, 0, 1, 2, begin + 7, 8, 9]);
        assert_eq!(write_nodes(&bytes, 1, &mut []), Ok(0));
        assert_eq!(write_nodes(&bytes, 3, &mut []), Err(18));
        let before = out;
        assert_eq!(write_nodes(&bytes, 0, &mut out[..9]), Err(13));
        assert_eq!(write_nodes(&bytes[1..], 3, &mut out), Err(15));
        assert_eq!(out, before);
        for level in 0..3 {
            let nodes = nodes(&bytes, level).unwrap();
            for (number, found) in (0..).zip(&nodes) {
                assert_eq!(node(&bytes, level, number), Ok(*found));
            }
            assert_eq!(node_count(&bytes, level), Ok(nodes.len() as u32));
        }
    }

    #[test]
    fn corners_of_the_example() {
        let node: &[_] = &[([3, 3, 3], 1)];
        let bytes = build([8.0; 3], [10.0; 3], &[&[], &[], node]);
        let expected = Corners {
            near: [106f32.to_bits(); 3],
            far: [138f32.to_bits(); 3],
        };
        assert_eq!(corners(&bytes, 2, 0), Ok(expected));
        assert_eq!(corners(&bytes, 1, 0), Err(18));
    }

    #[test]
    fn corners_that_are_refused() {
        let far: &[_] = &[([0, 1 << 24, 0], 1)];
        let bytes = build([1.0; 3], [0.0; 3], &[far]);
        assert!(node(&bytes, 0, 0).is_ok());
        assert_eq!(corners(&bytes, 0, 0), Err(18));
        let last: &[_] = &[([0, (1 << 24) - 1, 0], 1)];
        let bytes = build([1.0; 3], [0.0; 3], &[last]);
        assert!(corners(&bytes, 0, 0).is_ok());
        let here: &[_] = &[([0, 0, 0], 1)];
        let bytes = build([1.0, 1.0, f32::MAX], [0.0, 0.0, f32::MAX], &[here]);
        assert_eq!(corners(&bytes, 0, 0), Err(18));
    }
}
