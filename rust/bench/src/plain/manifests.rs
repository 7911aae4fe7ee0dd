//! Mesh manifests in plain Rust, with the same tests in the same order.

/// The most bytes of a manifest.
const MOST_BYTES: usize = 1 << 24;

/// The most levels of a manifest.
const MOST_LEVELS: usize = 32;

/// A 4-byte item.
fn number(item: &[u8]) -> u32 {
    u32::from_le_bytes(item.try_into().expect("4 bytes"))
}

/// The 4-byte items of a part of the file.
fn items(bytes: &[u8]) -> impl Iterator<Item = u32> + '_ {
    bytes.chunks_exact(4).map(number)
}

/// A manifest of the right length, in its parts.
struct Parts<'a> {
    shape: &'a [u8],
    origin: &'a [u8],
    /// Level scales and vertex offsets.
    other_reals: &'a [u8],
    /// How many nodes each level has.
    counts: &'a [u8],
    /// The four rows of each level.
    levels: &'a [u8],
}

/// The parts, or 15.
fn parts(bytes: &[u8]) -> Result<Parts<'_>, u8> {
    if bytes.len() > MOST_BYTES {
        return Err(15);
    }
    let (head, rest) = bytes.split_at_checked(28).ok_or(15)?;
    let count = number(&head[24..]) as usize;
    if count > MOST_LEVELS {
        return Err(15);
    }
    let (other_reals, rest) = rest.split_at_checked(16 * count).ok_or(15)?;
    let (counts, levels) = rest.split_at_checked(4 * count).ok_or(15)?;
    let nodes: u64 = items(counts).map(u64::from).sum();
    if levels.len() as u64 != 16 * nodes {
        return Err(15);
    }
    Ok(Parts {
        shape: &head[..12],
        origin: &head[12..24],
        other_reals,
        counts,
        levels,
    })
}

/// Test 16.
fn reals_right(parts: &Parts) -> bool {
    let mut shape = items(parts.shape).map(f32::from_bits);
    let others = items(parts.origin).chain(items(parts.other_reals));
    shape.all(|real| real.is_finite() && real > 0.0)
        && others.map(f32::from_bits).all(f32::is_finite)
}

/// Whether `a` stands before `b` on the Z curve: the highest differing bit
/// decides, at equal height that of the later axis. The numbers to compare are
/// chosen without branches, which would be guessed wrong where positions are
/// scattered.
fn before(a: [u32; 3], b: [u32; 3]) -> bool {
    let zeros = |axis: usize| (a[axis] ^ b[axis]).leading_zeros();
    let (mut least, mut first, mut second) = (zeros(2), a[2], b[2]);
    for axis in [1, 0] {
        if zeros(axis) < least {
            (least, first, second) = (zeros(axis), a[axis], b[axis]);
        }
    }
    first < second
}

/// Whether the nodes of a level, in these rows, rise strictly on the curve.
fn rises(rows: &[u8]) -> bool {
    let (x, rest) = rows.split_at(rows.len() / 4);
    let (y, rest) = rest.split_at(x.len());
    let z = &rest[..x.len()];
    let zipped = items(x).zip(items(y)).zip(items(z));
    let mut positions = zipped.map(|((x, y), z)| [x, y, z]);
    let Some(mut last) = positions.next() else {
        return true;
    };
    positions.all(|position| before(std::mem::replace(&mut last, position), position))
}

/// Test 17.
fn nodes_rise(parts: &Parts) -> bool {
    let mut levels = parts.levels;
    items(parts.counts).all(|count| {
        let (rows, rest) = levels.split_at(16 * count as usize);
        levels = rest;
        rises(rows)
    })
}

/// Checks a manifest: 15, then 16, then 17.
pub fn check(bytes: &[u8]) -> Result<(), u8> {
    let parts = parts(bytes)?;
    if !reals_right(&parts) {
        return Err(16);
    }
    if !nodes_rise(&parts) {
        return Err(17);
    }
    Ok(())
}

/// How many bytes all fragments have together, or 15 to 17.
pub fn fragments(bytes: &[u8]) -> Result<u64, u8> {
    check(bytes)?;
    let parts = parts(bytes)?;
    let mut levels = parts.levels;
    let mut sum = 0;
    for count in items(parts.counts) {
        let (level, rest) = levels.split_at(16 * count as usize);
        levels = rest;
        sum += items(rows(level)[3]).map(u64::from).sum::<u64>();
    }
    Ok(sum)
}

/// A level's rows of items: x, y, z and the fragments' sizes.
fn rows(level: &[u8]) -> [&[u8]; 4] {
    let length = level.len() / 4;
    std::array::from_fn(|row| &level[row * length..(row + 1) * length])
}

/// The rows of a level and where its first fragment starts, or 15 to 18.
fn level_of(bytes: &[u8], level: usize) -> Result<([&[u8]; 4], u64), u8> {
    check(bytes)?;
    let parts = parts(bytes)?;
    let (mut levels, mut start) = (parts.levels, 0);
    let mut counts = items(parts.counts);
    for count in counts.by_ref().take(level) {
        let (level, rest) = levels.split_at(16 * count as usize);
        levels = rest;
        start += items(rows(level)[3]).map(u64::from).sum::<u64>();
    }
    let count = counts.next().ok_or(18)? as usize;
    Ok((rows(&levels[..16 * count]), start))
}

/// Writes x, y, z, fragment start and fragment size of each node of a level to
/// the front of `out` and gives how many numbers these are, or 15 to 18, or 13.
pub fn nodes(bytes: &[u8], level: usize, out: &mut [u64]) -> Result<usize, u8> {
    let (rows, mut start) = level_of(bytes, level)?;
    let length = 5 * (rows[0].len() / 4);
    let out = out.get_mut(..length).ok_or(13)?;
    let [x, y, z, sizes] = rows.map(|row| items(row).map(u64::from));
    let nodes = x.zip(y).zip(z).zip(sizes);
    for (numbers, (((x, y), z), size)) in out.chunks_exact_mut(5).zip(nodes) {
        numbers.copy_from_slice(&[x, y, z, start, size]);
        start += size;
    }
    Ok(length)
}

/// Position, fragment start and fragment size of a node, or 15 to 18.
pub fn node(bytes: &[u8], level: usize, node: usize) -> Result<([u32; 3], u64, u32), u8> {
    let ([x, y, z, sizes], mut start) = level_of(bytes, level)?;
    if node >= x.len() / 4 {
        return Err(18);
    }
    let at = |row: &[u8]| number(&row[4 * node..4 * node + 4]);
    start += items(&sizes[..4 * node]).map(u64::from).sum::<u64>();
    Ok(([at(x), at(y), at(z)], start, at(sizes)))
}
