//! Keys and places of ids in plain Rust, with the same tests in the same order.
//! What is short is marked for inlining, as it would be in its caller's crate.

use coronagamba::{Bounds, Cell, Sharding, Volume};
use std::ops::Range;

/// The grid size, or 2.
#[inline]
pub fn grid(volume: &Volume) -> Result<[u32; 3], u8> {
    let (size, chunk) = (volume.size, volume.chunk);
    let size = [size.x, size.y, size.z];
    let chunk = [chunk.x, chunk.y, chunk.z];
    if size.contains(&0) || chunk.contains(&0) {
        return Err(2);
    }
    Ok(std::array::from_fn(|axis| size[axis].div_ceil(chunk[axis])))
}

/// How many bits a coordinate below `size` needs.
#[inline]
pub fn bits(size: u32) -> u32 {
    32 - (size - 1).leading_zeros()
}

/// Whether a cell lies in a grid.
#[inline]
pub fn inside(grid: [u32; 3], cell: Cell) -> bool {
    let cell = <[u32; 3]>::from(cell);
    (0..3).all(|axis| cell[axis] < grid[axis])
}

/// The key of a cell of a grid whose axes need these bits, bit by bit.
#[inline]
pub fn key_in(bits: [u32; 3], cell: Cell) -> u64 {
    let cell = <[u32; 3]>::from(cell);
    let (mut key, mut place) = (0, 0);
    for bit in 0..bits[0].max(bits[1]).max(bits[2]) {
        for axis in 0..3 {
            if bit < bits[axis] {
                key |= u64::from(cell[axis] >> bit & 1) << place;
                place += 1;
            }
        }
    }
    key
}

/// The key of a cell, or 2 or 3.
#[inline]
pub fn key(volume: &Volume, cell: Cell) -> Result<u64, u8> {
    let grid = grid(volume)?;
    if !inside(grid, cell) {
        return Err(2);
    }
    let bits = grid.map(bits);
    if bits.iter().sum::<u32>() > 64 {
        return Err(3);
    }
    Ok(key_in(bits, cell))
}

/// The keys of many cells, or 2, 3 or 13: the grid worked out once.
pub fn keys(volume: &Volume, cells: &[Cell], keys: &mut [u64]) -> Result<(), u8> {
    let grid = grid(volume)?;
    if !cells.iter().all(|cell| inside(grid, *cell)) {
        return Err(2);
    }
    let bits = grid.map(bits);
    if bits.iter().sum::<u32>() > 64 {
        return Err(3);
    }
    let keys = keys.get_mut(..cells.len()).ok_or(13)?;
    for (key, cell) in keys.iter_mut().zip(cells) {
        *key = key_in(bits, *cell);
    }
    Ok(())
}

/// The keys of a row of cells, or 2, 3 or 13: the grid worked out once.
pub fn row_keys(
    volume: &Volume,
    xs: Range<u32>,
    y: u32,
    z: u32,
    keys: &mut [u64],
) -> Result<(), u8> {
    let grid = grid(volume)?;
    if !xs.is_empty()
        && !inside(
            grid,
            Cell {
                x: xs.end - 1,
                y,
                z,
            },
        )
    {
        return Err(2);
    }
    let bits = grid.map(bits);
    if bits.iter().sum::<u32>() > 64 {
        return Err(3);
    }
    let keys = keys.get_mut(..xs.len()).ok_or(13)?;
    for (key, x) in keys.iter_mut().zip(xs) {
        *key = key_in(bits, Cell { x, y, z });
    }
    Ok(())
}

/// The product of two words, from their halves of 16 bits.
#[inline]
fn by_halves(a: u32, b: u32) -> u32 {
    let (upper, lower) = (a >> 16, a & 0xffff);
    let (upper_too, lower_too) = (b >> 16, b & 0xffff);
    let middle = (upper * lower_too).wrapping_add(lower * upper_too);
    (lower * lower_too).wrapping_add(middle << 16)
}

/// The cells of an axis that share a voxel with a box, first and one past the
/// last.
#[inline]
fn span(offset: i32, size: u32, chunk: u32, lower: i64, upper: i64) -> (u32, u32) {
    let (begin, size, chunk) = (i64::from(offset), i64::from(size), i64::from(chunk));
    let first = lower.max(begin);
    let end = upper.min(begin + size);
    if end <= first {
        return (0, 0);
    }
    let cell = |voxel: i64| ((voxel - begin) / chunk) as u32;
    (cell(first), cell(end - 1) + 1)
}

/// The keys of the cells that share a voxel with a box, rising, or 2, 3 or 13:
/// a loop over these cells, and a sort.
pub fn cover(volume: &Volume, within: Bounds, keys: &mut [u64]) -> Result<usize, u8> {
    let bits = grid(volume)?.map(bits);
    if bits.iter().sum::<u32>() > 64 {
        return Err(3);
    }
    let (
        Volume {
            size,
            chunk,
            offset,
        },
        Bounds { begin, end },
    ) = (*volume, within);
    let x = span(offset.x, size.x, chunk.x, begin.x, end.x);
    let y = span(offset.y, size.y, chunk.y, begin.y, end.y);
    let z = span(offset.z, size.z, chunk.z, begin.z, end.z);
    let wide = |(from, to): (u32, u32)| u128::from(to - from);
    let count = wide(x) * wide(y) * wide(z);
    let keys = usize::try_from(count)
        .ok()
        .and_then(|count| keys.get_mut(..count))
        .ok_or(13)?;
    let mut rest = keys.iter_mut();
    for z in z.0..z.1 {
        for y in y.0..y.1 {
            for (x, key) in (x.0..x.1).zip(&mut rest) {
                *key = key_in(bits, Cell { x, y, z });
            }
        }
    }
    keys.sort_unstable();
    Ok(keys.len())
}

/// Spreads every bit of `h` over all of them.
#[inline]
fn finish(product: impl Fn(u32, u32) -> u32, mut h: u32) -> u32 {
    h = product(h ^ (h >> 16), 0x85eb_ca6b);
    h = product(h ^ (h >> 13), 0xc2b2_ae35);
    h ^ (h >> 16)
}

/// The first 8 bytes of MurmurHash3_x86_128 of an 8-byte number, seed 0, with
/// this product of two words.
#[inline]
fn murmur_with(product: impl Fn(u32, u32) -> u32 + Copy, number: u64) -> u64 {
    let (low, high) = (number as u32, (number >> 32) as u32);
    let one = product(product(low, 0x239b_961b).rotate_left(15), 0xab0e_9789);
    let two = product(product(high, 0xab0e_9789).rotate_left(16), 0x38b3_4ae5);
    // Lanes three and four are equal throughout.
    let (mut a, mut b, mut c) = (one ^ 8, two ^ 8, 8u32);
    a = a.wrapping_add(b).wrapping_add(c).wrapping_add(c);
    b = b.wrapping_add(a);
    c = c.wrapping_add(a);
    (a, b, c) = (finish(product, a), finish(product, b), finish(product, c));
    a = a.wrapping_add(b).wrapping_add(c).wrapping_add(c);
    b = b.wrapping_add(a);
    u64::from(a) | u64::from(b) << 32
}

/// The hash with products of 32 bits.
#[inline]
pub fn murmur(number: u64) -> u64 {
    murmur_with(u32::wrapping_mul, number)
}

/// The hash with products from 16-bit halves.
#[inline]
pub fn murmur_by_halves(number: u64) -> u64 {
    murmur_with(by_halves, number)
}

/// Refusal 1, or nothing.
#[inline]
pub fn judged(sharding: &Sharding) -> Result<(), u8> {
    let allowed = sharding.preshift <= 63
        && sharding.hash <= 1
        && sharding.minishard_bits <= 16
        && sharding.shard_bits <= 32
        && sharding.kind <= 1;
    if allowed {
        Ok(())
    } else {
        Err(1)
    }
}

/// The lowest bits of a number.
#[inline]
fn low(number: u64, bits: u8) -> u64 {
    number & ((1 << bits) - 1)
}

/// The shard and minishard of a hashed id.
#[inline]
pub fn split(sharding: &Sharding, hashed: u64) -> (u64, u64) {
    let shard = low(hashed >> sharding.minishard_bits, sharding.shard_bits);
    (shard, low(hashed, sharding.minishard_bits))
}

/// The hashed id.
#[inline]
pub fn hashed(sharding: &Sharding, id: u64) -> u64 {
    let shifted = id >> sharding.preshift;
    if sharding.hash == 0 {
        shifted
    } else {
        murmur(shifted)
    }
}

/// The shard and minishard of an id, or 1.
#[inline]
pub fn place(sharding: &Sharding, id: u64) -> Result<(u64, u64), u8> {
    judged(sharding)?;
    Ok(split(sharding, hashed(sharding, id)))
}

/// The same as a call that is not inlined, with its results behind pointers, as
/// the library's is.
#[inline(never)]
pub fn place_called(sharding: &Sharding, id: u64, shard: &mut u64, minishard: &mut u64) -> u64 {
    match place(sharding, id) {
        Ok(at) => {
            (*shard, *minishard) = at;
            0
        }
        Err(refusal) => u64::from(refusal),
    }
}

/// The places of many ids, or 1 or 13: judged once, the hash chosen once, with
/// this murmur.
pub fn places(
    sharding: &Sharding,
    ids: &[u64],
    shards: &mut [u64],
    minishards: &mut [u64],
    murmur: impl Fn(u64) -> u64,
) -> Result<(), u8> {
    judged(sharding)?;
    if shards.len() < ids.len() || minishards.len() < ids.len() {
        return Err(13);
    }
    let all = ids.iter().zip(shards.iter_mut().zip(minishards));
    if sharding.hash == 0 {
        for (id, (shard, minishard)) in all {
            (*shard, *minishard) = split(sharding, id >> sharding.preshift);
        }
    } else {
        for (id, (shard, minishard)) in all {
            (*shard, *minishard) = split(sharding, murmur(id >> sharding.preshift));
        }
    }
    Ok(())
}
