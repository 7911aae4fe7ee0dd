//! Labels inside a chunk in plain Rust, with the same tests in the same order:
//! first every header, then what the values of each block name, then the raw
//! form, block by block in each row. Products of extents are 128 bits wide.

use coronagamba::{LabelBits, LabelShape};

/// A chunk's words.
#[derive(Clone, Copy)]
struct Words<'a>(&'a [u8]);

impl Words<'_> {
    fn len(self) -> usize {
        self.0.len() / 4
    }

    #[inline]
    fn at(self, i: usize) -> u32 {
        u32::from_le_bytes(self.0[4 * i..4 * i + 4].try_into().expect("four bytes"))
    }
}

/// A block's header, with its channel's beginning added to both places.
#[derive(Clone, Copy)]
struct Header {
    table: usize,
    width: u32,
    values: usize,
}

impl Header {
    #[inline]
    fn read(words: Words<'_>, start: usize, number: usize) -> Self {
        let first = words.at(start + 2 * number);
        Header {
            table: start + (first & 0x00ff_ffff) as usize,
            width: first >> 24,
            values: start + words.at(start + 2 * number + 1) as usize,
        }
    }

    /// The value of the voxel number `m`; the width is not 0.
    #[inline]
    fn value(self, words: Words<'_>, m: usize) -> usize {
        let bit = m * self.width as usize;
        let shifted = words.at(self.values + bit / 32) >> (bit % 32);
        (u64::from(shifted) & ((1 << self.width) - 1)) as usize
    }
}

/// The extents as counts, and what follows from them.
struct Shape {
    size: [usize; 3],
    block: [usize; 3],
    grid: [usize; 3],
    entry: usize,
}

impl Shape {
    fn new(shape: &LabelShape) -> Self {
        let size = <[u32; 3]>::from(shape.size).map(|n| n as usize);
        let block = <[u32; 3]>::from(shape.block).map(|n| n as usize);
        Shape {
            size,
            block,
            grid: std::array::from_fn(|axis| size[axis].div_ceil(block[axis])),
            entry: shape.bits.bytes() / 4,
        }
    }

    /// How many voxels of block `at` along an axis lie inside.
    #[inline]
    fn span(&self, axis: usize, at: usize) -> usize {
        self.block[axis].min(self.size[axis] - self.block[axis] * at)
    }

    /// Whether each value of a block names a whole entry.
    fn is_readable(&self, words: Words<'_>, header: Header, inside: [usize; 3]) -> bool {
        let (entries, bx, by) = (words.len(), self.block[0], self.block[1]);
        if header.width == 0 {
            return header.table + self.entry <= entries;
        }
        let row = |v: usize, w: usize| bx * (v + by * w);
        let last = inside[0] - 1 + row(inside[1] - 1, inside[2] - 1);
        if words.len() <= header.values + last * header.width as usize / 32 {
            return false;
        }
        if header.table + (self.entry << header.width) <= entries {
            return true;
        }
        (0..inside[2]).all(|w| {
            (0..inside[1]).all(|v| {
                (0..inside[0]).all(|u| {
                    let value = header.value(words, u + row(v, w));
                    header.table + self.entry * (value + 1) <= entries
                })
            })
        })
    }
}

/// 29, else 28, else 0.
fn refusal(words: Words<'_>, shape: &Shape, channels: usize) -> u8 {
    let [gx, gy, gz] = shape.grid;
    let blocks = gx as u128 * gy as u128 * gz as u128;
    let mut worst = 0;
    for channel in 0..channels {
        if words.len() <= channel {
            return worst.max(28);
        }
        let start = words.at(channel) as usize;
        let mut number = 0;
        while number < blocks {
            let at = start + 2 * number as usize;
            if words.len() < at + 2 {
                worst = 28;
                break;
            }
            if !matches!(words.at(at) >> 24, 0 | 1 | 2 | 4 | 8 | 16 | 32) {
                return 29;
            }
            number += 1;
        }
    }
    if worst > 0 {
        return worst;
    }
    for channel in 0..channels {
        let start = words.at(channel) as usize;
        for k in 0..gz {
            for j in 0..gy {
                for i in 0..gx {
                    let inside = [shape.span(0, i), shape.span(1, j), shape.span(2, k)];
                    let header = Header::read(words, start, i + gx * (j + gy * k));
                    if !shape.is_readable(words, header, inside) {
                        return 28;
                    }
                }
            }
        }
    }
    0
}

/// A run of voxels of one block; each label has `N` bytes.
#[inline]
fn put_run<const N: usize>(chunk: &[u8], header: Header, from: usize, run: &mut [u8]) {
    let words = Words(chunk);
    if header.width == 0 {
        let label = &chunk[4 * header.table..4 * header.table + N];
        for out in run.chunks_exact_mut(N) {
            out.copy_from_slice(label);
        }
        return;
    }
    for (u, out) in run.chunks_exact_mut(N).enumerate() {
        let at = 4 * header.table + N * header.value(words, from + u);
        out.copy_from_slice(&chunk[at..at + N]);
    }
}

/// The raw form of a chunk that is not refused.
fn put_all<const N: usize>(chunk: &[u8], shape: &Shape, channels: usize, out: &mut [u8]) {
    let words = Words(chunk);
    let ([nx, ny, nz], [bx, by, bz], [gx, gy, _]) = (shape.size, shape.block, shape.grid);
    let mut rest = out;
    for channel in 0..channels {
        let start = words.at(channel) as usize;
        for z in 0..nz {
            for y in 0..ny {
                let (row, rows) = rest.split_at_mut(N * nx);
                rest = rows;
                let first = gx * (y / by + gy * (z / bz));
                let from = bx * (y % by + by * (z % bz));
                for (i, run) in row.chunks_mut(N * bx).enumerate() {
                    let header = Header::read(words, start, first + i);
                    put_run::<N>(chunk, header, from, run);
                }
            }
        }
    }
}

/// A whole chunk in the raw form at the front of `out`, and its length.
pub fn unpack(shape: &LabelShape, chunk: &[u8], out: &mut [u8]) -> Result<usize, u8> {
    let extents = [shape.size, shape.block].map(<[u32; 3]>::from);
    if extents.as_flattened().contains(&0) || shape.channels == 0 {
        return Err(2);
    }
    let held = Shape::new(shape);
    let channels = shape.channels as usize;
    match refusal(Words(chunk), &held, channels) {
        0 => {}
        number => return Err(number),
    }
    let factors = held.size.into_iter().chain([channels]);
    let voxels: u128 = factors.map(|n| n as u128).product();
    let bytes = voxels.checked_mul(shape.bits.bytes() as u128);
    let length = bytes
        .filter(|bytes| *bytes <= out.len() as u128)
        .ok_or(13)? as usize;
    match shape.bits {
        LabelBits::B32 => put_all::<4>(chunk, &held, channels, &mut out[..length]),
        LabelBits::B64 => put_all::<8>(chunk, &held, channels, &mut out[..length]),
    }
    Ok(length)
}
