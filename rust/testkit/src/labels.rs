//! Chunks of labels in the compressed segmentation encoding.

use crate::Rng;
use reference::labels::{encode, Layout, Style, WIDTHS};

/// A layout of few voxels: extents that are mostly no multiples of the block's.
pub fn layout(rng: &mut Rng) -> Layout {
    Layout {
        size: std::array::from_fn(|_| 1 + rng.below(7) as u32),
        block: std::array::from_fn(|_| 1 + rng.below(5) as u32),
        channels: 1 + rng.below(3) as u32,
        wide: rng.once_in(2),
    }
}

/// A layout of any numbers, 0 and the largest among them.
pub fn wild_layout(rng: &mut Rng) -> Layout {
    Layout {
        size: std::array::from_fn(|_| rng.edge_u32()),
        block: std::array::from_fn(|_| rng.edge_u32()),
        channels: rng.edge_u32(),
        wide: rng.once_in(2),
    }
}

/// A sound chunk of a small layout: few or many labels in a block, any least
/// width, tables shared or not, before or behind the values.
pub fn sound(rng: &mut Rng, layout: &Layout) -> Vec<u8> {
    let most = if layout.wide {
        u64::MAX
    } else {
        u64::from(u32::MAX)
    };
    let kinds = *rng.pick(&[1, 2, 3, 5, 17, 300]);
    let labels: Vec<u64> = (0..layout.voxels())
        .map(|_| most - rng.below(kinds))
        .collect();
    let style = Style {
        least_width: *rng.pick(&WIDTHS),
        shared: rng.once_in(2),
        tables_last: rng.once_in(2),
    };
    encode(&labels, layout, style)
}

/// Word `at` of a chunk set to another number.
fn set(bytes: &mut [u8], at: usize, number: u32) {
    if let Some(word) = bytes.get_mut(4 * at..4 * at + 4) {
        word.copy_from_slice(&number.to_le_bytes());
    }
}

/// Damages a chunk: a cut, a bit, a channel offset, or either word of a header.
pub fn damage(rng: &mut Rng, layout: &Layout, bytes: &mut Vec<u8>) {
    let words = (bytes.len() / 4).max(1);
    let near = |rng: &mut Rng| match rng.below(3) {
        0 => rng.index(words + 2) as u32,
        1 => words as u32 - rng.below(4).min(words as u64) as u32,
        _ => rng.edge_u32(),
    };
    // The headers of the first channel follow the offsets.
    let header = layout.channels as usize + 2 * rng.index(4);
    match rng.below(6) {
        0 => bytes.truncate(rng.index(bytes.len() + 1)),
        1 => {
            let cut = rng.index(8).min(bytes.len());
            bytes.truncate(bytes.len() - cut);
        }
        2 => {
            if !bytes.is_empty() {
                let at = rng.index(bytes.len());
                bytes[at] ^= 1 << rng.below(8);
            }
        }
        3 => set(bytes, rng.index(layout.channels as usize), near(rng)),
        4 => {
            let width = *rng.pick(&[0, 1, 2, 3, 4, 8, 16, 31, 32, 33, 64, 255]);
            let table = near(rng) & 0x00ff_ffff;
            set(bytes, header, width << 24 | table);
        }
        _ => set(bytes, header + 1, near(rng)),
    }
}

/// A layout and a chunk for it: sound, damaged once or more, of another layout,
/// or any bytes.
pub fn any(rng: &mut Rng) -> (Layout, Vec<u8>) {
    let layout = layout(rng);
    let mut bytes = sound(rng, &layout);
    match rng.below(8) {
        0..3 => {}
        3..6 => damage(rng, &layout, &mut bytes),
        6 => (0..3).for_each(|_| damage(rng, &layout, &mut bytes)),
        _ => {
            let length = rng.index(200);
            bytes = rng.bytes(length);
        }
    }
    match rng.below(16) {
        0 => (wild_layout(rng), bytes),
        1 => (self::layout(rng), bytes),
        _ => (layout, bytes),
    }
}
