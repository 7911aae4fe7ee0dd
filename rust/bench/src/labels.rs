//! Labels inside a chunk: unpacking, and the label of a voxel.

use crate::runner::{numbers, touched, Measure};
use bench::plain::labels as plain;
use coronagamba::{LabelBits, LabelShape, Labels};
use reference::labels::{encode, Layout, Style};
use std::hint::black_box;

/// The chunk's extents along each axis, and a block's.
const SIDE: u32 = 64;
const BLOCK: u32 = 8;

/// A chunk of random labels whose blocks all have this width.
fn sample(bits: LabelBits, width: u32) -> (LabelShape, Vec<u8>) {
    let shape = LabelShape::new([SIDE; 3], [BLOCK; 3], 1, bits);
    let layout = Layout {
        size: [SIDE; 3],
        block: [BLOCK; 3],
        channels: 1,
        wide: bits == LabelBits::B64,
    };
    let most = if layout.wide {
        u64::MAX
    } else {
        u64::from(u32::MAX)
    };
    let kinds = 1 << width.min(9);
    let labels: Vec<u64> = numbers(layout.voxels() as usize)
        .into_iter()
        .map(|number| most - number % kinds)
        .collect();
    let style = Style {
        least_width: width,
        ..Style::default()
    };
    (shape, encode(&labels, &layout, style))
}

/// Unpacking, timed by voxel; the limit fills the output.
fn unpacking(bits: LabelBits, width: u32) {
    let (shape, chunk) = sample(bits, width);
    let length = shape.unpacked_length().expect("there are voxels") as usize;
    let (mut ours, mut theirs, mut filled) = (touched(length), touched(length), touched(length));
    let name = format!(
        "unpacking 64x64x64 in 8x8x8, {} bits, width {width}, a voxel",
        8 * bits.bytes()
    );
    let measure = Measure {
        name: &name,
        operations: length / bits.bytes(),
        bar: Some(1.3),
    };
    measure.run_beside(
        || {
            let labels = Labels::open(shape, black_box(&chunk));
            labels.unpack(black_box(&mut ours)).unwrap_or(0) as u64
        },
        || plain::unpack(&shape, black_box(&chunk), black_box(&mut theirs)).unwrap_or(0) as u64,
        || {
            black_box(&mut filled[..]).fill(black_box(7));
            length as u64
        },
    );
    assert!(ours == theirs, "{name}: the bytes");
}

/// Prints the lines.
pub fn run() {
    for bits in [LabelBits::B32, LabelBits::B64] {
        for width in [1, 4, 16] {
            unpacking(bits, width);
        }
    }
}
