//! The labels inside a chunk: chunks written by hand, all widths, several
//! channels, blocks that stick out, every cut.

use coronagamba::{LabelBits, LabelNumbers, LabelShape, Labels, Refusal};

/// A chunk of these words.
fn bytes(words: &[u32]) -> Vec<u8> {
    words.iter().flat_map(|word| word.to_le_bytes()).collect()
}

/// One block of 2 by 2 by 2 voxels, width 1, table at word 3 and values at word
/// 2 of its channel.
const WORKED: [u32; 6] = [1, 0x0100_0003, 2, 0xa5, 7, 9];

fn two(bits: LabelBits) -> LabelShape {
    LabelShape::new([2; 3], [2; 3], 1, bits)
}

/// All labels by asking for each, x fastest, then y, z and channel.
fn asked(labels: &Labels) -> Result<Vec<u64>, Refusal> {
    let LabelShape { size, channels, .. } = labels.shape();
    let mut all = Vec::new();
    for channel in 0..channels {
        for z in 0..size.z {
            for y in 0..size.y {
                for x in 0..size.x {
                    all.push(labels.label(x, y, z, channel)?);
                }
            }
        }
    }
    Ok(all)
}

/// The raw form of labels.
fn raw(labels: &[u64], bits: LabelBits) -> Vec<u8> {
    let bytes = |label: &u64| label.to_le_bytes()[..bits.bytes()].to_vec();
    labels.iter().flat_map(bytes).collect()
}

#[test]
fn the_worked_chunk() {
    let chunk = bytes(&WORKED);
    let labels = Labels::open(two(LabelBits::B32), &chunk);
    let expected = [9, 7, 9, 7, 7, 9, 7, 9];
    assert_eq!(asked(&labels), Ok(expected.to_vec()));
    assert_eq!(labels.unpacked_length(), Ok(32));
    assert_eq!(labels.unpacked(), Ok(raw(&expected, LabelBits::B32)));
    let numbers = expected.map(|label| label as u32).to_vec();
    assert_eq!(labels.unpacked_numbers(), Ok(LabelNumbers::B32(numbers)));
    assert_eq!(labels.bytes(), chunk);
    // As labels of 64 bits the table's first entry is both words, and its second
    // is not there.
    let wide = Labels::open(two(LabelBits::B64), &chunk);
    assert_eq!(wide.label(1, 0, 0, 0), Ok(7 + (9 << 32)));
    assert_eq!(wide.label(0, 0, 0, 0).unwrap_err().number, 28);
    assert_eq!(wide.unpacked().unwrap_err().number, 28);
}

/// Each width, with two channels, the second of which has the blocks of the
/// first in reverse order, over extents that no block divides. A voxel's label
/// is 1000 times its block's number and its number in the block, as far as that
/// fits the width.
fn of_width(width: u32, bits: LabelBits) -> (LabelShape, Vec<u8>, Vec<u64>) {
    let (size, block) = ([5u32, 4, 3], [3u32, 2, 2]);
    let grid = [2u32, 2, 2];
    let (blocks, voxels) = (8, 12u32);
    let words = if bits == LabelBits::B64 { 2 } else { 1 };
    let entries = if width < 4 { 1 << width } else { voxels };
    let packed = (voxels * width).div_ceil(32);
    let label = |block: u32, value: u32| match bits {
        LabelBits::B32 => u64::from(1000 * block + value),
        LabelBits::B64 => u64::from(1000 * block + value) << 20 | 1,
    };
    let value = |number: u32| match width {
        0 => 0,
        32 => number,
        _ => number % (1 << width),
    };
    // Header, table, values, behind one another for each block.
    let each = entries * words + packed;
    let mut channels = [Vec::new(), Vec::new()];
    for (channel, data) in channels.iter_mut().enumerate() {
        let order = |place: u32| {
            if channel == 0 {
                place
            } else {
                blocks - 1 - place
            }
        };
        for place in 0..blocks {
            let at = 2 * blocks + order(place) * each;
            data.extend([width << 24 | at, at + entries * words]);
        }
        for place in 0..blocks {
            for entry in 0..entries {
                let label = label(order(place), entry);
                data.push(label as u32);
                if bits == LabelBits::B64 {
                    data.push((label >> 32) as u32);
                }
            }
            let mut values = vec![0u32; packed as usize];
            for number in 0..voxels {
                let bit = number * width;
                if width > 0 {
                    values[bit as usize / 32] |= value(number) << (bit % 32);
                }
            }
            data.extend(values);
        }
    }
    let [first, second] = channels;
    let chunk = bytes(&[&[2, 2 + first.len() as u32][..], &first, &second].concat());
    let mut expected = Vec::new();
    for _channel in 0..2 {
        for z in 0..size[2] {
            for y in 0..size[1] {
                for x in 0..size[0] {
                    let [i, j, k] = [x / block[0], y / block[1], z / block[2]];
                    let [u, v, w] = [x % block[0], y % block[1], z % block[2]];
                    let number = u + block[0] * (v + block[1] * w);
                    let place = i + grid[0] * (j + grid[1] * k);
                    expected.push(label(place, value(number)));
                }
            }
        }
    }
    (LabelShape::new(size, block, 2, bits), chunk, expected)
}

#[test]
fn all_widths() {
    for bits in [LabelBits::B32, LabelBits::B64] {
        for width in [0, 1, 2, 4, 8, 16, 32] {
            let (shape, chunk, expected) = of_width(width, bits);
            let labels = Labels::open(shape, &chunk);
            assert_eq!(asked(&labels).as_ref(), Ok(&expected), "width {width}");
            assert_eq!(labels.unpacked(), Ok(raw(&expected, bits)));
            let numbers = match bits {
                LabelBits::B32 => LabelNumbers::B32(expected.iter().map(|n| *n as u32).collect()),
                LabelBits::B64 => LabelNumbers::B64(expected),
            };
            assert_eq!(labels.unpacked_numbers(), Ok(numbers));
        }
        for width in (0..=255).filter(|width| ![0, 1, 2, 4, 8, 16, 32].contains(width)) {
            let (shape, mut chunk, _) = of_width(4, bits);
            // The header of the first channel's last block.
            chunk[4 * (2 + 2 * 7) + 3] = width;
            let labels = Labels::open(shape, &chunk);
            assert_eq!(labels.label(4, 3, 2, 0).unwrap_err().number, 29);
            assert_eq!(labels.label(4, 3, 2, 1).map(|_| ()), Ok(()));
            assert_eq!(labels.unpacked().unwrap_err().number, 29);
            // 29 goes before 28.
            let cut = Labels::open(shape, &chunk[..chunk.len() - 1]);
            assert_eq!(cut.unpacked().unwrap_err().number, 29);
        }
    }
}

/// Whatever is cut off, asking for each voxel and unpacking say the same.
#[test]
fn every_cut() {
    for bits in [LabelBits::B32, LabelBits::B64] {
        for width in [0, 1, 8] {
            let (shape, chunk, expected) = of_width(width, bits);
            let room = vec![7; expected.len() * bits.bytes()];
            for end in 0..chunk.len() {
                let labels = Labels::open(shape, &chunk[..end]);
                assert_eq!(asked(&labels).unwrap_err().number, 28);
                let mut out = room.clone();
                assert_eq!(labels.unpack(&mut out).unwrap_err().number, 28);
                assert_eq!(labels.unpack(&mut []).unwrap_err().number, 28);
                assert!(out == room, "a refusal leaves the output as it was");
            }
            assert_eq!(
                Labels::open(shape, &chunk)
                    .unpack(&mut [])
                    .unwrap_err()
                    .number,
                13
            );
        }
    }
}

#[test]
fn nothing_past_the_raw_form_is_touched() {
    let (shape, chunk, expected) = of_width(4, LabelBits::B64);
    let labels = Labels::open(shape, &chunk);
    let length = expected.len() * 8;
    assert_eq!(labels.unpacked_length(), Ok(length as u64));
    let mut out = vec![0xee; length + 9];
    assert_eq!(
        labels.unpack(&mut out[..length - 1]).unwrap_err().number,
        13
    );
    assert!(out.iter().all(|byte| *byte == 0xee));
    assert_eq!(labels.unpack(&mut out), Ok(length));
    assert_eq!(out[..length], raw(&expected, LabelBits::B64));
    assert_eq!(out[length..], [0xee; 9]);
}

#[test]
fn no_such_voxel() {
    let chunk = bytes(&WORKED);
    let open = |size: [u32; 3], block: [u32; 3], channels| {
        Labels::open(
            LabelShape::new(size, block, channels, LabelBits::B32),
            &chunk,
        )
    };
    for axis in 0..3 {
        let zero = |extent: u32| std::array::from_fn(|i| if i == axis { 0 } else { extent });
        for labels in [open(zero(2), [2; 3], 1), open([2; 3], zero(2), 1)] {
            assert_eq!(labels.label(0, 0, 0, 0).unwrap_err().number, 2);
            assert_eq!(labels.unpacked_length().unwrap_err().number, 2);
            assert_eq!(labels.unpack(&mut [0; 99]).unwrap_err().number, 2);
            assert_eq!(labels.unpacked().unwrap_err().number, 2);
            assert_eq!(labels.unpacked_numbers().unwrap_err().number, 2);
        }
        let [x, y, z] = std::array::from_fn(|i| if i == axis { 2 } else { 1 });
        let labels = open([2; 3], [2; 3], 1);
        assert_eq!(labels.label(x, y, z, 0).unwrap_err().number, 2);
    }
    let labels = open([2; 3], [2; 3], 1);
    assert_eq!(labels.label(1, 1, 1, 1).unwrap_err().number, 2);
    assert_eq!(open([2; 3], [2; 3], 0).unpacked().unwrap_err().number, 2);
    assert_eq!(open([2; 3], [2; 3], 2).unpacked().unwrap_err().number, 28);
}

/// Extents that no memory holds are answered at once: a header that is to be
/// read is not there, or every label is, and then no output has the room.
#[test]
fn extents_beyond_all_memory() {
    let largest = LabelShape::new([u32::MAX; 3], [1; 3], u32::MAX, LabelBits::B64);
    let ten = Labels::open(largest, &[0; 10]);
    assert_eq!(ten.unpacked_length().unwrap_err().number, 13);
    assert_eq!(ten.unpacked().unwrap_err().number, 28);
    assert_eq!(ten.unpacked_numbers().unwrap_err().number, 28);
    // One block of width 0 has them all.
    let chunk = bytes(&[1, 2, 0, 5]);
    for size in [[u32::MAX; 3], [u32::MAX, u32::MAX, 1]] {
        let one = LabelShape::new(size, size, 1, LabelBits::B32);
        let labels = Labels::open(one, &chunk);
        assert_eq!(labels.label(u32::MAX - 1, 7, 0, 0), Ok(5));
        assert_eq!(labels.unpacked().unwrap_err().number, 13);
        assert_eq!(labels.unpacked_numbers().unwrap_err().number, 13);
    }
}
