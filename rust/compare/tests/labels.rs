//! Labels inside a chunk: every cut, every header of a small chunk, all widths
//! and styles, and shapes that say far more voxels than there are bytes.

use compare::sides::{answer, labels};
use coronagamba::{LabelBits, LabelShape, Labels};
use reference::labels::{self as expected, encode, Layout, Style, WIDTHS};
use std::time::{Duration, Instant};
use testkit::{Met, Rng};

/// The styles of the encoder, with every least width.
fn styles() -> impl Iterator<Item = Style> {
    let kinds = [(false, false), (true, false), (false, true), (true, true)];
    WIDTHS.into_iter().flat_map(move |least_width| {
        kinds.map(|(shared, tables_last)| Style {
            least_width,
            shared,
            tables_last,
        })
    })
}

/// Blocks that stick out on each axis, in two channels.
fn layout(wide: bool) -> Layout {
    Layout {
        size: [5, 3, 3],
        block: [2, 2, 2],
        channels: 2,
        wide,
    }
}

fn numbers(rng: &mut Rng, layout: &Layout, kinds: u64) -> Vec<u64> {
    let most = if layout.wide {
        u64::MAX
    } else {
        u64::from(u32::MAX)
    };
    let count = layout.voxels();
    (0..count).map(|_| most - rng.below(kinds)).collect()
}

/// Asks both for the raw form, with and without room, and notes what they give.
fn same_raw(met: &mut Met, layout: &Layout, chunk: &[u8]) -> Result<usize, u8> {
    let opened = Labels::open(labels(layout), chunk);
    let length = expected::unpacked_length(layout).expect("few voxels") as usize;
    let mut given = Err(0);
    for room in [0, length - 1, length + 3] {
        let (mut ours, mut theirs) = (vec![0xa5; room], vec![0xa5; room]);
        given = expected::unpack(chunk, layout, &mut theirs);
        met.note(&given);
        assert_eq!(opened.unpack(&mut ours), answer(given), "room of {room}");
        assert!(ours == theirs, "the output, room of {room}");
    }
    given
}

/// Asks both for each voxel.
fn same_labels(layout: &Layout, chunk: &[u8]) {
    let opened = Labels::open(labels(layout), chunk);
    let [nx, ny, nz] = layout.size;
    for channel in 0..layout.channels {
        for place in 0..nx * ny * nz {
            let [x, y, z] = [place % nx, place / nx % ny, place / (nx * ny)];
            let label = expected::label(chunk, layout, [x, y, z], channel);
            assert_eq!(opened.label(x, y, z, channel), answer(label));
        }
    }
}

/// What is encoded is unpacked to the same labels, in every width and style.
#[test]
fn encoded_and_unpacked() {
    let mut rng = Rng::new(1);
    for wide in [false, true] {
        let layout = layout(wide);
        for kinds in [1, 2, 4, 300] {
            for style in styles() {
                let numbers = numbers(&mut rng, &layout, kinds);
                let chunk = encode(&numbers, &layout, style);
                let raw = Labels::open(labels(&layout), &chunk).unpacked();
                let bytes = numbers.iter().flat_map(|label| {
                    let length = if wide { 8 } else { 4 };
                    label.to_le_bytes().into_iter().take(length)
                });
                assert!(raw.expect("sound").into_iter().eq(bytes), "{style:?}");
            }
        }
    }
}

/// Each cut of a chunk, for a voxel and for all.
#[test]
fn every_cut() {
    let mut rng = Rng::new(2);
    let mut met = Met::new();
    for wide in [false, true] {
        let layout = layout(wide);
        for style in styles().filter(|style| [0, 1, 8, 32].contains(&style.least_width)) {
            let numbers = numbers(&mut rng, &layout, 3);
            let chunk = encode(&numbers, &layout, style);
            for cut in 0..=chunk.len() {
                same_raw(&mut met, &layout, &chunk[..cut]).ok();
                if cut % 4 == 3 {
                    same_labels(&layout, &chunk[..cut]);
                }
            }
        }
    }
    met.assert_exactly(&[0, 13, 28]);
}

/// Each width in each header, also in a chunk that is cut elsewhere: 29 goes
/// before 28.
#[test]
fn every_width_in_every_header() {
    let mut rng = Rng::new(3);
    let mut met = Met::new();
    let layout = layout(false);
    let style = Style {
        least_width: 1,
        tables_last: true,
        ..Style::default()
    };
    let numbers = numbers(&mut rng, &layout, 2);
    let chunk = encode(&numbers, &layout, style);
    let blocks = 3 * 2 * 2;
    for block in 0..blocks {
        for width in 0..=255 {
            let mut chunk = chunk.clone();
            chunk[4 * (2 + 2 * block) + 3] = width;
            let whole = same_raw(&mut met, &layout, &chunk);
            let cut = same_raw(&mut met, &layout, &chunk[..chunk.len() - 1]);
            let known = WIDTHS.contains(&width.into());
            assert_eq!(whole == Err(29), !known);
            assert_eq!(cut, Err(if known { 28 } else { 29 }));
        }
    }
    met.assert_exactly(&[0, 13, 28, 29]);
}

/// Numbers that say far more than ten bytes hold are answered at once, and sums
/// of offsets are never wrapped.
#[test]
fn vast_shapes_on_few_bytes() {
    let vast = [u32::MAX; 3];
    for bits in [LabelBits::B32, LabelBits::B64] {
        for block in [[1; 3], [8; 3], vast] {
            for channels in [1, u32::MAX] {
                let shape = LabelShape::new(vast, block, channels, bits);
                let layout = Layout {
                    size: vast,
                    block,
                    channels,
                    wide: bits == LabelBits::B64,
                };
                for chunk in [
                    &[0; 10][..],
                    &[1, 0, 0, 0, 0, 0, 0, 3, 0, 0, 0, 0],
                    &[0xff; 40],
                ] {
                    let opened = Labels::open(shape, chunk);
                    let refused = opened.unpack(&mut []).expect_err("no room").number;
                    let first = expected::label(chunk, &layout, [0; 3], 0);
                    match (block == vast && channels == 1, first) {
                        // The one block has width 0, or its header refuses all.
                        (true, label) => assert_eq!(refused, label.err().unwrap_or(13)),
                        (false, Err(29)) => assert_eq!(refused, 29),
                        (false, _) => assert_eq!(refused, 28),
                    }
                    for voxel in [[0; 3], [u32::MAX - 1; 3]] {
                        let [x, y, z] = voxel;
                        let label = expected::label(chunk, &layout, voxel, channels - 1);
                        assert_eq!(opened.label(x, y, z, channels - 1), answer(label));
                    }
                }
                assert_eq!(
                    shape.unpacked_length(),
                    answer(expected::unpacked_length(&layout))
                );
            }
        }
    }
}

/// One block of vast extents at width 0 is readable: with no room it is 13.
#[test]
fn vast_and_readable() {
    let chunk: Vec<u8> = [1u32, 2, 0, 7]
        .iter()
        .flat_map(|word| word.to_le_bytes())
        .collect();
    let shape = LabelShape::new([u32::MAX; 3], [u32::MAX; 3], 1, LabelBits::B32);
    let opened = Labels::open(shape, &chunk);
    assert_eq!(opened.label(5, u32::MAX - 1, 9, 0), Ok(7));
    assert_eq!(opened.unpack(&mut [0; 64]).unwrap_err().number, 13);
}

/// Many channels by turns at two places, each with many blocks: both places are
/// looked at once, though there is no room. Each channel anew would take
/// thousands of times as long.
#[test]
fn channels_by_turns_at_two_places() {
    let (channels, blocks) = (50_000, 50_000);
    let mut words = vec![0u32; 1 << 18];
    for (channel, word) in words[..channels].iter_mut().enumerate() {
        *word = (channels + channel % 2 * 2 * blocks) as u32;
    }
    let shape = LabelShape::new(
        [blocks as u32, 1, 1],
        [1; 3],
        channels as u32,
        LabelBits::B32,
    );
    let mut asked = |at: usize, word: u32| {
        words[at] = word;
        let chunk: Vec<u8> = words.iter().flat_map(|word| word.to_le_bytes()).collect();
        let start = Instant::now();
        let refused = Labels::open(shape, &chunk).unpack(&mut []).unwrap_err();
        assert!(start.elapsed() < Duration::from_secs(1), "looked at anew");
        refused.number
    };
    let last = channels + 4 * blocks - 2;
    assert_eq!(asked(last, 0), 13);
    // The last header of the second place: a table past the end, no width.
    assert_eq!(asked(last, 0x00ff_ffff), 28);
    assert_eq!(asked(last, 0x0300_0000), 29);
}
