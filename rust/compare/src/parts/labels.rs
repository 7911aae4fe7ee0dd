//! Labels inside a chunk.

use crate::agree::{guarded, same, same_writing};
use crate::question::{Reader, Room, Writer};
use crate::{sides, Part};
use coronagamba::Labels;
use reference::labels::{self, Layout};
use testkit::labels as samples;
use testkit::{Lent, Rng};

/// The most voxels that the reference is asked for one by one.
const MOST_VOXELS: u128 = 1 << 14;

/// The label of a voxel.
pub const LABEL: Part = Part {
    name: "label",
    about: "the label of a voxel inside a chunk",
    meets: &[0, 2, 28, 29],
    compare: compare_label,
    sample: sample_label,
};

/// The length of a raw form.
pub const UNPACKED_LENGTH: Part = Part {
    name: "unpacked_length",
    about: "the length of a chunk of labels in the raw form",
    meets: &[0, 2, 13],
    compare: compare_unpacked_length,
    sample: sample_unpacked_length,
};

/// A whole chunk.
pub const UNPACK: Part = Part {
    name: "unpack",
    about: "a chunk of labels in the raw form, which is what asking for each voxel gives",
    meets: &[0, 2, 13, 28, 29],
    compare: compare_unpack,
    sample: sample_unpack,
};

/// A place to be chosen on each of four axes: x, y, z and the channel.
fn chosen(kind: u8, numbers: [u32; 4], layout: &Layout) -> [u32; 4] {
    let [x, y, z] = layout.size;
    let limits = [x, y, z, layout.channels];
    std::array::from_fn(|axis| match kind >> (2 * axis) & 3 {
        0 => numbers[axis],
        1 => numbers[axis] % limits[axis].max(1),
        2 => limits[axis].saturating_sub(1),
        _ => limits[axis],
    })
}

fn compare_label(bytes: &[u8]) -> u8 {
    let mut reader = Reader::new(bytes);
    let layout = reader.layout();
    let (kind, numbers) = (reader.byte(), reader.four());
    guarded(reader.rest(), |chunk| {
        let [x, y, z, channel] = chosen(kind, numbers, &layout);
        same(
            format_args!("label of {x},{y},{z} in channel {channel} of {layout:?}"),
            Labels::open(sides::labels(&layout), chunk).label(x, y, z, channel),
            labels::label(chunk, &layout, [x, y, z], channel),
        )
    })
}

fn compare_unpacked_length(bytes: &[u8]) -> u8 {
    let layout = Reader::new(bytes).layout();
    same(
        format_args!("unpacked length of {layout:?}"),
        sides::labels(&layout).unpacked_length(),
        labels::unpacked_length(&layout),
    )
}

fn compare_unpack(bytes: &[u8]) -> u8 {
    let mut reader = Reader::new(bytes);
    let (layout, room) = (reader.layout(), reader.room());
    if layout.voxels() > MOST_VOXELS {
        return compare_unpacked_length(bytes);
    }
    guarded(reader.rest(), |chunk| {
        let opened = Labels::open(sides::labels(&layout), chunk);
        let needed = labels::unpacked_length(&layout).unwrap_or(0);
        let length = room.length(needed as usize);
        let met = same_writing(
            format_args!("unpacking of {layout:?}"),
            &Lent::new(&mut Rng::new(length as u64), length),
            |out| opened.unpack(out),
            |out| labels::unpack(chunk, &layout, out),
        );
        if met == 0 {
            assert_asked(&opened, &layout);
        }
        met
    })
}

/// What is unpacked is what the library gives for each voxel.
fn assert_asked(opened: &Labels, layout: &Layout) {
    let raw = opened.unpacked().expect("it was unpacked before");
    let mut labels = raw.chunks_exact(if layout.wide { 8 } else { 4 });
    let [nx, ny, nz] = layout.size;
    for channel in 0..layout.channels {
        for (z, y, x) in
            (0..nz).flat_map(|z| (0..ny).flat_map(move |y| (0..nx).map(move |x| (z, y, x))))
        {
            let mut label = [0; 8];
            let bytes = labels.next().expect("a label for each voxel");
            label[..bytes.len()].copy_from_slice(bytes);
            let asked = opened.label(x, y, z, channel);
            assert_eq!(
                asked,
                Ok(u64::from_le_bytes(label)),
                "{x},{y},{z} in {channel}"
            );
        }
    }
    assert!(labels.next().is_none(), "no label more");
}

fn sample_label(rng: &mut Rng) -> Vec<u8> {
    let (layout, chunk) = samples::any(rng);
    let kind = (0..4).fold(0, |kind, _| kind << 2 | rng.pick(&[0, 1, 1, 1, 1, 2, 2, 3]));
    let numbers = std::array::from_fn(|_| rng.edge_u32());
    let kind = if rng.once_in(2) { 0b0101_0101 } else { kind };
    let writer = Writer::new().layout(&layout).byte(kind).four(numbers);
    writer.rest(&chunk).finish()
}

fn sample_unpacked_length(rng: &mut Rng) -> Vec<u8> {
    let layout = if rng.once_in(2) {
        samples::wild_layout(rng)
    } else {
        let size = std::array::from_fn(|_| rng.edge(21) as u32);
        Layout {
            size,
            ..samples::layout(rng)
        }
    };
    Writer::new().layout(&layout).finish()
}

fn sample_unpack(rng: &mut Rng) -> Vec<u8> {
    let (layout, chunk) = samples::any(rng);
    let writer = Writer::new().layout(&layout).room(Room::draw(rng));
    writer.rest(&chunk).finish()
}
