//! Mesh manifests. Reals are compared by their bits, so that zeros of both
//! signs differ.

use crate::agree::{guarded, same, same_writing};
use crate::question::{Choice, Reader, Room, Writer};
use crate::{sides, Part};
use coronagamba::manifest::{Field, Level, Manifest, Visit};
use reference::endian::read_u32;
use reference::manifest;
use testkit::{manifests, Lent, Rng};

/// The longest manifest that is asked for its levels.
const LONGEST_FOR_LEVELS: usize = 1 << 16;

/// The check of a manifest.
pub const MANIFEST_CHECK: Part = Part {
    name: "manifest_check",
    about: "the check of a manifest",
    meets: &[0, 15, 16, 17],
    compare: compare_check,
    sample: manifests::any,
};

/// Shape and origin.
pub const MANIFEST_HEADER: Part = Part {
    name: "manifest_header",
    about: "shape and origin of a manifest",
    meets: &[0, 15, 16, 17],
    compare: compare_header,
    sample: manifests::any,
};

/// Scales, vertex offsets and node counts.
pub const MANIFEST_LEVELS: Part = Part {
    name: "manifest_levels",
    about: "scale, vertex offset and node count of each level",
    meets: &[0, 15, 16, 17],
    compare: compare_levels,
    sample: manifests::any,
};

/// A field by its number.
pub const MANIFEST_FIELD: Part = Part {
    name: "manifest_field",
    about: "a field of a manifest by its number",
    meets: &[0, 15, 16, 17, 18],
    compare: compare_field,
    sample: sample_field,
};

/// A node.
pub const MANIFEST_NODE: Part = Part {
    name: "manifest_node",
    about: "position, fragment size and fragment start of a node",
    meets: &[0, 15, 16, 17, 18],
    compare: compare_node,
    sample: sample_node,
};

/// The nodes of a level.
pub const MANIFEST_NODES: Part = Part {
    name: "manifest_nodes",
    about: "the nodes of a level, written into an output",
    meets: &[0, 13, 15, 16, 17, 18],
    compare: compare_nodes,
    sample: sample_nodes,
};

/// The nodes of all levels.
pub const MANIFEST_ALL_NODES: Part = Part {
    name: "manifest_all_nodes",
    about: "all nodes, level by level",
    meets: &[0, 15, 16, 17],
    compare: compare_all_nodes,
    sample: manifests::any,
};

/// The corners of a node.
pub const MANIFEST_CORNERS: Part = Part {
    name: "manifest_corners",
    about: "the corners of a node",
    meets: &[0, 15, 16, 17, 18],
    compare: compare_corners,
    sample: sample_node,
};

fn compare_check(bytes: &[u8]) -> u8 {
    guarded(bytes, |bytes| {
        same(
            format_args!("check of a manifest of {} bytes", bytes.len()),
            Manifest::open(bytes).check(),
            manifest::check(bytes),
        )
    })
}

fn compare_header(bytes: &[u8]) -> u8 {
    guarded(bytes, |bytes| {
        let library = Manifest::open(bytes).header();
        let expected = manifest::header(bytes);
        same(
            format_args!("header of a manifest of {} bytes, by bits", bytes.len()),
            library.map(|header| [header.shape, header.origin].map(|row| row.map(f32::to_bits))),
            expected.map(|header| [header.shape, header.origin].map(|row| row.map(f32::to_bits))),
        )
    })
}

/// The library's field by kind and bits.
fn bits(field: Field) -> (bool, u32) {
    match field {
        Field::Real(real) => (true, real.to_bits()),
        Field::Whole(number) => (false, number),
    }
}

/// The reference's field likewise.
fn expected_bits(field: manifest::Field) -> (bool, u32) {
    match field {
        manifest::Field::Real(real) => (true, real.to_bits()),
        manifest::Field::Whole(number) => (false, number),
    }
}

fn compare_field(bytes: &[u8]) -> u8 {
    let mut reader = Reader::new(bytes);
    let number = reader.choice();
    guarded(reader.rest(), |bytes| {
        let number = number.of(bytes.len() as u64 / 4);
        same(
            format_args!("field {number}, whether it is a real, and its bits"),
            Manifest::open(bytes).field(number).map(bits),
            manifest::field(bytes, number).map(expected_bits),
        )
    })
}

/// Item `number` of a manifest, as its 4 bytes say.
fn item(bytes: &[u8], number: usize) -> u32 {
    read_u32(bytes, 4 * number)
}

/// Scale, vertex offset and node count of each level: the items behind the
/// level count (scope, "Manifest").
fn levels(bytes: &[u8]) -> Vec<(u32, [u32; 3], u32)> {
    let count = item(bytes, 6) as usize;
    (0..count)
        .map(|level| {
            let offset = 7 + count + 3 * level;
            (
                item(bytes, 7 + level),
                std::array::from_fn(|axis| item(bytes, offset + axis)),
                item(bytes, 7 + 4 * count + level),
            )
        })
        .collect()
}

fn compare_levels(bytes: &[u8]) -> u8 {
    // The library is asked for each number by itself and checks the whole
    // manifest each time.
    let bytes = &bytes[..bytes.len().min(LONGEST_FOR_LEVELS)];
    guarded(bytes, |bytes| {
        let library = Manifest::open(bytes).levels();
        same(
            format_args!("levels of a manifest of {} bytes, by bits", bytes.len()),
            library.map(|levels| levels.iter().map(level_bits).collect::<Vec<_>>()),
            manifest::check(bytes).map(|()| levels(bytes)),
        )
    })
}

/// A level's numbers by bits.
fn level_bits(level: &Level) -> (u32, [u32; 3], u32) {
    let offset = level.vertex_offset.map(f32::to_bits);
    (level.scale.to_bits(), offset, level.nodes)
}

fn compare_nodes(bytes: &[u8]) -> u8 {
    let mut reader = Reader::new(bytes);
    let (level, room) = (reader.choice(), reader.room());
    guarded(reader.rest(), |bytes| {
        let level = level.level(bytes);
        let library = Manifest::open(bytes);
        let expected = manifest::nodes(bytes, level);
        let length = room.length(5 * expected.as_ref().map_or(2, Vec::len));
        same(
            format_args!("nodes of level {level}"),
            library.nodes_of(level),
            expected.map(|nodes| nodes.into_iter().map(sides::node).collect()),
        );
        same_writing(
            format_args!("numbers of the nodes of level {level}"),
            &Lent::numbers(&mut Rng::new(length as u64), length),
            |out| library.write_nodes_of(level, out),
            |out| manifest::write_nodes(bytes, level, out),
        )
    })
}

/// All nodes, level by level, or the reference's refusal.
fn visits(bytes: &[u8]) -> Result<Vec<Visit>, u8> {
    let mut visits = Vec::new();
    for level in 0..manifest::level_count(bytes)? {
        for (index, node) in (0..).zip(manifest::nodes(bytes, level.into())?) {
            let node = sides::node(node);
            visits.push(Visit { level, index, node });
        }
    }
    Ok(visits)
}

/// Up to four of these, the first among them.
fn some_of(visits: &[Visit]) -> impl Iterator<Item = &Visit> {
    visits.iter().step_by(visits.len().div_ceil(4).max(1))
}

fn compare_all_nodes(bytes: &[u8]) -> u8 {
    guarded(bytes, |bytes| {
        let library = Manifest::open(bytes);
        let expected = visits(bytes);
        for visit in some_of(expected.as_deref().unwrap_or_default()) {
            let single = library.node(visit.level.into(), visit.index.into());
            assert_eq!(single, Ok(visit.node), "a single node");
        }
        same(
            format_args!("all nodes of a manifest of {} bytes", bytes.len()),
            library.nodes().map(Iterator::collect),
            expected,
        )
    })
}

/// A level and a node to ask for, and the manifest.
fn node_question(bytes: &[u8]) -> (Choice, Choice, &[u8]) {
    let mut reader = Reader::new(bytes);
    (reader.choice(), reader.choice(), reader.rest())
}

fn compare_node(bytes: &[u8]) -> u8 {
    let (level, node, bytes) = node_question(bytes);
    guarded(bytes, |bytes| {
        let level = level.level(bytes);
        let node = node.node(bytes, level);
        same(
            format_args!("node {node} of level {level}"),
            Manifest::open(bytes).node(level, node),
            manifest::node(bytes, level, node).map(sides::node),
        )
    })
}

fn compare_corners(bytes: &[u8]) -> u8 {
    let (level, node, bytes) = node_question(bytes);
    guarded(bytes, |bytes| {
        let level = level.level(bytes);
        let node = node.node(bytes, level);
        let corners = Manifest::open(bytes).corners(level, node);
        same(
            format_args!("corners of node {node} of level {level}, by bits"),
            corners.map(|corners| [corners.near, corners.far].map(|row| row.map(f32::to_bits))),
            manifest::corners(bytes, level, node).map(|corners| [corners.near, corners.far]),
        )
    })
}

fn sample_field(rng: &mut Rng) -> Vec<u8> {
    let bytes = manifests::any(rng);
    let number = rng.below(bytes.len() as u64 / 4 + 1);
    Writer::new()
        .choice(Choice::draw(rng, number))
        .rest(&bytes)
        .finish()
}

fn sample_node(rng: &mut Rng) -> Vec<u8> {
    let bytes = manifests::any(rng);
    let (level, node) = manifests::question(rng, &bytes);
    Writer::new()
        .choice(Choice::draw_near(rng, level))
        .choice(Choice::draw(rng, node))
        .rest(&bytes)
        .finish()
}

fn sample_nodes(rng: &mut Rng) -> Vec<u8> {
    let bytes = manifests::any(rng);
    let (level, _) = manifests::question(rng, &bytes);
    Writer::new()
        .choice(Choice::draw_near(rng, level))
        .room(Room::draw(rng))
        .rest(&bytes)
        .finish()
}
