//! Mesh shards: the parts of shards and settling on specifications of any kind,
//! and the fragment of a node.

use super::settle::{compare_same, compare_settle, compare_settled_length, compare_unlisted};
use super::shard::{
    compare_check, compare_chunks, compare_listed_count, compare_listing, compare_lookup,
    minishard, of_kinds,
};
use crate::agree::{guarded, same};
use crate::question::{Choice, Reader, Room, Writer};
use crate::{sides, Part, LISTS_DIFFER};
use coronagamba::{Shard, Span};
use reference::settle::content_of;
use reference::shard;
use reference::sharding::Sharding;
use testkit::meshes::{self, Difference};
use testkit::shards::{self, Sample};
use testkit::Rng;

/// An id's place and its manifest.
pub const MESH_LOOKUP: Part = Part {
    name: "mesh_lookup",
    about: "the place of an id's manifest in a mesh shard, and the manifest",
    meets: &[0, 1, 5, 6, 7, 8, 9, 10, 11, 12, 15, 16, 17, 21],
    compare: |bytes| of_kinds(bytes, compare_lookup),
    sample: sample_lookup,
};

/// The fragment of a node.
pub const FRAGMENT: Part = Part {
    name: "fragment",
    about: "the place of a node's fragment in a mesh shard, and the fragment",
    meets: &[0, 1, 5, 6, 7, 8, 9, 10, 11, 12, 15, 16, 17, 18, 21],
    compare: |bytes| of_kinds(bytes, compare_fragment),
    sample: sample_fragment,
};

/// The whole-shard check.
pub const MESH_CHECK: Part = Part {
    name: "mesh_check",
    about: "the check of a mesh shard, the minishard and the position that it names",
    meets: &[0, 1, 5, 6, 7, 8, 9, 10, 11, 15, 16, 17, 21],
    compare: |bytes| of_kinds(bytes, compare_check),
    sample: sample_check,
};

/// All manifests of a shard.
pub const MESH_CHUNKS: Part = Part {
    name: "mesh_chunks",
    about: "all manifests of a sound mesh shard",
    meets: &[0, 1, 5, 6, 7, 8, 9, 10, 11, 15, 16, 17, 21],
    compare: |bytes| of_kinds(bytes, compare_chunks),
    sample: sample_check,
};

/// How many manifests a minishard lists.
pub const MESH_LISTED_COUNT: Part = Part {
    name: "mesh_listed_count",
    about: "how many manifests a minishard lists",
    meets: &[0, 1, 5, 6, 7, 8, 9, 10, 11, 15, 16, 17, 21, 33],
    compare: |bytes| of_kinds(bytes, compare_listed_count),
    sample: sample_listed_count,
};

/// The manifests that a minishard lists.
pub const MESH_LISTING: Part = Part {
    name: "mesh_listing",
    about: "the manifests that a minishard lists",
    meets: &[0, 1, 5, 6, 7, 8, 9, 10, 11, 13, 15, 16, 17, 21, 33],
    compare: |bytes| of_kinds(bytes, compare_listing),
    sample: sample_listing,
};

/// How many bytes are unlisted.
pub const MESH_UNLISTED: Part = Part {
    name: "mesh_unlisted",
    about: "how many bytes of a mesh shard nothing lists",
    meets: &[0, 1, 5, 6, 7, 8, 9, 10, 11, 15, 16, 17, 21],
    compare: |bytes| of_kinds(bytes, compare_unlisted),
    sample: sample_unlisted,
};

/// The length of a settled form.
pub const MESH_SETTLED_LENGTH: Part = Part {
    name: "mesh_settled_length",
    about: "the length of a mesh shard's settled form",
    meets: &[0, 1, 5, 6, 7, 8, 9, 10, 11, 13, 15, 16, 17, 21, 22],
    compare: |bytes| of_kinds(bytes, compare_settled_length),
    sample: sample_settled_length,
};

/// A settled form.
pub const MESH_SETTLE: Part = Part {
    name: "mesh_settle",
    about: "a mesh shard's settled form, which is sound, settles to itself and lists the same",
    meets: &[0, 1, 5, 6, 7, 8, 9, 10, 11, 13, 15, 16, 17, 21, 22],
    compare: |bytes| of_kinds(bytes, compare_settle),
    sample: sample_settle,
};

/// Two shards and their settled forms.
pub const MESH_SAME: Part = Part {
    name: "mesh_same",
    about: "two mesh shards, whose settled forms are equal exactly where they list the same",
    meets: &[
        0,
        1,
        5,
        6,
        7,
        8,
        9,
        10,
        11,
        13,
        15,
        16,
        17,
        21,
        LISTS_DIFFER,
    ],
    compare: |bytes| of_kinds(bytes, compare_same),
    sample: sample_same,
};

fn compare_fragment(sharding: Sharding, mut reader: Reader) -> u8 {
    let (number, id) = (reader.choice(), reader.choice());
    let (level, node) = (reader.choice(), reader.choice());
    guarded(reader.rest(), |file| {
        let (number, id) = (number.shard(&sharding, file), id.id(&sharding, file));
        let manifest = shard::lookup_part(&meshes::as_volume(&sharding), number, id, file);
        let level = level.level(manifest);
        let node = node.node(manifest, level);
        let opened = Shard::open(sides::sharding(&sharding), number, file);
        let expected = shard::fragment(&sharding, number, id, level, node, file);
        let asked = format!("node {node} of level {level} of {id} in shard {number}");
        same(
            format_args!("fragment of {asked} under {sharding:?}"),
            opened.fragment(id, level, node),
            expected.map(|fragment| fragment.bytes(file)),
        );
        same(
            format_args!("lookup of the fragment of {asked} under {sharding:?}"),
            opened.lookup_fragment(id, level, node),
            expected.map(|fragment| Span {
                start: fragment.start,
                length: fragment.length,
            }),
        )
    })
}

/// A question's front: the sample's specification and mostly its number.
fn front(rng: &mut Rng, sample: &Sample) -> Writer {
    Writer::new()
        .sharding_of_kinds(&sample.sharding)
        .choice(Choice::draw_near(rng, sample.number))
}

fn sample_lookup(rng: &mut Rng) -> Vec<u8> {
    let sample = meshes::any(rng);
    let id = shards::question(rng, &sample);
    front(rng, &sample)
        .choice(Choice::draw(rng, id))
        .rest(&sample.file)
        .finish()
}

fn sample_fragment(rng: &mut Rng) -> Vec<u8> {
    let sample = meshes::any(rng);
    let (id, level, node) = meshes::question(rng, &sample);
    front(rng, &sample)
        .choice(Choice::draw_near(rng, id))
        .choice(Choice::draw_near(rng, level))
        .choice(Choice::draw_near(rng, node))
        .rest(&sample.file)
        .finish()
}

fn sample_check(rng: &mut Rng) -> Vec<u8> {
    let sample = meshes::any(rng);
    front(rng, &sample).rest(&sample.file).finish()
}

fn sample_listed_count(rng: &mut Rng) -> Vec<u8> {
    let sample = meshes::any(rng);
    front(rng, &sample)
        .choice(minishard(rng, &sample.sharding))
        .rest(&sample.file)
        .finish()
}

fn sample_listing(rng: &mut Rng) -> Vec<u8> {
    let sample = meshes::any(rng);
    front(rng, &sample)
        .choice(minishard(rng, &sample.sharding))
        .room(Room::draw(rng))
        .rest(&sample.file)
        .finish()
}

/// A shard of any kind, now and then one whose settled form has about a
/// gibibyte.
fn sample(rng: &mut Rng) -> Sample {
    if rng.once_in(300) {
        meshes::brimming(rng)
    } else {
        meshes::any(rng)
    }
}

fn sample_unlisted(rng: &mut Rng) -> Vec<u8> {
    let sample = sample(rng);
    front(rng, &sample).rest(&sample.file).finish()
}

fn sample_settled_length(rng: &mut Rng) -> Vec<u8> {
    let sample = sample(rng);
    let begun = front(rng, &sample).byte(rng.below(2) as u8);
    begun.rest(&sample.file).finish()
}

fn sample_settle(rng: &mut Rng) -> Vec<u8> {
    let sample = sample(rng);
    front(rng, &sample)
        .byte(rng.below(2) as u8)
        .room(Room::draw(rng))
        .rest(&sample.file)
        .finish()
}

/// Two files for one specification and number, which mostly list the same nets
/// or differ in one respect: the first one with its length.
fn pair(rng: &mut Rng) -> (Sample, usize) {
    if rng.once_in(300) {
        let sample = meshes::brimming(rng);
        let length = sample.file.len();
        return (sample, length);
    }
    let sharding = meshes::sharding(rng);
    let number = shards::number(rng, &sharding);
    let (nets, one) = if rng.once_in(3) {
        let file = meshes::overlapping(rng, &sharding, number, 8);
        let triples = content_of(&sharding, number, &file).expect("it is sound");
        (meshes::nets(&triples), file)
    } else {
        let nets = meshes::content(rng, &sharding, number, 8);
        let file = meshes::lay_out(rng, &sharding, &nets);
        (nets, file)
    };
    let difference = *rng.pick(&Difference::ALL);
    let other = meshes::differing(rng, &sharding, number, &nets, difference);
    let other = other.filter(|_| rng.once_in(2)).unwrap_or(nets);
    let other = meshes::lay_out(rng, &sharding, &other);
    let mut samples = [one, other].map(|file| Sample {
        sharding,
        number,
        file,
    });
    if rng.once_in(8) {
        let damaged = rng.index(2);
        meshes::damage(rng, &mut samples[damaged]);
    }
    let [mut one, other] = samples;
    let length = one.file.len();
    one.file.extend(other.file);
    (one, length)
}

fn sample_same(rng: &mut Rng) -> Vec<u8> {
    let (mut sample, first) = pair(rng);
    if rng.once_in(20) {
        meshes::make_wild(rng, &mut sample);
    }
    front(rng, &sample)
        .number(first as u64)
        .rest(&sample.file)
        .finish()
}
