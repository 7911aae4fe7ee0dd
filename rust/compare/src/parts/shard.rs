//! Lookup, the whole-shard check and listings.

use crate::agree::{guarded, same, same_writing};
use crate::question::{Choice, Reader, Room, Writer};
use crate::{sides, Part};
use coronagamba::{Chunk, Listed, Shard, Span};
use reference::shard;
use reference::sharding::{Sharding, MOST_MINISHARD_BITS};
use testkit::shards::{self, Sample};
use testkit::{places, Lent, Rng};

/// An id's place and its chunk.
pub const LOOKUP: Part = Part {
    name: "lookup",
    about: "the place of an id's chunk in a shard, and the chunk",
    meets: &[0, 1, 5, 6, 7, 8, 9, 10, 11, 12],
    compare: |bytes| of_volume(bytes, compare_lookup),
    sample: sample_lookup,
};

/// The whole-shard check.
pub const CHECK: Part = Part {
    name: "check",
    about: "the whole-shard check, the minishard and the position that it names",
    meets: &[0, 1, 5, 6, 7, 8, 9, 10, 11],
    compare: |bytes| of_volume(bytes, compare_check),
    sample: sample_check,
};

/// All chunks of a shard.
pub const CHUNKS: Part = Part {
    name: "chunks",
    about: "all chunks of a sound shard",
    meets: &[0, 1, 5, 6, 7, 8, 9, 10, 11],
    compare: |bytes| of_volume(bytes, compare_chunks),
    sample: sample_check,
};

/// How many chunks a minishard lists.
pub const LISTED_COUNT: Part = Part {
    name: "listed_count",
    about: "how many chunks a minishard lists",
    meets: &[0, 1, 5, 6, 7, 8, 9, 10, 11, 33],
    compare: |bytes| of_volume(bytes, compare_listed_count),
    sample: sample_listed_count,
};

/// The chunks that a minishard lists.
pub const LISTING: Part = Part {
    name: "listing",
    about: "the chunks that a minishard lists",
    meets: &[0, 1, 5, 6, 7, 8, 9, 10, 11, 13, 33],
    compare: |bytes| of_volume(bytes, compare_listing),
    sample: sample_listing,
};

/// Decodes a specification of a volume in front of the question.
pub fn of_volume(bytes: &[u8], compare: fn(Sharding, Reader) -> u8) -> u8 {
    let mut reader = Reader::new(bytes);
    compare(reader.sharding(), reader)
}

/// Decodes a specification of any kind in front of the question.
pub fn of_kinds(bytes: &[u8], compare: fn(Sharding, Reader) -> u8) -> u8 {
    let mut reader = Reader::new(bytes);
    compare(reader.sharding_of_kinds(), reader)
}

/// Id, start and length of an entry.
fn listed(entry: &shard::Entry) -> Listed {
    Listed {
        id: entry.id,
        span: span(entry),
    }
}

/// Start and length of an entry.
fn span(entry: &shard::Entry) -> Span {
    Span {
        start: entry.start,
        length: entry.length,
    }
}

pub fn compare_lookup(sharding: Sharding, mut reader: Reader) -> u8 {
    let (number, id) = (reader.choice(), reader.choice());
    guarded(reader.rest(), |file| {
        let (number, id) = (number.shard(&sharding, file), id.id(&sharding, file));
        let opened = Shard::open(sides::sharding(&sharding), number, file);
        let expected = shard::lookup(&sharding, number, id, file);
        same(
            format_args!("chunk of {id} in shard {number} under {sharding:?}"),
            opened.chunk(id),
            expected.map(|entry| entry.bytes(file)),
        );
        same(
            format_args!("lookup of {id} in shard {number} under {sharding:?}"),
            opened.lookup(id),
            expected.map(|entry| span(&entry)),
        )
    })
}

pub fn compare_check(sharding: Sharding, mut reader: Reader) -> u8 {
    let number = reader.choice();
    guarded(reader.rest(), |file| {
        let number = number.shard(&sharding, file);
        same(
            format_args!("check of shard {number} under {sharding:?}"),
            Shard::open(sides::sharding(&sharding), number, file).check(),
            shard::check(&sharding, number, file),
        )
    })
}

pub fn compare_chunks(sharding: Sharding, mut reader: Reader) -> u8 {
    let number = reader.choice();
    guarded(reader.rest(), |file| {
        let number = number.shard(&sharding, file);
        let chunk = |entry: &shard::Entry| Chunk {
            minishard: sharding.place(entry.id).minishard,
            id: entry.id,
            span: span(entry),
            bytes: entry.bytes(file),
        };
        let opened = Shard::open(sides::sharding(&sharding), number, file);
        let entries = shard::list(&sharding, number, file);
        same(
            format_args!("chunks of shard {number} under {sharding:?}"),
            opened.chunks().map(Iterator::collect::<Vec<Chunk>>),
            entries.map(|entries| entries.iter().map(chunk).collect()),
        )
    })
}

pub fn compare_listed_count(sharding: Sharding, mut reader: Reader) -> u8 {
    let (number, minishard) = (reader.choice(), reader.choice());
    guarded(reader.rest(), |file| {
        let number = number.shard(&sharding, file);
        let minishard = minishard.minishard(&sharding, file);
        same(
            format_args!("count of minishard {minishard} of shard {number} under {sharding:?}"),
            Shard::open(sides::sharding(&sharding), number, file).listed_count(minishard),
            shard::list_minishard(&sharding, number, file, minishard)
                .map(|entries| entries.len() as u64),
        )
    })
}

pub fn compare_listing(sharding: Sharding, mut reader: Reader) -> u8 {
    let (number, minishard) = (reader.choice(), reader.choice());
    let room = reader.room();
    guarded(reader.rest(), |file| {
        let number = number.shard(&sharding, file);
        let minishard = minishard.minishard(&sharding, file);
        let opened = Shard::open(sides::sharding(&sharding), number, file);
        let entries = shard::list_minishard(&sharding, number, file, minishard);
        let length = room.length(3 * entries.as_ref().map_or(2, Vec::len));
        same(
            format_args!("list of minishard {minishard} of shard {number} under {sharding:?}"),
            opened.listing(minishard),
            entries.map(|entries| entries.iter().map(listed).collect()),
        );
        same_writing(
            format_args!("listing of minishard {minishard} of shard {number} under {sharding:?}"),
            &Lent::numbers(&mut Rng::new(length as u64), length),
            |out| opened.write_listing(minishard, out),
            |out| shard::write_listing(&sharding, number, file, minishard, out),
        )
    })
}

/// A question's front: the sample's specification and mostly its number.
pub fn front(rng: &mut Rng, sample: &Sample) -> Writer {
    Writer::new()
        .sharding(&sample.sharding)
        .choice(Choice::draw_near(rng, sample.number))
}

fn sample_lookup(rng: &mut Rng) -> Vec<u8> {
    let sample = shards::any(rng);
    let id = shards::question(rng, &sample);
    front(rng, &sample)
        .choice(Choice::draw(rng, id))
        .rest(&sample.file)
        .finish()
}

fn sample_check(rng: &mut Rng) -> Vec<u8> {
    let sample = shards::any(rng);
    front(rng, &sample).rest(&sample.file).finish()
}

/// A minishard number to ask for: mostly one that the specification has.
pub fn minishard(rng: &mut Rng, sharding: &Sharding) -> Choice {
    let number = if rng.once_in(4) {
        places::minishard_number(rng, sharding)
    } else {
        rng.below(1 << sharding.minishard_bits.min(MOST_MINISHARD_BITS))
    };
    Choice::draw(rng, number)
}

fn sample_listed_count(rng: &mut Rng) -> Vec<u8> {
    let sample = shards::any(rng);
    front(rng, &sample)
        .choice(minishard(rng, &sample.sharding))
        .rest(&sample.file)
        .finish()
}

fn sample_listing(rng: &mut Rng) -> Vec<u8> {
    let sample = shards::any(rng);
    front(rng, &sample)
        .choice(minishard(rng, &sample.sharding))
        .room(Room::draw(rng))
        .rest(&sample.file)
        .finish()
}
