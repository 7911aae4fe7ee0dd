//! Chunk names and shard file names.

use crate::agree::{same, same_writing};
use crate::question::{Choice, Reader, Room, Spot, Writer};
use crate::{sides, Part};
use reference::names;
use testkit::{places, Lent, Rng};

/// The unsharded name of a cell.
pub const CHUNK_NAME: Part = Part {
    name: "chunk_name",
    about: "the unsharded name of a cell",
    meets: &[0, 2, 13],
    compare: compare_chunk_name,
    sample: sample_chunk_name,
};

/// The file name of a shard.
pub const SHARD_NAME: Part = Part {
    name: "shard_name",
    about: "the file name of a shard",
    meets: &[0, 1, 5, 13],
    compare: compare_shard_name,
    sample: sample_shard_name,
};

/// An output for this name, or for one of usual length where it is refused.
fn output(name: &Result<String, u8>, room: Room) -> Lent {
    let needed = name.as_ref().map_or(10, String::len);
    let length = room.length(needed);
    Lent::new(&mut Rng::new(length as u64), length)
}

fn compare_chunk_name(bytes: &[u8]) -> u8 {
    let mut reader = Reader::new(bytes);
    let volume = reader.volume();
    let cell = reader.spot().cell(&volume);
    let (library, at) = (sides::volume(&volume), cell.into());
    let name = names::chunk_name(&volume, cell);
    let output = output(&name, reader.room());
    same(
        format_args!("chunk name of {cell:?} in {volume:?}"),
        library.chunk_name(at),
        name,
    );
    same_writing(
        format_args!("writing the chunk name of {cell:?} in {volume:?}"),
        &output,
        |out| library.write_chunk_name(at, out),
        |out| names::write_chunk_name(&volume, cell, out),
    )
}

fn compare_shard_name(bytes: &[u8]) -> u8 {
    let mut reader = Reader::new(bytes);
    let sharding = reader.sharding_of_kinds();
    let shard = reader.choice().shard(&sharding, &[]);
    let library = sides::sharding(&sharding);
    let name = names::shard_name(&sharding, shard);
    let output = output(&name, reader.room());
    same(
        format_args!("name of shard {shard} under {sharding:?}"),
        library.shard_name(shard),
        name,
    );
    same_writing(
        format_args!("writing the name of shard {shard} under {sharding:?}"),
        &output,
        |out| library.write_shard_name(shard, out),
        |out| names::write_shard_name(&sharding, shard, out),
    )
}

fn sample_chunk_name(rng: &mut Rng) -> Vec<u8> {
    let volume = places::volume(rng);
    let cell = places::cell(rng, &volume);
    Writer::new()
        .volume(&volume)
        .spot(Spot::draw(rng, cell))
        .room(Room::draw(rng))
        .finish()
}

fn sample_shard_name(rng: &mut Rng) -> Vec<u8> {
    let mut sharding = places::wild_sharding(rng);
    let shard = places::shard_number(rng, &sharding);
    sharding.kind = places::kind(rng);
    Writer::new()
        .sharding_of_kinds(&sharding)
        .choice(Choice::draw(rng, shard))
        .room(Room::draw(rng))
        .finish()
}
