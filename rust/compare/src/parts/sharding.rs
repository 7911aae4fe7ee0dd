//! Shard and minishard of ids.

use crate::agree::same;
use crate::question::{Reader, Room, Writer};
use crate::{sides, Part};
use reference::endian::read_u64;
use reference::sharding::{
    place_of, Sharding, MOST_MINISHARD_BITS, MOST_SHARD_BITS, MURMUR, VOLUME,
};
use testkit::{places, Lent, Rng};

/// Shard and minishard of an id.
pub const PLACE: Part = Part {
    name: "place",
    about: "shard and minishard of an id",
    meets: &[0, 1],
    compare: compare_place,
    sample: sample_place,
};

/// Shards and minishards of many ids.
pub const PLACES: Part = Part {
    name: "places",
    about: "shards and minishards of many ids",
    meets: &[0, 1, 13],
    compare: compare_places,
    sample: sample_places,
};

fn compare_place(bytes: &[u8]) -> u8 {
    let mut reader = Reader::new(bytes);
    let (sharding, id) = (reader.sharding_of_kinds(), reader.number());
    let library = sides::sharding(&sharding);
    same(
        format_args!("whether {sharding:?} is allowed"),
        library.allowed(),
        sharding.allowed(),
    );
    same(
        format_args!("place of {id} under {sharding:?}"),
        library.place(id),
        place_of(&sharding, id).map(sides::place),
    )
}

/// What a batch of ids leaves in the two buffers, by the reference.
fn batch(
    sharding: &Sharding,
    ids: &[u64],
    shards: &mut [u64],
    minishards: &mut [u64],
) -> Result<usize, u8> {
    sharding.allowed()?;
    if shards.len() < ids.len() || minishards.len() < ids.len() {
        return Err(13);
    }
    for (i, id) in ids.iter().enumerate() {
        let place = sharding.place(*id);
        (shards[i], minishards[i]) = (place.shard, place.minishard);
    }
    Ok(ids.len())
}

fn compare_places(bytes: &[u8]) -> u8 {
    let mut reader = Reader::new(bytes);
    let sharding = reader.sharding_of_kinds();
    let rooms = [reader.room(), reader.room()];
    let rest = reader.rest();
    let ids: Vec<u64> = (0..rest.len() / 8).map(|i| read_u64(rest, 8 * i)).collect();
    let before = rooms.map(|room| {
        let length = room.length(ids.len());
        Lent::numbers(&mut Rng::new(length as u64), length)
    });
    let ([mut shards, mut minishards], [mut shards_too, mut minishards_too]) =
        (before.clone(), before.clone());
    let met = same(
        format_args!("places of {} ids under {sharding:?}", ids.len()),
        sides::sharding(&sharding).write_places(&ids, shards.part(), minishards.part()),
        batch(&sharding, &ids, shards_too.part(), minishards_too.part()),
    );
    let after = [shards, minishards];
    assert!(after == [shards_too, minishards_too], "the places differ");
    assert!(met == 0 || after == before, "refused, but a buffer changed");
    met
}

/// A specification of any numbers, often the one that shows most of the hash.
fn specification(rng: &mut Rng) -> Sharding {
    let volume = if rng.once_in(4) {
        Sharding {
            preshift: 0,
            hash: MURMUR,
            minishard_bits: MOST_MINISHARD_BITS,
            shard_bits: MOST_SHARD_BITS,
            kind: VOLUME,
        }
    } else {
        places::wild_sharding(rng)
    };
    Sharding {
        kind: places::kind(rng),
        ..volume
    }
}

fn sample_place(rng: &mut Rng) -> Vec<u8> {
    Writer::new()
        .sharding_of_kinds(&specification(rng))
        .number(rng.edge_u64())
        .finish()
}

fn sample_places(rng: &mut Rng) -> Vec<u8> {
    let sharding = specification(rng);
    let most = if rng.once_in(100) { 500 } else { 20 };
    let ids = (0..rng.index(most)).flat_map(|_| rng.edge_u64().to_le_bytes());
    let ids: Vec<u8> = ids.collect();
    Writer::new()
        .sharding_of_kinds(&sharding)
        .room(Room::draw(rng))
        .room(Room::draw(rng))
        .rest(&ids)
        .finish()
}
