//! Shards of the earlier edition: a file of any kind, cut in two at the end of
//! its shard index or elsewhere.

use super::shard::{minishard, of_kinds};
use crate::agree::{guarded, same, same_writing};
use crate::question::{Choice, Reader, Room, Writer};
use crate::{sides, Part};
use coronagamba::{Chunk, Half, Held, Listed, Pair, Shard, Span};
use reference::shard::Entry;
use reference::sharding::Sharding;
use reference::{names, pair};
use testkit::meshes;
use testkit::shards::{self, Sample};
use testkit::{places, Lent, Rng};

/// An id's place and its chunk.
pub const PAIR_LOOKUP: Part = Part {
    name: "pair_lookup",
    about: "the place of an id's chunk in a pair, and the chunk",
    meets: &[0, 1, 5, 7, 8, 9, 10, 11, 12, 15, 16, 17, 21, 23],
    compare: |bytes| of_kinds(bytes, compare_lookup),
    sample: sample_lookup,
};

/// The fragment of a node.
pub const PAIR_FRAGMENT: Part = Part {
    name: "pair_fragment",
    about: "the place of a node's fragment in a pair, and the fragment",
    meets: &[0, 1, 5, 7, 8, 9, 10, 11, 12, 15, 16, 17, 18, 21, 23],
    compare: |bytes| of_kinds(bytes, compare_fragment),
    sample: sample_fragment,
};

/// The check, and all chunks.
pub const PAIR_CHECK: Part = Part {
    name: "pair_check",
    about: "the check of a pair, and all chunks of a sound one",
    meets: &[0, 1, 5, 7, 8, 9, 10, 11, 15, 16, 17, 21, 23],
    compare: |bytes| of_kinds(bytes, compare_check),
    sample: sample_check,
};

/// The chunks that a minishard lists.
pub const PAIR_LISTING: Part = Part {
    name: "pair_listing",
    about: "the chunks that a minishard of a pair lists, and how many",
    meets: &[0, 1, 5, 7, 8, 9, 10, 11, 13, 15, 16, 17, 21, 23, 33],
    compare: |bytes| of_kinds(bytes, compare_listing),
    sample: sample_listing,
};

/// A settled form.
pub const PAIR_SETTLE: Part = Part {
    name: "pair_settle",
    about: "a pair's settled form, its length and the bytes that it would lose",
    meets: &[0, 1, 5, 7, 8, 9, 10, 11, 13, 15, 16, 17, 21, 22, 23],
    compare: |bytes| of_kinds(bytes, compare_settle),
    sample: sample_settle,
};

/// A range of the joined file.
pub const PAIR_RANGE: Part = Part {
    name: "pair_range",
    about: "a byte range of a pair's two files joined",
    meets: &[0, 1, 23, 24],
    compare: |bytes| of_kinds(bytes, compare_range),
    sample: sample_range,
};

/// The names of a shard's two files.
pub const PAIR_NAMES: Part = Part {
    name: "pair_names",
    about: "the names of a shard's two files",
    meets: &[0, 1, 5, 13],
    compare: compare_names,
    sample: sample_names,
};

/// A pair on both sides, its number, and whether its seam is where the shard
/// index ends.
struct Cut<'a> {
    library: Pair<'a>,
    expected: pair::Pair<'a>,
    number: u64,
    seamed: bool,
}

/// Cuts the file in two and asks about the pair, each half with other bytes
/// around it.
fn cut<T>(
    sharding: &Sharding,
    number: Choice,
    seam: Choice,
    file: &[u8],
    ask: impl FnOnce(Cut) -> T,
) -> T {
    let number = number.shard(sharding, file);
    let (index, data) = file.split_at(seam.seam(sharding, file.len()));
    guarded(index, |index| {
        guarded(data, |data| {
            ask(Cut {
                library: Pair::open(sides::sharding(sharding), number, index, data),
                expected: pair::Pair { index, data },
                number,
                seamed: sharding.allowed().is_ok() && index.len() as u64 == sharding.index_end(),
            })
        })
    })
}

impl Cut<'_> {
    /// The library's own law: where the seam is right, a pair answers as the
    /// joined file.
    fn as_joined<T: PartialEq + std::fmt::Debug>(
        &self,
        file: &[u8],
        of_pair: T,
        of_shard: impl FnOnce(Shard) -> T,
    ) {
        if self.seamed {
            let joined = Shard::open(self.library.sharding(), self.number, file);
            assert_eq!(of_pair, of_shard(joined), "a pair and its joined file");
        }
    }
}

fn span(start: u64, length: u64) -> Span {
    Span { start, length }
}

fn compare_lookup(sharding: Sharding, mut reader: Reader) -> u8 {
    let (number, seam, id) = (reader.choice(), reader.choice(), reader.choice());
    let file = reader.rest();
    let id = id.id(&sharding, file);
    cut(&sharding, number, seam, file, |pair| {
        let found = pair.expected.lookup(&sharding, pair.number, id);
        let asked = format!("{id} in pair {} under {sharding:?}", pair.number);
        pair.as_joined(file, pair.library.lookup(id), |shard| shard.lookup(id));
        same(
            format_args!("chunk of {asked}"),
            pair.library.chunk(id),
            found.map(|entry| pair.expected.data_bytes(entry.start, entry.length)),
        );
        same(
            format_args!("lookup of {asked}"),
            pair.library.lookup(id),
            found.map(|entry| span(entry.start, entry.length)),
        )
    })
}

fn compare_fragment(sharding: Sharding, mut reader: Reader) -> u8 {
    let (number, seam, id) = (reader.choice(), reader.choice(), reader.choice());
    let (level, node) = (reader.choice(), reader.choice());
    let file = reader.rest();
    let id = id.id(&sharding, file);
    cut(&sharding, number, seam, file, |pair| {
        let plain = meshes::as_volume(&sharding);
        let manifest = match pair.expected.lookup(&plain, pair.number, id) {
            Ok(entry) => pair.expected.data_bytes(entry.start, entry.length),
            Err(_) => &[],
        };
        let level = level.level(manifest);
        let node = node.node(manifest, level);
        let found = (pair.expected).fragment(&sharding, pair.number, id, level, node);
        let asked = format!(
            "node {node} of level {level} of {id} in pair {}",
            pair.number
        );
        pair.as_joined(
            file,
            pair.library.lookup_fragment(id, level, node),
            |shard| shard.lookup_fragment(id, level, node),
        );
        same(
            format_args!("fragment of {asked} under {sharding:?}"),
            pair.library.fragment(id, level, node),
            found.map(|found| pair.expected.data_bytes(found.start, found.length)),
        );
        same(
            format_args!("lookup of the fragment of {asked} under {sharding:?}"),
            pair.library.lookup_fragment(id, level, node),
            found.map(|found| span(found.start, found.length)),
        )
    })
}

fn compare_check(sharding: Sharding, mut reader: Reader) -> u8 {
    let (number, seam) = (reader.choice(), reader.choice());
    let file = reader.rest();
    cut(&sharding, number, seam, file, |pair| {
        let chunk = |entry: &Entry| Chunk {
            minishard: sharding.place(entry.id).minishard,
            id: entry.id,
            span: span(entry.start, entry.length),
            bytes: pair.expected.data_bytes(entry.start, entry.length),
        };
        let entries = pair.expected.list(&sharding, pair.number);
        pair.as_joined(file, pair.library.check(), |shard| shard.check());
        same(
            format_args!("chunks of pair {} under {sharding:?}", pair.number),
            pair.library.chunks().map(Iterator::collect::<Vec<Chunk>>),
            entries.map(|entries| entries.iter().map(chunk).collect()),
        );
        same(
            format_args!("check of pair {} under {sharding:?}", pair.number),
            pair.library.check(),
            pair.expected.check(&sharding, pair.number),
        )
    })
}

fn compare_listing(sharding: Sharding, mut reader: Reader) -> u8 {
    let (number, seam, minishard) = (reader.choice(), reader.choice(), reader.choice());
    let room = reader.room();
    let file = reader.rest();
    let minishard = minishard.minishard(&sharding, file);
    cut(&sharding, number, seam, file, |pair| {
        let listed = |entry: &Entry| Listed {
            id: entry.id,
            span: span(entry.start, entry.length),
        };
        let entries = (pair.expected).list_minishard(&sharding, pair.number, minishard);
        let length = room.length(3 * entries.as_ref().map_or(2, Vec::len));
        let asked = format!("minishard {minishard} of pair {}", pair.number);
        pair.as_joined(file, pair.library.listing(minishard), |shard| {
            shard.listing(minishard)
        });
        same(
            format_args!("count of {asked} under {sharding:?}"),
            pair.library.listed_count(minishard),
            entries
                .as_ref()
                .map(|entries| entries.len() as u64)
                .map_err(|refusal| *refusal),
        );
        same(
            format_args!("list of {asked} under {sharding:?}"),
            pair.library.listing(minishard),
            entries.map(|entries| entries.iter().map(listed).collect()),
        );
        same_writing(
            format_args!("listing of {asked} under {sharding:?}"),
            &Lent::numbers(&mut Rng::new(length as u64), length),
            |out| pair.library.write_listing(minishard, out),
            |out| (pair.expected).write_listing(&sharding, pair.number, minishard, out),
        )
    })
}

fn compare_settle(sharding: Sharding, mut reader: Reader) -> u8 {
    let (number, seam) = (reader.choice(), reader.choice());
    let (dropping, room) = (reader.dropping(), reader.room());
    let file = reader.rest();
    let wish = sides::unlisted(dropping);
    cut(&sharding, number, seam, file, |pair| {
        let asked = format!("pair {} under {sharding:?}, {dropping}", pair.number);
        let needed = pair.expected.settled_length(&sharding, pair.number, true);
        let length = room.length(needed.map_or(file.len(), |length| length as usize));
        pair.as_joined(file, pair.library.settled_length(wish), |shard| {
            shard.settled_length(wish)
        });
        same(
            format_args!("unlisted bytes of {asked}"),
            pair.library.unlisted(),
            pair.expected.unlisted(&sharding, pair.number),
        );
        same(
            format_args!("settled length of {asked}"),
            pair.library.settled_length(wish),
            (pair.expected).settled_length(&sharding, pair.number, dropping),
        );
        same_writing(
            format_args!("settling of {asked}"),
            &Lent::new(&mut Rng::new(length as u64), length),
            |out| pair.library.settle(wish, out),
            |out| (pair.expected).settle(&sharding, pair.number, dropping, out),
        )
    })
}

fn compare_range(sharding: Sharding, mut reader: Reader) -> u8 {
    let (number, seam) = (reader.choice(), reader.choice());
    let (start, end) = (reader.choice(), reader.choice());
    let file = reader.rest();
    cut(&sharding, number, seam, file, |pair| {
        let (seam, all) = (pair.expected.index.len() as u64, file.len() as u64);
        let (start, end) = (start.bound(seam, all), end.bound(seam, all));
        let asked = format!("range {start} to {end} of {seam} and {all} bytes");
        let found = pair.expected.range(&sharding, start, end);
        if found.is_ok() {
            let bytes = &file[start as usize..end as usize];
            assert_eq!(pair.library.range(start, end), Ok(bytes), "{asked}");
        }
        same(
            format_args!("bytes of the {asked} under {sharding:?}"),
            pair.library.range(start, end),
            found.clone().map(|held| pair.expected.held_bytes(&held)),
        );
        same(
            format_args!("{asked} under {sharding:?}"),
            pair.library.locate_range(start, end),
            found.map(|held| {
                let (file, part) = match held {
                    pair::Held::Index(part) => (Half::Index, part),
                    pair::Held::Data(part) => (Half::Data, part),
                };
                Held {
                    file,
                    start: part.start,
                    length: part.end - part.start,
                }
            }),
        )
    })
}

fn compare_names(bytes: &[u8]) -> u8 {
    let mut reader = Reader::new(bytes);
    let sharding = reader.sharding_of_kinds();
    let shard = reader.choice().shard(&sharding, &[]);
    let library = sides::sharding(&sharding);
    let [index, data] = [
        names::index_name(&sharding, shard),
        names::data_name(&sharding, shard),
    ];
    let length = reader.room().length(index.as_ref().map_or(10, String::len));
    let output = Lent::new(&mut Rng::new(length as u64), length);
    let asked = format!("of shard {shard} under {sharding:?}");
    same(
        format_args!("index name {asked}"),
        library.index_name(shard),
        index,
    );
    same(
        format_args!("data name {asked}"),
        library.data_name(shard),
        data,
    );
    same_writing(
        format_args!("writing the data name {asked}"),
        &output,
        |out| library.write_data_name(shard, out),
        |out| names::write_data_name(&sharding, shard, out),
    );
    same_writing(
        format_args!("writing the index name {asked}"),
        &output,
        |out| library.write_index_name(shard, out),
        |out| names::write_index_name(&sharding, shard, out),
    )
}

/// A question's front: the sample's specification, mostly its number, and mostly
/// the seam at the end of the shard index.
fn front(rng: &mut Rng, sample: &Sample) -> Writer {
    Writer::new()
        .sharding_of_kinds(&sample.sharding)
        .choice(Choice::draw_near(rng, sample.number))
        .choice(Choice::draw_near(rng, 0))
}

/// A shard of either kind.
fn any(rng: &mut Rng) -> Sample {
    if rng.once_in(2) {
        shards::any(rng)
    } else {
        meshes::any(rng)
    }
}

fn sample_lookup(rng: &mut Rng) -> Vec<u8> {
    let sample = any(rng);
    let id = shards::question(rng, &sample);
    front(rng, &sample)
        .choice(Choice::draw(rng, id))
        .rest(&sample.file)
        .finish()
}

fn sample_fragment(rng: &mut Rng) -> Vec<u8> {
    let sample = meshes::any(rng);
    let (id, level, node) = meshes::question(rng, &sample);
    front(rng, &sample)
        .choice(Choice::draw_near(rng, id))
        .choice(Choice::draw_near(rng, level))
        .choice(Choice::draw_near(rng, node))
        .rest(&sample.file)
        .finish()
}

fn sample_check(rng: &mut Rng) -> Vec<u8> {
    let sample = any(rng);
    front(rng, &sample).rest(&sample.file).finish()
}

fn sample_listing(rng: &mut Rng) -> Vec<u8> {
    let sample = any(rng);
    front(rng, &sample)
        .choice(minishard(rng, &sample.sharding))
        .room(Room::draw(rng))
        .rest(&sample.file)
        .finish()
}

fn sample_settle(rng: &mut Rng) -> Vec<u8> {
    let sample = if rng.once_in(300) {
        meshes::brimming(rng)
    } else {
        any(rng)
    };
    front(rng, &sample)
        .byte(rng.below(2) as u8)
        .room(Room::draw(rng))
        .rest(&sample.file)
        .finish()
}

fn sample_range(rng: &mut Rng) -> Vec<u8> {
    let sample = any(rng);
    let bounds = [rng.edge_u64(), rng.edge_u64()];
    front(rng, &sample)
        .choice(Choice::draw_other(rng, bounds[0]))
        .choice(Choice::draw_other(rng, bounds[1]))
        .rest(&sample.file)
        .finish()
}

fn sample_names(rng: &mut Rng) -> Vec<u8> {
    let mut sharding = places::wild_sharding(rng);
    let shard = places::shard_number(rng, &sharding);
    sharding.kind = places::kind(rng);
    Writer::new()
        .sharding_of_kinds(&sharding)
        .choice(Choice::draw(rng, shard))
        .room(Room::draw(rng))
        .finish()
}
