//! Settling, and the bytes that it would lose.

use super::shard::{front, of_volume};
use crate::agree::{guarded, same, same_writing};
use crate::question::{Reader, Room, LONGEST_ANSWER};
use crate::{sides, Part, LISTS_DIFFER};
use coronagamba::{Shard, Unlisted};
use reference::settle::{self, content_of, Triple};
use reference::sharding::Sharding;
use reference::unlisted::unlisted;
use reference::Refusal;
use std::collections::BTreeMap;
use testkit::shards::{self, Difference, Sample};
use testkit::{Lent, Rng};

/// How many bytes are unlisted.
pub const UNLISTED: Part = Part {
    name: "unlisted",
    about: "how many bytes of a shard nothing lists",
    meets: &[0, 1, 5, 6, 7, 8, 9, 10, 11],
    compare: |bytes| of_volume(bytes, compare_unlisted),
    sample: sample_unlisted,
};

/// The length of a settled form.
pub const SETTLED_LENGTH: Part = Part {
    name: "settled_length",
    about: "the length of a shard's settled form",
    meets: &[0, 1, 5, 6, 7, 8, 9, 10, 11, 13, 22],
    compare: |bytes| of_volume(bytes, compare_settled_length),
    sample: sample_settled_length,
};

/// A settled form.
pub const SETTLE: Part = Part {
    name: "settle",
    about: "a shard's settled form, which is sound, settles to itself and lists the same",
    meets: &[0, 1, 5, 6, 7, 8, 9, 10, 11, 13, 22],
    compare: |bytes| of_volume(bytes, compare_settle),
    sample: sample_settle,
};

/// Two shards and their settled forms.
pub const SAME: Part = Part {
    name: "same",
    about: "two shards, whose settled forms are equal exactly where they list the same",
    meets: &[0, 1, 5, 6, 7, 8, 9, 10, 11, 13, LISTS_DIFFER],
    compare: |bytes| of_volume(bytes, compare_same),
    sample: sample_same,
};

pub fn compare_unlisted(sharding: Sharding, mut reader: Reader) -> u8 {
    let number = reader.choice();
    guarded(reader.rest(), |file| {
        let number = number.shard(&sharding, file);
        same(
            format_args!("unlisted bytes of shard {number} under {sharding:?}"),
            Shard::open(sides::sharding(&sharding), number, file).unlisted(),
            unlisted(&sharding, number, file),
        )
    })
}

pub fn compare_settled_length(sharding: Sharding, mut reader: Reader) -> u8 {
    let (number, dropping) = (reader.choice(), reader.dropping());
    guarded(reader.rest(), |file| {
        let number = number.shard(&sharding, file);
        let opened = Shard::open(sides::sharding(&sharding), number, file);
        same(
            format_args!("settled length of shard {number} under {sharding:?}, {dropping}"),
            opened.settled_length(sides::unlisted(dropping)),
            settle::length_of(&sharding, number, file, dropping),
        )
    })
}

/// What a shard lists, by the reference: in a mesh the fragments too.
type Content<'a> = BTreeMap<u64, Triple<'a>>;

/// What a shard lists, by the reference, or its refusal.
fn content<'a>(sharding: &Sharding, number: u64, file: &'a [u8]) -> Result<Content<'a>, Refusal> {
    let triples = content_of(sharding, number, file)?;
    Ok(triples.into_iter().map(|t| (t.id, t)).collect())
}

pub fn compare_settle(sharding: Sharding, mut reader: Reader) -> u8 {
    let (number, dropping, room) = (reader.choice(), reader.dropping(), reader.room());
    guarded(reader.rest(), |file| {
        let number = number.shard(&sharding, file);
        let opened = Shard::open(sides::sharding(&sharding), number, file);
        let wish = sides::unlisted(dropping);
        let needed = settle::length_of(&sharding, number, file, true);
        let length = room.length(needed.map_or(file.len(), |length| length as usize));
        let met = same_writing(
            format_args!("settling of shard {number} under {sharding:?}, {dropping}"),
            &Lent::new(&mut Rng::new(length as u64), length),
            |out| opened.settle(wish, out),
            |out| settle::settle(&sharding, number, file, dropping, out),
        );
        if met == 0 {
            let form = opened.settled(wish).expect("it was settled before");
            assert_settled(&sharding, number, file, &form);
        }
        met
    })
}

/// A settled form is sound, has no unlisted byte, settles to itself and lists
/// what the file lists.
fn assert_settled(sharding: &Sharding, number: u64, file: &[u8], form: &[u8]) {
    let settled = Shard::open(sides::sharding(sharding), number, form);
    assert_eq!(settled.check(), Ok(()), "the check of a settled form");
    assert_eq!(settled.unlisted(), Ok(0), "the gaps of a settled form");
    assert!(
        settled.settled(Unlisted::Refuse).as_deref() == Ok(form),
        "a settled form settles to another one"
    );
    assert!(
        content(sharding, number, form) == content(sharding, number, file),
        "a settled form lists something else"
    );
}

/// The library's settled form of a file, which must be the reference's, and
/// what the file lists; or the refusal. 13 also stands for forms that are too
/// long to be made here.
fn settled<'a>(
    sharding: &Sharding,
    number: u64,
    file: &'a [u8],
) -> Result<(Vec<u8>, Content<'a>), Refusal> {
    let opened = Shard::open(sides::sharding(sharding), number, file);
    let length = settle::length_of(sharding, number, file, true);
    same(
        format_args!("settled length of shard {number} under {sharding:?}"),
        opened.settled_length(Unlisted::Drop),
        length,
    );
    if length? > LONGEST_ANSWER as u64 {
        return Err(Refusal::bare(13));
    }
    let content = content(sharding, number, file)?;
    let listed: Vec<Triple> = content.values().copied().collect();
    let form = settle::form_of(sharding, &listed);
    assert!(
        opened.settled(Unlisted::Drop).as_ref() == Ok(&form),
        "the settled form of shard {number} under {sharding:?} differs"
    );
    Ok((form, content))
}

pub fn compare_same(sharding: Sharding, mut reader: Reader) -> u8 {
    let (number, split) = (reader.choice(), reader.number());
    guarded(reader.rest(), |files| {
        let split = split.min(files.len() as u64) as usize;
        let (one, other) = files.split_at(split);
        let number = number.shard(&sharding, one);
        let forms = [one, other].map(|file| settled(&sharding, number, file));
        match forms {
            [Ok((one, listed)), Ok((other, also))] => {
                assert!(
                    (one == other) == (listed == also),
                    "settled forms equal: {}, lists equal: {}",
                    one == other,
                    listed == also
                );
                if listed == also {
                    0
                } else {
                    LISTS_DIFFER
                }
            }
            [Err(refused), _] | [_, Err(refused)] => refused.number,
        }
    })
}

/// A shard of any kind, now and then one whose settled form has about a
/// gibibyte.
fn shard(rng: &mut Rng) -> Sample {
    if rng.once_in(300) {
        shards::brimming(rng)
    } else {
        shards::any(rng)
    }
}

fn sample_unlisted(rng: &mut Rng) -> Vec<u8> {
    let sample = shard(rng);
    front(rng, &sample).rest(&sample.file).finish()
}

fn sample_settled_length(rng: &mut Rng) -> Vec<u8> {
    let sample = shard(rng);
    let begun = front(rng, &sample).byte(rng.below(2) as u8);
    begun.rest(&sample.file).finish()
}

fn sample_settle(rng: &mut Rng) -> Vec<u8> {
    let sample = shard(rng);
    front(rng, &sample)
        .byte(rng.below(2) as u8)
        .room(Room::draw(rng))
        .rest(&sample.file)
        .finish()
}

/// Two files for one specification and number, which mostly list the same or
/// differ in one respect: the first one with its length.
fn pair(rng: &mut Rng) -> (Sample, usize) {
    if rng.once_in(300) {
        let sample = shards::brimming(rng);
        let length = sample.file.len();
        return (sample, length);
    }
    let sharding = shards::sharding(rng);
    let number = shards::number(rng, &sharding);
    let content = shards::content(rng, &sharding, number, 12);
    let difference = *rng.pick(&Difference::ALL);
    let other = shards::differing(rng, &sharding, number, &content, difference)
        .filter(|_| rng.once_in(2))
        .unwrap_or_else(|| content.clone());
    let mut files = [&content, &other].map(|content| shards::lay_out(rng, &sharding, content));
    if files[0] == files[1] {
        // Little content often has the same layout twice.
        files[1] = shards::lay_out(rng, &sharding, &other);
    }
    if rng.once_in(8) {
        let damaged = rng.index(2);
        shards::damage(rng, &sharding, &mut files[damaged]);
    }
    let sample = Sample {
        sharding,
        number,
        file: files.concat(),
    };
    (sample, files[0].len())
}

fn sample_same(rng: &mut Rng) -> Vec<u8> {
    let (mut sample, first) = pair(rng);
    if rng.once_in(20) {
        shards::make_wild(rng, &mut sample);
    }
    front(rng, &sample)
        .number(first as u64)
        .rest(&sample.file)
        .finish()
}
