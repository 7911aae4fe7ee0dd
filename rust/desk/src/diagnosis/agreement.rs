//! Whatever the library refuses, the diagnosis finds words for it. Where the
//! library names a position, that is the byte it tells; elsewhere both readings
//! agree.

use std::collections::BTreeSet;

use compare::sides::{sharding, volume};
use coronagamba::{Card, Cell, Manifest, Pair, Refusal, Shard, Unlisted};
use testkit::shards::{self, Sample};
use testkit::{cards, infos, manifests, meshes, places, Rng};

use super::*;
use crate::edition::Bytes;

/// The numbers of the refusals that were explained.
#[derive(Default)]
struct Explained {
    numbers: BTreeSet<u8>,
}

impl Explained {
    /// Explains an answer where it is a refusal, and gives the explanation.
    fn note<T>(
        &mut self,
        answer: Result<T, Refusal>,
        explain: impl FnOnce(Refusal) -> Diagnosis,
    ) -> Option<Diagnosis> {
        let refusal = answer.err()?;
        let told = explain(refusal);
        assert_ne!(told, Diagnosis::not_found_again(), "{refusal:?}");
        assert!(!told.found.is_empty() && !told.look_at.is_empty());
        if let Some(position) = refusal.position {
            assert_eq!(told.byte, Some(position), "{refusal:?}");
            assert_eq!(told.entry.is_some(), refusal.number > 8);
        }
        self.numbers.insert(refusal.number);
        Some(told)
    }

    /// Panics unless exactly these numbers were explained.
    fn assert_exactly(&self, numbers: impl IntoIterator<Item = u8>) {
        assert_eq!(self.numbers, numbers.into_iter().collect());
    }
}

/// A damaged shard, now and then under another specification or number.
fn sample(rng: &mut Rng) -> Sample {
    let mut sample = shards::damaged(rng, 12);
    match rng.below(8) {
        0 => sample.sharding = places::wild_sharding(rng),
        1 => sample.number = places::shard_number(rng, &sample.sharding),
        _ => {}
    }
    sample
}

/// Settling that drops nothing. The gaps that are told are the reference's.
fn stopped(explained: &mut Explained, sample: &Sample) {
    let (specification, number) = (sharding(&sample.sharding), sample.number);
    let shard = Shard::open(specification, number, &sample.file);
    let told = explained.note(shard.settled_length(Unlisted::Refuse), |refusal| {
        of_shard(&specification, number, &sample.file, refusal)
    });
    if shard.unlisted().is_ok_and(|count| count > 0) {
        let told = told.expect("it is refused");
        let gaps = reference::unlisted::gaps(&sample.sharding, number, &sample.file);
        let gaps = gaps.expect("it is sound");
        assert_eq!(told.byte, Some(gaps[0].0));
        let bytes: u64 = gaps.iter().map(|gap| gap.1).sum();
        let [bytes, count] = [(bytes, "unlisted byte"), (gaps.len() as u64, "gap")]
            .map(|(count, what)| crate::text::counted(count, what));
        assert_eq!(told.found, format!("{bytes} in {count}"));
    }
}

#[test]
fn of_shards() {
    let mut rng = Rng::new(1_101);
    let mut explained = Explained::default();
    for _ in 0..20_000 {
        let sample = sample(&mut rng);
        let (sharding, number) = (sharding(&sample.sharding), sample.number);
        let shard = Shard::open(sharding, number, &sample.file);
        let explain = |refusal| of_shard(&sharding, number, &sample.file, refusal);
        let checked = explained.note(shard.check(), explain);
        let settled = explained.note(shard.settled_length(Unlisted::Drop), explain);
        assert_eq!(checked, settled);
        stopped(&mut explained, &sample);
        let id = shards::question(&mut rng, &sample);
        explained.note(shard.lookup(id), |refusal| {
            of_lookup(&sharding, number, &sample.file, id, refusal)
        });
        let minishard = places::minishard_number(&mut rng, &sample.sharding);
        explained.note(shard.listed_count(minishard), |refusal| {
            of_listing(&sharding, number, &sample.file, minishard, refusal)
        });
    }
    explained.assert_exactly([1].into_iter().chain(5..=12).chain([22, 33]));
}

/// What is said about the joined file, as of a file. Where the byte is in its own
/// file is left out.
fn joined(told: Diagnosis) -> Diagnosis {
    let of_file = |words: &str| words.replace("the joined file", "the file");
    Diagnosis {
        found: of_file(&told.found),
        expected: of_file(&told.expected),
        look_at: String::new(),
        ..told
    }
}

/// A pair is explained as the joined file, where it is cut at its seam; else with
/// 23.
#[test]
fn of_pairs() {
    let mut rng = Rng::new(1_108);
    let mut explained = Explained::default();
    for round in 0..20_000 {
        let sample = match round % 2 {
            0 => sample(&mut rng),
            _ => meshes::any(&mut rng),
        };
        let (sharding, number, file) = (sharding(&sample.sharding), sample.number, &sample.file);
        let seam = 16 << sharding.minishard_bits.min(16);
        let (at_seam, cut) = match file.split_at_checked(seam) {
            Some(_) if rng.below(4) > 0 => (true, seam),
            _ => (false, rng.index(file.len() + 1)),
        };
        let at_seam = at_seam || cut == seam;
        let (index, data) = file.split_at(cut);
        let bytes = Bytes::Two { index, data };
        let (pair, shard) = (
            bytes.open(&sharding, number),
            Shard::open(sharding, number, file),
        );
        let explain = |refusal| of_shard(&sharding, number, bytes, refusal);
        let checked = explained.note(pair.check(), explain);
        let settled = explained.note(pair.settled_length(Unlisted::Drop), explain);
        assert_eq!(checked, settled);
        explained.note(pair.settled_length(Unlisted::Refuse), explain);
        if at_seam {
            let of_file = shard
                .check()
                .map_err(|refusal| of_shard(&sharding, number, file, refusal));
            assert_eq!(checked.map(joined), of_file.err().map(joined));
        }
        let (id, level, node) = meshes::question(&mut rng, &sample);
        explained.note(pair.lookup(id), |refusal| {
            of_lookup(&sharding, number, bytes, id, refusal)
        });
        explained.note(pair.fragment(id, level, node), |refusal| {
            of_fragment(&sharding, number, bytes, (id, level, node), refusal)
        });
        let minishard = places::minishard_number(&mut rng, &sample.sharding);
        explained.note(pair.listed_count(minishard), |refusal| {
            of_listing(&sharding, number, bytes, minishard, refusal)
        });
        let [start, end] = [0, 1].map(|_| rng.below(file.len() as u64 + 3));
        let range = Pair::open(sharding, number, index, data).range(start, end);
        explained.note(range, |refusal| {
            of_range(&sharding, bytes, (start, end), refusal)
        });
    }
    let numbers = [1, 5]
        .into_iter()
        .chain(7..=12)
        .chain(15..=18)
        .chain(21..=24)
        .chain([33]);
    explained.assert_exactly(numbers);
}

#[test]
fn of_mesh_shards() {
    let mut rng = Rng::new(1_106);
    let mut explained = Explained::default();
    for _ in 0..20_000 {
        let sample = meshes::any(&mut rng);
        let (sharding, number) = (sharding(&sample.sharding), sample.number);
        let shard = Shard::open(sharding, number, &sample.file);
        let explain = |refusal| of_shard(&sharding, number, &sample.file, refusal);
        let checked = explained.note(shard.check(), explain);
        let settled = explained.note(shard.settled_length(Unlisted::Drop), explain);
        assert_eq!(checked, settled);
        stopped(&mut explained, &sample);
        let (id, level, node) = meshes::question(&mut rng, &sample);
        explained.note(shard.lookup(id), |refusal| {
            of_lookup(&sharding, number, &sample.file, id, refusal)
        });
        explained.note(shard.lookup_fragment(id, level, node), |refusal| {
            of_fragment(&sharding, number, &sample.file, (id, level, node), refusal)
        });
        let minishard = places::minishard_number(&mut rng, &sample.sharding);
        explained.note(shard.listed_count(minishard), |refusal| {
            of_listing(&sharding, number, &sample.file, minishard, refusal)
        });
    }
    let numbers = [1].into_iter().chain(5..=12).chain(15..=18);
    let numbers = numbers.chain([21, 22, 33]);
    explained.assert_exactly(numbers);
}

/// Settled forms of meshes, just below and just above what a shard may have.
#[test]
fn of_mesh_forms_that_are_too_long() {
    let mut rng = Rng::new(1_107);
    let mut explained = Explained::default();
    for _ in 0..10 {
        let sample = meshes::brimming(&mut rng);
        let (sharding, number) = (sharding(&sample.sharding), sample.number);
        let shard = Shard::open(sharding, number, &sample.file);
        let told = explained.note(shard.settled_length(Unlisted::Drop), |refusal| {
            of_shard(&sharding, number, &sample.file, refusal)
        });
        let expected = "a settled form of 1073741825 bytes";
        assert!(told.is_none_or(|told| told.found == expected));
    }
    explained.assert_exactly([13]);
}

/// The bytes of a card of any meaning, allowed or not.
fn card(rng: &mut Rng) -> Vec<u8> {
    let sharding = places::wild_sharding(rng);
    let mut volume = match rng.below(3) {
        0 => places::wild_volume(rng),
        1 => places::brim_volume(rng),
        _ => places::volume(rng),
    };
    if rng.once_in(4) {
        volume.offset = [0; 3];
    }
    let field = |tag: u8, body: &[u8]| [&[tag, body.len() as u8, 0], body].concat();
    let three = |numbers: [u32; 3]| numbers.map(u32::to_le_bytes).concat();
    let mut card = [
        field(1, &[sharding.preshift]),
        field(2, &[sharding.hash]),
        field(3, &[sharding.minishard_bits]),
        field(4, &[sharding.shard_bits]),
        field(5, &three(volume.size)),
        field(6, &three(volume.chunk)),
    ]
    .concat();
    if rng.once_in(2) {
        card.extend(field(7, &three(volume.offset.map(|number| number as u32))));
    }
    card
}

/// Damages a card in one place.
fn damage_card(rng: &mut Rng, card: &mut Vec<u8>) {
    match rng.below(4) {
        0 => card.truncate(rng.index(card.len() + 1)),
        1 => {
            let more = rng.index(20);
            card.extend(rng.bytes(more));
        }
        _ if card.is_empty() => {}
        _ => {
            let place = rng.index(card.len());
            card[place] = rng.below(14) as u8;
        }
    }
}

#[test]
fn of_cards() {
    let mut rng = Rng::new(1_102);
    let mut explained = Explained::default();
    for _ in 0..40_000 {
        let mut card = card(&mut rng);
        for _ in 0..rng.below(3) {
            damage_card(&mut rng, &mut card);
        }
        explained.note(Card::read(&card), |refusal| of_card(&card, refusal));
        let mesh = cards::damaged_mesh(&mut rng);
        explained.note(Card::read(&mesh), |refusal| of_card(&mesh, refusal));
    }
    explained.assert_exactly([1, 2, 3, 14]);
}

#[test]
fn of_info_files() {
    let mut rng = Rng::new(1_105);
    let mut explained = Explained::default();
    for _ in 0..40_000 {
        let (text, scale) = infos::text(&mut rng);
        let told = explained.note(Card::read_info(&text, scale), |refusal| {
            of_info(&text, scale, refusal)
        });
        assert!(told.is_none_or(|told| told.line.is_some()));
    }
    explained.assert_exactly([1, 2, 3, 19, 20]);
}

#[test]
fn of_manifests() {
    let mut rng = Rng::new(1_103);
    let mut explained = Explained::default();
    for _ in 0..20_000 {
        let bytes = match rng.below(4) {
            0 => manifests::truncated(&mut rng, 12),
            1 => manifests::extended(&mut rng, 12),
            2 => manifests::sound(&mut rng, 12),
            _ => manifests::damaged(&mut rng, 12),
        };
        let manifest = Manifest::open(&bytes);
        explained.note(manifest.check(), |refusal| of_manifest(&bytes, refusal));
        let (level, node) = if bytes.len() < 28 {
            (0, 0)
        } else {
            manifests::question(&mut rng, &bytes)
        };
        let explain = |refusal| of_node(&bytes, level, node, refusal);
        explained.note(manifest.node(level, node), explain);
        explained.note(manifest.corners(level, node), explain);
    }
    explained.assert_exactly(15..=18);
}

#[test]
fn of_cells_and_keys() {
    let mut rng = Rng::new(1_104);
    let mut explained = Explained::default();
    for _ in 0..40_000 {
        let drawn = match rng.below(3) {
            0 => places::brim_volume(&mut rng),
            _ => places::volume(&mut rng),
        };
        let volume = volume(&drawn);
        let cell = Cell::from(places::cell(&mut rng, &drawn));
        explained.note(volume.key(cell), |refusal| of_cell(&volume, cell, refusal));
        explained.note(volume.chunk_name(cell), |refusal| {
            of_cell(&volume, cell, refusal)
        });
        let key = places::key(&mut rng, &drawn);
        explained.note(volume.cell(key), |refusal| of_key(&volume, key, refusal));
        explained.note(volume.grid(), |refusal| of_volume(&volume, refusal));
    }
    explained.assert_exactly([2, 3, 4]);
}
