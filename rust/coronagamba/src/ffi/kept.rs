//! Each call that writes, refused in each way that the header names for it:
//! the answer is the refusal's number, of a shard with 7 to 11, 15 to 17 and 21
//! the position too, from the measure the minishard before it, and nothing else;
//! and every byte that was lent is as it was, whatever it was; of an intake the
//! state and the second buffer, which it reads, are as they were too.

use super::*;
use crate::{CSharding, Cell, Extents, Point, Volume};
use std::collections::BTreeSet;
use std::iter::once;

/// How many words of memory a call has.
const WORDS: usize = 64;

/// Memory that is lent to a call part by part. A word before and behind each
/// part is lent to nobody.
struct Memory {
    words: Vec<u64>,
    used: usize,
}

impl Memory {
    fn holding(words: &[u64]) -> Self {
        Memory {
            words: words.to_vec(),
            used: 0,
        }
    }

    /// Room for this many items.
    fn many<T>(&mut self, count: usize) -> *mut T {
        let start = self.used + 1;
        self.used = start + (count * size_of::<T>()).div_ceil(8);
        assert!(self.used < self.words.len(), "the memory has room");
        self.words.as_mut_ptr().wrapping_add(start).cast()
    }

    /// Room for a result.
    fn one<T>(&mut self) -> *mut T {
        self.many(1)
    }
}

/// A NaN of 32 bits in each half of a word, with a payload by the word's place.
fn nans(front: u32, place: u64) -> u64 {
    let nan = |half: u64| u64::from(front) | (2 * place + half + 1);
    nan(0) | nan(1) << 32
}

/// What memory may hold: each byte value throughout, all of them in turn, and
/// NaNs of 32 and of 64 bits, quiet and signalling, of both signs, with
/// payloads.
fn contents() -> Vec<Vec<u64>> {
    let bytes = (0..=255).map(|byte| vec![u64::from_ne_bytes([byte; 8]); WORDS]);
    let words = |word: &dyn Fn(u64) -> u64| (0..WORDS as u64).map(word).collect::<Vec<u64>>();
    let turn = |place: u64| std::array::from_fn(|i| (8 * place) as u8 + i as u8);
    let turns = words(&|place| u64::from_ne_bytes(turn(place)));
    let short = [0x7fc0_0000, 0xffc0_0000, 0x7f80_0000, 0xff80_0000];
    let long = [0x7ff8 << 48, 0xfff8 << 48, 0x7ff0 << 48, 0xfff0 << 48];
    bytes
        .chain(once(turns))
        .chain(short.map(|front| words(&|place| nans(front, place))))
        .chain(long.map(|front: u64| words(&|place| front | (place + 1))))
        .collect()
}

/// A call, and the word with which it refuses.
struct Case<'a> {
    name: &'static str,
    word: u64,
    call: Box<dyn Fn(&mut Memory) -> u64 + 'a>,
}

/// Cases from lines of a word and a call, in which `lent` is the memory.
macro_rules! cases {
    ($lent:ident: $($word:expr => $name:ident($($argument:expr),* $(,)?);)*) => {
        [$(Case {
            name: stringify!($name),
            word: $word,
            // SAFETY: each pointer and count are those of one live slice or of
            // a part of the memory, and each part is lent once.
            call: Box::new(move |$lent: &mut Memory| unsafe { $name($($argument),*) }),
        }),*]
    };
}

/// A specification that is not allowed.
const FORBIDDEN: CSharding = bits(64, 1);
/// One shard of two minishards.
const TWO: CSharding = bits(0, 1);
/// The same of a mesh.
const MESH: CSharding = CSharding { kind: 1, ..TWO };
/// The same of neither kind.
const NEITHER: CSharding = CSharding { kind: 2, ..TWO };

const fn bits(preshift: u32, minishard_bits: u32) -> CSharding {
    CSharding {
        preshift,
        hash: 0,
        minishard_bits,
        shard_bits: 0,
        kind: 0,
    }
}

/// An allowed specification with 256 more in one field, in each field once. A
/// byte cannot hold the number; cut off, it would be the allowed one.
const TOO_WIDE: [CSharding; 5] = [
    bits(256, 1),
    CSharding { hash: 256, ..TWO },
    bits(0, 256 + 1),
    CSharding {
        shard_bits: 256,
        ..TWO
    },
    CSharding { kind: 256, ..TWO },
];

/// A volume of this size in chunks of one voxel.
fn volume(size: [u32; 3]) -> Volume {
    Volume::new(size, [1; 3], [0; 3])
}

fn grid() -> Vec<Case<'static>> {
    let (empty, row) = (volume([0, 1, 1]), volume([5, 3, 1]));
    let large = volume([1 << 22, 1 << 22, 1 << 21]);
    let (first, outside) = (Cell::from([0; 3]), Cell::from([5, 0, 0]));
    let (corner, far) = (Point::default(), Point::from([i64::MAX; 3]));
    const CELLS: &[u32] = &[0, 0, 0, 4, 2, 0];
    const ONE_OUTSIDE: &[u32] = &[4, 2, 0, 5, 0, 0];
    Vec::from(cases! { lent:
        2 => coronagamba_grid_of(empty, lent.one());
        2 => coronagamba_key_of(empty, first, lent.one());
        2 => coronagamba_key_of(row, outside, lent.one());
        3 => coronagamba_key_of(large, first, lent.one());
        2 => coronagamba_keys_of(empty, CELLS.as_ptr(), 6, lent.many(2), 2, lent.one());
        2 => coronagamba_keys_of(row, ONE_OUTSIDE.as_ptr(), 6, lent.many(2), 2, lent.one());
        3 => coronagamba_keys_of(large, CELLS.as_ptr(), 6, lent.many(2), 2, lent.one());
        13 => coronagamba_keys_of(row, CELLS.as_ptr(), 6, lent.many(1), 1, lent.one());
        2 => coronagamba_row_keys(empty, 0, 2, 0, 0, lent.many(2), 2, lent.one());
        2 => coronagamba_row_keys(row, 4, 6, 0, 0, lent.many(2), 2, lent.one());
        3 => coronagamba_row_keys(large, 0, 2, 0, 0, lent.many(2), 2, lent.one());
        13 => coronagamba_row_keys(row, 3, 5, 2, 0, lent.many(1), 1, lent.one());
        2 => coronagamba_cover(empty, corner, corner, lent.many(2), 2, lent.one());
        3 => coronagamba_cover(large, corner, corner, lent.many(2), 2, lent.one());
        13 => coronagamba_cover(row, corner, far, lent.many(14), 14, lent.one());
        2 => coronagamba_cell_of(empty, 0, lent.one());
        3 => coronagamba_cell_of(large, 0, lent.one());
        4 => coronagamba_cell_of(row, 20, lent.one());
        2 => coronagamba_bounds_of(empty, first, lent.one(), lent.one());
        2 => coronagamba_bounds_of(row, outside, lent.one(), lent.one());
        2 => coronagamba_chunk_name(empty, first, lent.many(71), 71, lent.one());
        2 => coronagamba_chunk_name(row, outside, lent.many(71), 71, lent.one());
        13 => coronagamba_chunk_name(row, first, lent.many(10), 10, lent.one());
    })
}

fn sharding() -> Vec<Case<'static>> {
    const IDS: &[u64] = &[7, 8];
    let ids = IDS.as_ptr();
    Vec::from(cases! { lent:
        1 => coronagamba_place_of(FORBIDDEN, 7, lent.one(), lent.one());
        1 => coronagamba_place_of(NEITHER, 7, lent.one(), lent.one());
        1 => coronagamba_places_of(FORBIDDEN, ids, 2, lent.many(2), 2, lent.many(2), 2, lent.one());
        13 => coronagamba_places_of(TWO, ids, 2, lent.many(1), 1, lent.many(2), 2, lent.one());
        13 => coronagamba_places_of(TWO, ids, 2, lent.many(2), 2, lent.many(1), 1, lent.one());
        1 => coronagamba_shard_name(FORBIDDEN, 0, lent.many(14), 14, lent.one());
        5 => coronagamba_shard_name(TWO, 1, lent.many(14), 14, lent.one());
        13 => coronagamba_shard_name(TWO, 0, lent.many(6), 6, lent.one());
        1 => coronagamba_index_name(FORBIDDEN, 0, lent.many(14), 14, lent.one());
        5 => coronagamba_index_name(TWO, 1, lent.many(14), 14, lent.one());
        13 => coronagamba_index_name(TWO, 0, lent.many(6), 6, lent.one());
        1 => coronagamba_data_name(FORBIDDEN, 0, lent.many(13), 13, lent.one());
        5 => coronagamba_data_name(TWO, 1, lent.many(13), 13, lent.one());
        13 => coronagamba_data_name(TWO, 0, lent.many(5), 5, lent.one());
    })
}

/// The calls on no shard, with each specification of a number that no byte holds.
fn too_wide() -> Vec<Case<'static>> {
    const IDS: &[u64] = &[7, 8];
    let (ids, row) = (IDS.as_ptr(), volume([5, 3, 1]));
    let all = TOO_WIDE.into_iter().flat_map(|spec| {
        cases! { lent:
            1 => coronagamba_place_of(spec, 7, lent.one(), lent.one());
            1 => coronagamba_places_of(spec, ids, 2, lent.many(2), 2, lent.many(2), 2, lent.one());
            1 => coronagamba_shard_name(spec, 0, lent.many(14), 14, lent.one());
            1 => coronagamba_index_name(spec, 0, lent.many(14), 14, lent.one());
            1 => coronagamba_data_name(spec, 0, lent.many(13), 13, lent.one());
            1 => coronagamba_card_write(spec, row, lent.many(65), 65, lent.one());
            1 => coronagamba_intake_open(
                spec, 0, lent.many(99), 99, lent.many::<u8>(9), 9, lent.one(),
            );
        }
    });
    all.collect()
}

/// Numbers as they stand in a shard.
fn row(numbers: &[u64]) -> Vec<u8> {
    let bytes = numbers.iter().flat_map(|number| number.to_le_bytes());
    bytes.collect()
}

/// A shard of two minishards. The first is empty, the second has this entry,
/// five chunk bytes and these rows.
fn shard(entry: [u64; 2], rows: [u64; 6]) -> Vec<u8> {
    [row(&[0, 0]), row(&entry), b"abcde".to_vec(), row(&rows)].concat()
}

/// The rows of ids 5 and 11.
const ROWS: [u64; 6] = [5, 6, 0, 0, 2, 3];

/// A mesh shard of two minishards, and where its start steps begin. The first
/// minishard is empty, the second lists these manifests under ids 5 and 11, each
/// behind so many bytes.
fn mesh(manifests: [Vec<u8>; 2], lead: u64) -> (Vec<u8>, u64) {
    let [first, second] = [0, 1].map(|i: usize| manifests[i].len() as u64);
    let before = vec![b'-'; lead as usize];
    let data = manifests.map(|manifest| [&before[..], &manifest].concat());
    let (data, end) = (data.concat(), 2 * lead + first + second);
    let rows = row(&[5, 6, lead, lead, first, second]);
    let file = [row(&[0, 0, end, end + 48]), data, rows].concat();
    (file, 32 + end + 16)
}

/// A sound mesh shard: each manifest has 10 bytes of fragments.
fn sound_mesh() -> Vec<u8> {
    mesh([manifest(1.0, [0, 1]), manifest(1.0, [2, 3])], 10).0
}

/// A specification, a shard number and a file that each call on a shard
/// refuses with the word in front.
type Faulty = (u64, CSharding, u64, Vec<u8>);

/// The word of a number and a position.
const fn at(number: u64, position: u64) -> u64 {
    number + ((position + 1) << 32)
}

fn faulty_shards() -> Vec<Faulty> {
    let sound = shard([5, 53], ROWS);
    let too_wide = TOO_WIDE.map(|sharding| (1, sharding, 0, sound.clone()));
    let others = vec![
        (1, FORBIDDEN, 0, sound.clone()),
        (5, TWO, 1, sound.clone()),
        (6, TWO, 0, sound[..31].to_vec()),
        (at(7, 16), TWO, 0, shard([53, 5], ROWS)),
        (at(8, 16), TWO, 0, shard([5, 52], ROWS)),
        // The rows begin at bytes 37, 53 and 69; the second entry offends.
        (at(9, 45), TWO, 0, shard([5, 53], [5, 0, 0, 0, 2, 3])),
        (at(10, 45), TWO, 0, shard([5, 53], [5, 5, 0, 0, 2, 3])),
        (at(11, 61), TWO, 0, shard([5, 53], [5, 6, 0, 0, 2, 52])),
        (1, NEITHER, 0, sound),
        faulty_mesh(15, 1, manifest(1.0, [0, 1])[1..].to_vec(), 10),
        faulty_mesh(16, 1, manifest(f32::NAN, [0, 1]), 10),
        faulty_mesh(17, 1, manifest(1.0, [1, 0]), 10),
        // The fragments of the first manifest would begin a byte too early.
        faulty_mesh(21, 0, manifest(1.0, [0, 1]), 9),
    ];
    others.into_iter().chain(too_wide).collect()
}

/// A mesh shard whose second manifest is this one. An entry's start step is the
/// position.
fn faulty_mesh(number: u64, entry: u64, second: Vec<u8>, lead: u64) -> Faulty {
    let (file, steps) = mesh([manifest(1.0, [0, 1]), second], lead);
    (at(number, steps + 8 * entry), MESH, 0, file)
}

/// The same word with the second minishard, where it has a position.
const fn with_minishard(word: u64) -> u64 {
    match word >> 32 {
        0 => word,
        _ => word + (2 << 8),
    }
}

/// The calls that write, on a shard whose second minishard is faulty.
fn on_faulty_shard((word, sharding, shard, file): &Faulty) -> Vec<Case<'_>> {
    let (word, sharding, shard) = (*word, *sharding, *shard);
    let (from, count) = (file.as_ptr(), file.len());
    Vec::from(cases! { lent:
        with_minishard(word) => coronagamba_measure(sharding, shard, from, count, lent.one());
        word => coronagamba_lookup(sharding, shard, from, count, 5, lent.one(), lent.one());
        word => coronagamba_fragment(
            sharding, shard, from, count, 5, 0, 0, lent.one(), lent.one(),
        );
        word => coronagamba_listed_count(sharding, shard, from, count, 1, lent.one());
        word => coronagamba_listing(sharding, shard, from, count, 1, lent.many(9), 9, lent.one());
        word => coronagamba_unlisted(sharding, shard, from, count, lent.one());
        word => coronagamba_settled_length(sharding, shard, from, count, 0, lent.one());
        word => coronagamba_settled_length(sharding, shard, from, count, 1, lent.one());
        word => coronagamba_settle(sharding, shard, from, count, 0, lent.many(99), 99, lent.one());
        word => coronagamba_settle(sharding, shard, from, count, 1, lent.many(99), 99, lent.one());
    })
}

/// The calls that write, on the sound shard of ids 5 and 11.
fn on_sound_shard(file: &[u8]) -> Vec<Case<'_>> {
    let (from, count) = (file.as_ptr(), file.len());
    Vec::from(cases! { lent:
        12 => coronagamba_lookup(TWO, 0, from, count, 7, lent.one(), lent.one());
        12 => coronagamba_fragment(TWO, 0, from, count, 7, 0, 0, lent.one(), lent.one());
        18 => coronagamba_fragment(TWO, 0, from, count, 5, 0, 0, lent.one(), lent.one());
        33 => coronagamba_listed_count(TWO, 0, from, count, 2, lent.one());
        33 => coronagamba_listing(TWO, 0, from, count, 2, lent.many(9), 9, lent.one());
        13 => coronagamba_listing(TWO, 0, from, count, 1, lent.many(5), 5, lent.one());
        13 => coronagamba_settle(TWO, 0, from, count, 0, lent.many(84), 84, lent.one());
    })
}

/// Fragments that a sound mesh shard does not have.
fn on_sound_mesh(file: &[u8]) -> Vec<Case<'_>> {
    let (from, count) = (file.as_ptr(), file.len());
    Vec::from(cases! { lent:
        12 => coronagamba_fragment(MESH, 0, from, count, 7, 0, 0, lent.one(), lent.one());
        18 => coronagamba_fragment(MESH, 0, from, count, 11, 0, 2, lent.one(), lent.one());
        18 => coronagamba_fragment(MESH, 0, from, count, 11, 1, 0, lent.one(), lent.one());
        13 => coronagamba_settle(
            MESH, 0, from, count, 0, lent.many(99), 99, lent.one(),
        );
    })
}

/// Settling that shard with a byte behind it, which nothing lists. It is told
/// before the output is too short.
fn on_unlisted_byte(file: &[u8]) -> Vec<Case<'_>> {
    let (from, count) = (file.as_ptr(), file.len());
    Vec::from(cases! { lent:
        22 => coronagamba_settled_length(TWO, 0, from, count, 0, lent.one());
        22 => coronagamba_settle(TWO, 0, from, count, 0, lent.many(99), 99, lent.one());
        22 => coronagamba_settle(TWO, 0, from, count, 2, lent.many(84), 84, lent.one());
        22 => coronagamba_settled_length(TWO, 0, from, count, 257, lent.one());
        22 => coronagamba_settle(TWO, 0, from, count, 257, lent.many(99), 99, lent.one());
        13 => coronagamba_settle(TWO, 0, from, count, 1, lent.many(84), 84, lent.one());
    })
}

/// The two files of a shard in the earlier edition.
type Files<'a> = (&'a [u8], &'a [u8]);

/// A specification, a shard number and two files that each call on a pair refuses
/// with the word.
struct FaultyPair {
    word: u64,
    sharding: CSharding,
    shard: u64,
    index: Vec<u8>,
    data: Vec<u8>,
}

/// The faulty shards, cut behind their shard indexes. One that is shorter is an
/// index file that is too short, and the joined file is too long where the data
/// file is.
fn faulty_pairs() -> Vec<FaultyPair> {
    let cut = |(word, sharding, shard, file): Faulty| {
        let (index, data) = file.split_at(file.len().min(32));
        FaultyPair {
            word: if word == 6 { 23 } else { word },
            sharding,
            shard,
            index: index.to_vec(),
            data: data.to_vec(),
        }
    };
    let long = FaultyPair {
        word: 6,
        sharding: TWO,
        shard: 0,
        index: vec![0; 32],
        data: vec![0; (1 << 30) - 31],
    };
    faulty_shards().into_iter().map(cut).chain([long]).collect()
}

/// The calls that write, on such a pair.
fn on_faulty_pair(pair: &FaultyPair) -> Vec<Case<'_>> {
    let (word, spec, shard) = (pair.word, pair.sharding, pair.shard);
    let (i, n, d, m) = files((&pair.index, &pair.data));
    Vec::from(cases! { lent:
        with_minishard(word) => coronagamba_pair_measure(spec, shard, i, n, d, m, lent.one());
        word => coronagamba_pair_lookup(spec, shard, i, n, d, m, 5, lent.one(), lent.one());
        word => coronagamba_pair_fragment(
            spec, shard, i, n, d, m, 5, 0, 0, lent.one(), lent.one(),
        );
        word => coronagamba_pair_listed_count(spec, shard, i, n, d, m, 1, lent.one());
        word => coronagamba_pair_listing(
            spec, shard, i, n, d, m, 1, lent.many(9), 9, lent.one(),
        );
        word => coronagamba_pair_unlisted(spec, shard, i, n, d, m, lent.one());
        word => coronagamba_pair_settled_length(spec, shard, i, n, d, m, 0, lent.one());
        word => coronagamba_pair_settled_length(spec, shard, i, n, d, m, 1, lent.one());
        word => coronagamba_pair_settle(
            spec, shard, i, n, d, m, 0, lent.many(99), 99, lent.one(),
        );
        word => coronagamba_pair_settle(
            spec, shard, i, n, d, m, 1, lent.many(99), 99, lent.one(),
        );
    })
}

/// Pointer and count of each file.
fn files((index, data): Files<'_>) -> (*const u8, usize, *const u8, usize) {
    (index.as_ptr(), index.len(), data.as_ptr(), data.len())
}

/// A range of a pair that is refused whatever the range, and one of a sound pair
/// that reaches across the seam, is reversed or passes the end.
fn on_ranges(pairs: &[FaultyPair], sound: Files<'_>) -> Vec<Case<'static>> {
    let mut all = Vec::new();
    for pair in pairs.iter().filter(|pair| [1, 6, 23].contains(&pair.word)) {
        let (word, spec) = (pair.word, pair.sharding);
        let (i, n, d, m) = files((&pair.index, &pair.data));
        all.extend(cases! { lent:
            word => coronagamba_pair_range(
                spec, i, n, d, m, 0, 0, lent.one(), lent.one(), lent.one(),
            );
        });
    }
    let (i, n, d, m) = files(sound);
    let end = (n + m) as u64;
    for (from, to) in [(31, 33), (9, 8), (40, end + 1), (end + 1, end + 1)] {
        all.extend(cases! { lent:
            24 => coronagamba_pair_range(
                TWO, i, n, d, m, from, to, lent.one(), lent.one(), lent.one(),
            );
        });
    }
    all
}

/// The calls that write, on the sound pair of ids 5 and 11.
fn on_sound_pair(pair: Files<'_>) -> Vec<Case<'_>> {
    let (i, n, d, m) = files(pair);
    Vec::from(cases! { lent:
        12 => coronagamba_pair_lookup(TWO, 0, i, n, d, m, 7, lent.one(), lent.one());
        12 => coronagamba_pair_fragment(TWO, 0, i, n, d, m, 7, 0, 0, lent.one(), lent.one());
        18 => coronagamba_pair_fragment(TWO, 0, i, n, d, m, 5, 0, 0, lent.one(), lent.one());
        33 => coronagamba_pair_listed_count(TWO, 0, i, n, d, m, 2, lent.one());
        33 => coronagamba_pair_listing(TWO, 0, i, n, d, m, 2, lent.many(9), 9, lent.one());
        13 => coronagamba_pair_listing(TWO, 0, i, n, d, m, 1, lent.many(5), 5, lent.one());
        13 => coronagamba_pair_settle(TWO, 0, i, n, d, m, 0, lent.many(84), 84, lent.one());
    })
}

/// Settling that pair with a byte behind it, which nothing lists, and one whose
/// form would be too long for any shard.
fn on_pairs_to_settle(more: Files<'_>, long: Files<'_>) -> Vec<Case<'static>> {
    let (i, n, d, m) = files(more);
    let mut all = Vec::from(cases! { lent:
        22 => coronagamba_pair_settled_length(TWO, 0, i, n, d, m, 0, lent.one());
        22 => coronagamba_pair_settle(TWO, 0, i, n, d, m, 2, lent.many(84), 84, lent.one());
        22 => coronagamba_pair_settled_length(TWO, 0, i, n, d, m, 257, lent.one());
        22 => coronagamba_pair_settle(TWO, 0, i, n, d, m, 257, lent.many(99), 99, lent.one());
        13 => coronagamba_pair_settle(TWO, 0, i, n, d, m, 1, lent.many(84), 84, lent.one());
    });
    let (i, n, d, m) = files(long);
    let spec = bits(0, 12);
    all.extend(cases! { lent:
        13 => coronagamba_pair_settled_length(spec, 0, i, n, d, m, 0, lent.one());
        13 => coronagamba_pair_settle(spec, 0, i, n, d, m, 1, lent.many(99), 99, lent.one());
    });
    all
}

/// How many minishards list the same bytes in [`overlapping`], and how many
/// bytes: the settled form would have more than 1 GiB.
const MINISHARDS: u64 = 4096;
const LISTED: u64 = 1 << 18;

/// A sound shard of [`MINISHARDS`] minishards, each of one chunk.
fn overlapping() -> Vec<u8> {
    let place = |minishard: u64| LISTED + 24 * minishard;
    let index = (0..MINISHARDS).flat_map(|m| [place(m), place(m + 1)]);
    let entries = (0..MINISHARDS).flat_map(|m| [m, 0, LISTED]);
    let chunk = vec![0; LISTED as usize];
    let [index, entries] = [index.collect::<Vec<_>>(), entries.collect()].map(|all| row(&all));
    [index, chunk, entries].concat()
}

/// Settling, where the form would be too long for any shard.
fn on_overlapping_shard(file: &[u8]) -> Vec<Case<'_>> {
    let (from, count) = (file.as_ptr(), file.len());
    let sharding = bits(0, 12);
    Vec::from(cases! { lent:
        13 => coronagamba_settled_length(sharding, 0, from, count, 0, lent.one());
        13 => coronagamba_settle(sharding, 0, from, count, 1, lent.many(99), 99, lent.one());
    })
}

/// Two shards of two minishards.
const FOUR: CSharding = CSharding {
    shard_bits: 1,
    ..TWO
};

/// How long an intake's output is, and its second buffer: room for one chunk of a
/// minishard.
const OUT: usize = 99;
const WAITING: usize = 16;

/// An intake between two calls: its numbers and its second buffer.
#[derive(Clone, PartialEq)]
struct Between {
    state: [u64; 15],
    waiting: [u8; WAITING],
}

impl Between {
    /// One of shard 0, to which id 5 of minishard 1 was announced with 2 bytes, of
    /// which so many came.
    fn having(came: usize) -> Self {
        let (mut state, mut out, mut waiting) = ([0; 15], [0; OUT], [0; WAITING]);
        let (to, held) = (out.as_mut_ptr(), waiting.as_mut_ptr());
        // SAFETY: each pointer and count are those of one array, lent to one call
        // at a time.
        unsafe {
            let opened = coronagamba_intake_open(FOUR, 0, to, OUT, held, WAITING, &mut state);
            let told = coronagamba_intake_announce(&mut state, 5, 2, to, OUT, held, WAITING);
            let bytes = b"ab".as_ptr();
            let taken = coronagamba_intake_part(&mut state, bytes, came, to, OUT, held, WAITING);
            assert_eq!((opened, told, taken), (0, 0, 0));
        }
        Between { state, waiting }
    }

    /// The same, closed.
    fn closed() -> Self {
        let Between { mut state, waiting } = Between::having(2);
        let (mut out, mut length) = ([0; OUT], 0);
        let (to, held) = (out.as_mut_ptr(), waiting.as_ptr());
        // SAFETY: each pointer and count are those of one array, and the results
        // go to live values.
        let told =
            unsafe { coronagamba_intake_close(&mut state, to, OUT, held, WAITING, &mut length) };
        assert_eq!((told, length), (0, 32 + 24 + 2));
        Between { state, waiting }
    }

    /// A call on copies of the numbers and of the second buffer, which stay too.
    fn refused(
        self,
        name: &'static str,
        word: u64,
        call: impl Fn(&mut Memory, &mut Between) -> u64 + 'static,
    ) -> Case<'static> {
        let call = move |lent: &mut Memory| {
            let mut after = self.clone();
            let told = call(lent, &mut after);
            assert!(after == self, "{name}, {word}: the state changed");
            told
        };
        Case {
            name,
            word,
            call: Box::new(call),
        }
    }

    /// An announcement, with buffers of these lengths.
    fn announce(self, word: u64, id: u64, size: u64, out: usize, waiting: usize) -> Case<'static> {
        let name = "coronagamba_intake_announce";
        self.refused(name, word, move |lent, now| {
            let held = now.waiting.as_mut_ptr();
            // SAFETY: each pointer and count are those of a part of one array or of
            // the memory, and each part is lent once.
            unsafe {
                let to = lent.many(OUT);
                coronagamba_intake_announce(&mut now.state, id, size, to, out, held, waiting)
            }
        })
    }

    /// A part of so many bytes.
    fn part(self, word: u64, bytes: usize, out: usize, waiting: usize) -> Case<'static> {
        self.refused("coronagamba_intake_part", word, move |lent, now| {
            let (from, held) = (b"abc".as_ptr(), now.waiting.as_ptr());
            // SAFETY: as above.
            unsafe {
                let to = lent.many(OUT);
                coronagamba_intake_part(&mut now.state, from, bytes, to, out, held, waiting)
            }
        })
    }

    /// The close.
    fn close(self, word: u64, out: usize, waiting: usize) -> Case<'static> {
        self.refused("coronagamba_intake_close", word, move |lent, now| {
            let held = now.waiting.as_ptr();
            // SAFETY: as above, and the result goes to a part of its own.
            unsafe {
                let (to, length) = (lent.many(OUT), lent.one());
                coronagamba_intake_close(&mut now.state, to, out, held, waiting, length)
            }
        })
    }
}

/// The calls of an intake.
fn intake() -> Vec<Case<'static>> {
    let open = cases! { lent:
        1 => coronagamba_intake_open(
            FORBIDDEN, 0, lent.many(99), 99, lent.many::<u8>(9), 9, lent.one(),
        );
        1 => coronagamba_intake_open(
            MESH, 0, lent.many(99), 99, lent.many::<u8>(9), 9, lent.one(),
        );
        5 => coronagamba_intake_open(
            TWO, 1, lent.many(99), 99, lent.many::<u8>(9), 9, lent.one(),
        );
        13 => coronagamba_intake_open(
            TWO, 0, lent.many(31), 31, lent.many::<u8>(9), 9, lent.one(),
        );
    };
    let (owing, whole, closed) = (Between::having(1), Between::having(2), Between::closed());
    let mut forged = whole.clone();
    // More came than the sizes say.
    forged.state[12] += OUT as u64;
    let announce = [
        whole.clone().announce(30, 9, 0, OUT - 1, WAITING),
        whole.clone().announce(30, 2, 0, OUT, WAITING - 1),
        whole.clone().announce(10, 2, 0, OUT, WAITING),
        closed.clone().announce(10, 2, 0, OUT, WAITING),
        closed.clone().announce(25, 9, 0, OUT, WAITING),
        forged.clone().announce(25, 9, 0, OUT, WAITING),
        owing.clone().announce(25, 5, 0, OUT, WAITING),
        owing.clone().announce(25, 4, 0, OUT, WAITING),
        owing.clone().announce(26, 9, u64::MAX, OUT, WAITING),
        whole.clone().announce(13, 9, u64::MAX, OUT, WAITING),
        whole.clone().announce(13, 9, 0, OUT, WAITING),
    ];
    let part = [
        whole.clone().part(30, 3, OUT - 1, WAITING),
        closed.clone().part(30, 0, OUT, WAITING - 1),
        closed.clone().part(25, 0, OUT, WAITING),
        forged.clone().part(25, 3, OUT, WAITING),
        owing.clone().part(26, 2, OUT, WAITING),
        whole.clone().part(26, 1, OUT, WAITING),
    ];
    let close = [
        owing.clone().close(30, OUT - 1, WAITING),
        closed.clone().close(30, OUT, WAITING - 1),
        closed.close(25, OUT, WAITING),
        forged.close(25, OUT, WAITING),
        owing.close(26, OUT, WAITING),
    ];
    open.into_iter()
        .chain(announce)
        .chain(part)
        .chain(close)
        .collect()
}

/// A card of this preshift, with these extents of the volume and of a chunk
/// along each axis.
fn card(preshift: u8, size: u32, chunk: u32) -> Vec<u8> {
    let [size, chunk] = [size, chunk].map(|extent| extent.to_le_bytes().repeat(3));
    let four = [1, 1, 0, preshift, 2, 1, 0, 0, 3, 1, 0, 1, 4, 1, 0, 0];
    [&four[..], &[5, 12, 0], &size, &[6, 12, 0], &chunk].concat()
}

fn faulty_cards() -> Vec<(u64, Vec<u8>)> {
    vec![
        (14, card(0, 8, 1)[..45].to_vec()),
        // Tag 8 for a volume.
        (14, [&card(0, 8, 1)[..], &[8, 1, 0, 0]].concat()),
        (1, card(64, 8, 1)),
        (2, card(0, 0, 1)),
        (3, card(0, 1 << 22, 1)),
    ]
}

fn on_faulty_card((number, bytes): &(u64, Vec<u8>)) -> Vec<Case<'_>> {
    let (from, count) = (bytes.as_ptr(), bytes.len());
    Vec::from(cases! { lent:
        *number => coronagamba_card_read(
            from, count, lent.one(), lent.one(), lent.one(), lent.one(),
        );
    })
}

/// An info file of a volume of this size in chunks of one voxel.
fn info(preshift: &str, size: u32) -> Vec<u8> {
    let sharding = format!(
        r#"{{"@type": "neuroglancer_uint64_sharded_v1", "preshift_bits": {preshift},
            "hash": "identity", "minishard_bits": 1, "shard_bits": 0}}"#
    );
    format!(
        r#"{{"scales": [{{"size": [{size}, {size}, {size}], "chunk_sizes": [[1, 1, 1]],
            "voxel_offset": [-1, 0, 1], "sharding": {sharding}}}]}}"#
    )
    .into_bytes()
}

fn faulty_infos() -> Vec<(u64, Vec<u8>)> {
    vec![
        (19, info("00", 8)),
        (20, info("0.5", 8)),
        (1, info("64", 8)),
        (2, info("0", 0)),
        (3, info("0", 1 << 22)),
    ]
}

fn on_faulty_info((number, bytes): &(u64, Vec<u8>)) -> Vec<Case<'_>> {
    let (from, count) = (bytes.as_ptr(), bytes.len());
    Vec::from(cases! { lent:
        *number => coronagamba_info_read(
            from, count, 0, lent.one(), lent.one(), lent.one(), lent.one(),
        );
    })
}

fn card_write() -> Vec<Case<'static>> {
    let (empty, row) = (volume([0, 1, 1]), volume([5, 3, 1]));
    let large = volume([1 << 22, 1 << 22, 1 << 21]);
    Vec::from(cases! { lent:
        1 => coronagamba_card_write(FORBIDDEN, row, lent.many(65), 65, lent.one());
        1 => coronagamba_card_write(NEITHER, row, lent.many(65), 65, lent.one());
        2 => coronagamba_card_write(TWO, empty, lent.many(65), 65, lent.one());
        3 => coronagamba_card_write(TWO, large, lent.many(65), 65, lent.one());
        13 => coronagamba_card_write(TWO, row, lent.many(45), 45, lent.one());
        13 => coronagamba_card_write(MESH, row, lent.many(49), 49, lent.one());
    })
}

/// A manifest of one level with two nodes at these x positions.
fn manifest(shape: f32, x: [u32; 2]) -> Vec<u8> {
    let [first, second] = x;
    let shape = shape.to_bits();
    let head = [shape, shape, shape, 0, 0, 0, 1, 0, 0, 0, 0, 2];
    let items = [&head[..], &[first, second, 0, 0, 0, 0, 5, 5]].concat();
    items.into_iter().flat_map(u32::to_le_bytes).collect()
}

fn faulty_manifests() -> Vec<(u64, Vec<u8>)> {
    vec![
        (15, manifest(1.0, [0, 1])[1..].to_vec()),
        (16, manifest(f32::NAN, [0, 1])),
        (16, manifest(0.0, [0, 1])),
        (17, manifest(1.0, [1, 0])),
    ]
}

fn on_faulty_manifest((number, bytes): &(u64, Vec<u8>)) -> Vec<Case<'_>> {
    let (number, from, count) = (*number, bytes.as_ptr(), bytes.len());
    Vec::from(cases! { lent:
        number => coronagamba_manifest_header(from, count, lent.one());
        number => coronagamba_manifest_field(from, count, 0, lent.one(), lent.one());
        number => coronagamba_manifest_node(
            from, count, 0, 0, lent.one(), lent.one(), lent.one(),
        );
        number => coronagamba_manifest_corners(from, count, 0, 0, lent.one(), lent.one());
        number => coronagamba_manifest_nodes(from, count, 0, lent.many(10), 10, lent.one());
    })
}

/// Questions to a sound manifest, the far node of which has no corners.
fn on_sound_manifest(bytes: &[u8]) -> Vec<Case<'_>> {
    let (from, count) = (bytes.as_ptr(), bytes.len());
    let items = count as u32 / 4;
    Vec::from(cases! { lent:
        18 => coronagamba_manifest_field(from, count, items, lent.one(), lent.one());
        18 => coronagamba_manifest_node(from, count, 0, 2, lent.one(), lent.one(), lent.one());
        18 => coronagamba_manifest_node(from, count, 1, 0, lent.one(), lent.one(), lent.one());
        18 => coronagamba_manifest_corners(from, count, 0, 2, lent.one(), lent.one());
        18 => coronagamba_manifest_corners(from, count, 0, 1, lent.one(), lent.one());
        18 => coronagamba_manifest_nodes(from, count, 1, lent.many(10), 10, lent.one());
        13 => coronagamba_manifest_nodes(from, count, 0, lent.many(9), 9, lent.one());
    })
}

/// A chunk of one block of 2 by 2 by 2 labels of 32 bits, with the block's width
/// and the table's offset.
fn labelled(width: u32, table: u32) -> Vec<u8> {
    let words = [1, width << 24 | table, 2, 0xa5, 7, 9];
    words.into_iter().flat_map(u32::to_le_bytes).collect()
}

fn faulty_labels() -> Vec<(u64, Vec<u8>)> {
    vec![
        (29, labelled(3, 3)),
        // The table's second entry ends past the chunk.
        (28, labelled(1, 4)),
    ]
}

fn on_faulty_labels((number, chunk): &(u64, Vec<u8>)) -> Vec<Case<'_>> {
    let (number, from, count) = (*number, chunk.as_ptr(), chunk.len());
    let two = Extents::from([2; 3]);
    Vec::from(cases! { lent:
        // A label width that is none goes before both.
        2 => coronagamba_label(from, count, two, two, 1, 1, 0, 0, 0, 0, lent.one());
        2 => coronagamba_unpack(from, count, two, two, 1, 1, lent.many(32), 32, lent.one());
        number => coronagamba_label(from, count, two, two, 1, 32, 0, 0, 0, 0, lent.one());
        number => coronagamba_unpack(from, count, two, two, 1, 32, lent.many(32), 32, lent.one());
        number => coronagamba_unpack(from, count, two, two, 1, 32, lent.many(31), 31, lent.one());
    })
}

/// Questions to a sound chunk of labels.
fn on_sound_labels(chunk: &[u8]) -> Vec<Case<'_>> {
    let (from, count) = (chunk.as_ptr(), chunk.len());
    let [none, two, most] = [0, 2, u32::MAX].map(|extent| Extents::from([extent; 3]));
    Vec::from(cases! { lent:
        2 => coronagamba_label(from, count, two, none, 1, 32, 0, 0, 0, 0, lent.one());
        2 => coronagamba_label(from, count, two, two, 1, 32, 0, 0, 2, 0, lent.one());
        2 => coronagamba_label(from, count, two, two, 1, 32, 0, 0, 0, 1, lent.one());
        2 => coronagamba_label(from, count, two, two, 1, 33, 0, 0, 0, 0, lent.one());
        2 => coronagamba_label(from, count, two, two, 1, 256 + 32, 0, 0, 0, 0, lent.one());
        2 => coronagamba_unpacked_length(two, two, 1, 256 + 64, lent.one());
        2 => coronagamba_unpack(from, count, two, two, 1, 288, lent.many(32), 32, lent.one());
        2 => coronagamba_unpacked_length(two, two, 1, 0, lent.one());
        2 => coronagamba_unpacked_length(most, two, 1, 128, lent.one());
        2 => coronagamba_unpack(from, count, two, two, 1, 16, lent.many(31), 31, lent.one());
        2 => coronagamba_unpacked_length(none, two, 1, 32, lent.one());
        2 => coronagamba_unpacked_length(two, two, 0, 32, lent.one());
        13 => coronagamba_unpacked_length(most, two, 1, 32, lent.one());
        2 => coronagamba_unpack(from, count, none, two, 1, 32, lent.many(32), 32, lent.one());
        13 => coronagamba_unpack(from, count, two, two, 1, 32, lent.many(31), 31, lent.one());
    })
}

/// Makes each case's call on memory of all contents, and sees that it stays.
fn stays(cases: &[Case]) {
    for content in contents() {
        for Case { name, word, call } in cases {
            let mut memory = Memory::holding(&content);
            assert_eq!(call(&mut memory), *word, "{name}");
            assert!(memory.words == content, "{name}, {word}: a byte changed");
        }
    }
}

/// What the header says of a call: behind `Refusals:`, numbers and ranges with
/// words behind them, or `none`.
fn numbers(refusals: &str) -> Vec<u64> {
    if refusals.trim() == "none" {
        return Vec::new();
    }
    let number = |text: &str| text.parse::<u64>().expect("a number");
    let range = |part: &str| {
        let words: Vec<&str> = part.split_whitespace().collect();
        match words[..] {
            [first, "to", last, ..] => number(first)..=number(last),
            [only, ..] => number(only)..=number(only),
            [] => panic!("no number in {refusals}"),
        }
    };
    refusals.split(',').flat_map(range).collect()
}

/// Each call that writes with each refusal that the header names for it. The
/// checks give a word and nothing else.
fn named() -> BTreeSet<(String, u64)> {
    let header = concat!(env!("CARGO_MANIFEST_DIR"), "/../../include/coronagamba.h");
    let header = std::fs::read_to_string(header).expect("the header");
    let mut named = BTreeSet::new();
    for paragraph in header.split("\n\n") {
        let Some((comment, declaration)) = paragraph.split_once("*/\n") else {
            continue;
        };
        let comment = comment.replace("\n *", " ");
        let Some((_, refusals)) = comment.split_once("Refusals: ") else {
            continue;
        };
        let name = declaration.split(['(', ' ']).nth(1).expect("a name");
        if !name.ends_with("_check") {
            named.extend(numbers(refusals).iter().map(|n| (name.to_string(), *n)));
        }
    }
    named
}

#[test]
fn a_refusal_leaves_every_lent_byte() {
    let (shards, cards, manifests) = (faulty_shards(), faulty_cards(), faulty_manifests());
    let (infos, labels, labelled) = (faulty_infos(), faulty_labels(), labelled(1, 3));
    let (sound, long, mesh) = (shard([5, 53], ROWS), overlapping(), sound_mesh());
    let far = manifest(1.0, [0, 1 << 24]);
    let more = [&sound[..], b"-"].concat();
    let pairs = faulty_pairs();
    let [sound_pair, more_pair] = [&sound, &more].map(|file| file.split_at(32));
    let long_pair = long.split_at(16 * MINISHARDS as usize);
    let cases: Vec<Case> = [grid(), sharding(), too_wide(), intake(), card_write()]
        .into_iter()
        .chain(shards.iter().map(on_faulty_shard))
        .chain([on_sound_shard(&sound), on_sound_mesh(&mesh)])
        .chain([on_unlisted_byte(&more), on_overlapping_shard(&long)])
        .chain(pairs.iter().map(on_faulty_pair))
        .chain([on_sound_pair(sound_pair), on_ranges(&pairs, sound_pair)])
        .chain([on_pairs_to_settle(more_pair, long_pair)])
        .chain(cards.iter().map(on_faulty_card))
        .chain(infos.iter().map(on_faulty_info))
        .chain(manifests.iter().map(on_faulty_manifest))
        .chain([on_sound_manifest(&far)])
        .chain(labels.iter().map(on_faulty_labels))
        .chain([on_sound_labels(&labelled)])
        .flatten()
        .collect();
    let tried: BTreeSet<_> = cases
        .iter()
        .map(|case| (case.name.to_string(), case.word & 0xff))
        .collect();
    // Full sheets are tried below. No shard is known of which the measure gives 27:
    // it would list more than 2^34 chunks.
    let with_27 = |name: &str| (format!("coronagamba_{name}"), 27);
    let others = [
        "sheet_add",
        "pair_sheet_add",
        "sheet_join",
        "measure",
        "pair_measure",
    ];
    let expected = &named() - &BTreeSet::from(others.map(with_27));
    assert_eq!(
        tried, expected,
        "the refusals tried and those of the header"
    );
    stays(&cases);
}

/// Sheets of all contents, of which one row is at its end, and shards or sheets
/// that would add to it.
#[test]
fn a_full_sheet_stays() {
    let sound = shard([5, 53], ROWS);
    let more = [&sound[..], b"-"].concat();
    let (i, n, d, m) = files(more.split_at(32));
    for content in contents() {
        let mut sheet = [0; 17];
        sheet.copy_from_slice(&content[..17]);
        // A sound shard adds to the first row and to the last three.
        for row in [0, 14, 15, 16] {
            let mut full = sheet;
            full[row] = u64::MAX;
            let mut lent = full;
            // SAFETY: each pointer and count are those of one live slice, and the
            // rows are lent to one call at a time.
            unsafe {
                let told = coronagamba_sheet_add(&mut lent, TWO, 0, more.as_ptr(), more.len());
                assert_eq!((told, lent), (27, full));
                let told = coronagamba_pair_sheet_add(&mut lent, TWO, 0, i, n, d, m);
                assert_eq!((told, lent), (27, full));
            }
        }
        // The faulty shards and pairs between them add to all other rows.
        for (word, sharding, number, file) in faulty_shards() {
            let mut full = sheet;
            full[row_of(word & 0xff)] = u64::MAX;
            let mut lent = full;
            let (from, count) = (file.as_ptr(), file.len());
            // SAFETY: as above.
            let told = unsafe { coronagamba_sheet_add(&mut lent, sharding, number, from, count) };
            assert_eq!((told, lent), (27, full));
        }
        let mut full = sheet;
        full[row_of(23)] = u64::MAX;
        let mut lent = full;
        // SAFETY: as above.
        let told = unsafe { coronagamba_pair_sheet_add(&mut lent, TWO, 0, i, n - 1, d, m) };
        assert_eq!((told, lent), (27, full));
        for row in 0..17 {
            let (mut full, mut one) = (sheet, [0; 17]);
            (full[row], one[row]) = (u64::MAX, 1);
            let mut lent = full;
            // SAFETY: as above.
            let told = unsafe { coronagamba_sheet_join(&mut lent, &one) };
            assert_eq!((told, lent), (27, full));
        }
    }
}

/// The row of a number that the check gives, as the header orders them.
fn row_of(number: u64) -> usize {
    let numbers = [1, 5, 6, 7, 8, 9, 10, 11, 15, 16, 17, 21, 23];
    let place = numbers.iter().position(|known| *known == number);
    1 + place.expect("the check gives the number")
}

#[test]
fn contents_have_every_byte_and_every_kind_of_nan() {
    let words = contents().concat();
    let bytes: BTreeSet<u8> = words.iter().flat_map(|word| word.to_ne_bytes()).collect();
    assert_eq!(bytes.len(), 256);
    // Sign, and whether quiet.
    let short = words.iter().map(|word| *word as u32);
    let short = short.filter(|bits| f32::from_bits(*bits).is_nan());
    let short: BTreeSet<_> = short.map(|bits| (bits >> 31, bits >> 22 & 1)).collect();
    let long = words.iter().filter(|bits| f64::from_bits(**bits).is_nan());
    let long: BTreeSet<_> = long.map(|bits| (bits >> 63, bits >> 51 & 1)).collect();
    assert_eq!((short.len(), long.len()), (4, 4));
}
