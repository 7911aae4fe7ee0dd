//! Ids in order of arrival and starts that jump back (change requests, order
//! 2): named cases by hand, and minishards of many entries.

use compare::sides::{answer, refusal, sharding};
use coronagamba::{Listed, Shard, Span, Unlisted};
use reference::murmur::murmur3_x86_128;
use reference::sharding::Sharding;
use reference::{settle, shard, Refusal};
use testkit::Rng;

/// One shard of one minishard: every id belongs there.
const ALL: Sharding = Sharding {
    preshift: 0,
    hash: 0,
    minishard_bits: 0,
    shard_bits: 0,
    kind: 0,
};

/// The chunk bytes in front of the minishard index.
const DATA: &[u8] = b"abcdefgh";

/// Where the shard index of [`ALL`] ends.
const BASE: u64 = 16;

/// A chunk as an index should list it: id, start counted from the end of the
/// shard index, size.
type Row = (u64, u64, u64);

/// A shard of [`ALL`] with these chunks in this order over [`DATA`].
fn listing(rows: &[Row]) -> Vec<u8> {
    let (mut id, mut end) = (0u64, 0u64);
    let (mut ids, mut starts, mut sizes) = (Vec::new(), Vec::new(), Vec::new());
    for (next, start, size) in rows {
        ids.push(next.wrapping_sub(id));
        starts.push(start.wrapping_sub(end));
        sizes.push(*size);
        (id, end) = (*next, start.wrapping_add(*size));
    }
    let place = DATA.len() as u64;
    let entry = [place, place + 24 * rows.len() as u64];
    let bytes = |numbers: &[u64]| -> Vec<u8> {
        let bytes = numbers.iter().flat_map(|number| number.to_le_bytes());
        bytes.collect()
    };
    [
        bytes(&entry),
        DATA.to_vec(),
        bytes(&[ids, starts, sizes].concat()),
    ]
    .concat()
}

/// Asks both sides everything about a shard; gives the check's verdict.
fn same_answers(file: &[u8], ids: &[u64]) -> Result<(), Refusal> {
    let opened = Shard::open(sharding(&ALL), 0, file);
    let expected = shard::check(&ALL, 0, file);
    assert_eq!(opened.check(), expected.map_err(refusal));
    let span = |entry: &shard::Entry| Span {
        start: entry.start,
        length: entry.length,
    };
    let listed = |entry: &shard::Entry| Listed {
        id: entry.id,
        span: span(entry),
    };
    let entries = shard::list_minishard(&ALL, 0, file, 0);
    let listing = entries.map(|entries| entries.iter().map(listed).collect());
    assert_eq!(opened.listing(0), answer(listing));
    for id in ids {
        let expected = shard::lookup(&ALL, 0, *id, file);
        assert_eq!(
            opened.lookup(*id),
            answer(expected.map(|entry| span(&entry)))
        );
        let bytes = expected.map(|entry| entry.bytes(file));
        assert_eq!(opened.chunk(*id), answer(bytes));
    }
    let length = settle::length_of(&ALL, 0, file, true);
    assert_eq!(opened.settled_length(Unlisted::Drop), answer(length));
    let mut form = vec![0; length.unwrap_or(0) as usize];
    let settled = settle::settle(&ALL, 0, file, true, &mut form).map(|_| form);
    assert!(
        opened.settled(Unlisted::Drop) == answer(settled),
        "the settled form"
    );
    expected
}

/// Where the rows begin.
const ROWS: u64 = BASE + DATA.len() as u64;

/// Refusal 9 of the one minishard, at this entry's id step.
fn twice(entry: usize) -> Result<(), Refusal> {
    Err(Refusal::at(9, ROWS + 8 * entry as u64).in_minishard(0))
}

/// Refusal 11 of the one minishard, at this entry's start step of so many.
fn past_the_end(entry: usize, entries: usize) -> Result<(), Refusal> {
    let position = ROWS + 8 * (entries + entry) as u64;
    Err(Refusal::at(11, position).in_minishard(0))
}

const MOST: u64 = u64::MAX;

#[test]
fn sound_ones() {
    let cases: [(&str, &[Row]); 16] = [
        ("no chunk", &[]),
        ("rising", &[(1, 0, 2), (5, 2, 3), (9, 5, 3)]),
        ("falling", &[(9, 0, 2), (5, 2, 3), (1, 5, 3)]),
        (
            "rising but for the first",
            &[(9, 0, 2), (1, 2, 3), (5, 5, 3)],
        ),
        (
            "rising but for the last",
            &[(5, 0, 2), (9, 2, 3), (1, 5, 3)],
        ),
        ("the largest id, then 0", &[(MOST, 0, 2), (0, 2, 3)]),
        ("0, then the largest id", &[(0, 0, 2), (MOST, 2, 3)]),
        (
            "many turns",
            &[(MOST, 0, 1), (1, 0, 1), (MOST - 1, 0, 1), (0, 0, 1)],
        ),
        (
            "around 2^63",
            &[(1 << 63, 0, 2), ((1 << 63) - 1, 2, 3), (MOST, 5, 3)],
        ),
        ("starts that fall", &[(1, 6, 2), (5, 3, 3), (9, 0, 3)]),
        ("one byte back", &[(1, 0, 3), (5, 2, 3)]),
        ("one chunk over another", &[(1, 0, 8), (5, 2, 3)]),
        ("two ids of one chunk", &[(5, 1, 4), (1, 1, 4)]),
        ("chunks over their own index", &[(5, 0, 56), (1, 8, 48)]),
        (
            "empty ones at the end and at the start",
            &[(5, 56, 0), (1, 0, 0)],
        ),
        (
            "a whole turn of starts",
            &[(5, 8, 0), (3, 0, 8), (1, 8, 0), (0, 0, 8)],
        ),
    ];
    for (name, rows) in cases {
        let file = listing(rows);
        let ids: Vec<u64> = rows.iter().map(|(id, ..)| *id).collect();
        let near: Vec<u64> = ids.iter().map(|id| id.wrapping_add(1)).collect();
        let asked = [ids.clone(), near, vec![0, MOST]].concat();
        assert_eq!(same_answers(&file, &asked), Ok(()), "{name}");
        let listed = shard::list_minishard(&ALL, 0, &file, 0).expect("it is sound");
        let rows_of = |entry: &shard::Entry| (entry.id, entry.start - BASE, entry.length);
        let told: Vec<Row> = listed.iter().map(rows_of).collect();
        assert_eq!(told, rows, "{name}");
    }
}

#[test]
fn ids_that_stand_twice() {
    // The last number is the later entry of the pair that is whole first.
    let cases: [(&str, &[u64], usize); 12] = [
        ("next to each other", &[4, 4], 1),
        ("0 twice", &[0, 0], 1),
        ("the largest id twice", &[MOST, MOST], 1),
        ("the largest id twice, far", &[MOST, 3, 0, MOST], 3),
        ("far, rising between", &[4, 5, 6, 4], 3),
        ("far, falling between", &[4, 3, 2, 4], 3),
        ("the first and the last of many", &[4, 9, 1, 8, 2, 7, 4], 6),
        ("by a whole turn", &[0, MOST, 0], 2),
        ("three times", &[4, 1, 4, 4], 2),
        ("one pair around another", &[1, 2, 2, 1], 2),
        ("two pairs, one after the other", &[7, 7, 1, 1], 1),
        ("the least id is not the first pair", &[9, 1, 9, 1], 2),
    ];
    for (name, ids, later) in cases {
        let rows: Vec<Row> = ids.iter().map(|id| (*id, 0, 1)).collect();
        assert_eq!(same_answers(&listing(&rows), ids), twice(later), "{name}");
        // 9 goes before 11, wherever the chunk past the file is.
        for at in 0..rows.len() {
            let mut past = rows.clone();
            past[at].2 = 1 << 40;
            assert_eq!(same_answers(&listing(&past), ids), twice(later), "{name}");
        }
    }
}

/// Index end, start and size are added up exactly.
#[test]
fn ends_around_the_file_and_around_2_to_the_64() {
    // 24 bytes of index behind the data for each chunk.
    let length = |chunks: u64| DATA.len() as u64 + 24 * chunks;
    for (start, size, sound) in [
        (0, length(2), true),
        (0, length(2) + 1, false),
        (length(2), 0, true),
        (length(2) + 1, 0, false),
        (length(2) - 3, 3, true),
        (length(2) - 3, 4, false),
        // Start and size reach 2^64, with and without the index end.
        (MOST, 0, false),
        (MOST, 1, false),
        (MOST, 2, false),
        (MOST - BASE, 0, false),
        (MOST - BASE + 1, 0, false),
        (MOST - BASE + 2, 0, false),
        (MOST - BASE + 1, 3, false),
        (1, MOST, false),
        (1, MOST - BASE, false),
        (0, MOST, false),
        (1 << 63, 1 << 63, false),
        (1 << 63, (1 << 63) - BASE, false),
        (1 << 32, 0, false),
        (0, 1 << 32, false),
    ] {
        for entry in [0, 1] {
            let mut rows = vec![(3, 1, 2)];
            rows.insert(entry, (7, start, size));
            let expected = if sound {
                Ok(())
            } else {
                past_the_end(entry, 2)
            };
            let file = listing(&rows);
            let told = same_answers(&file, &[3, 7, 4]);
            assert_eq!(told, expected, "{start} {size} {entry}");
        }
    }
}

/// Ids of a minishard of many entries, before they are put in an order.
fn many(rng: &mut Rng, kind: u64, count: usize) -> Vec<u64> {
    let number = 0..count as u64;
    match kind {
        0 => number.collect(),
        1 => number.map(|i| MOST - i).collect(),
        2 => number.map(|i| i << 40).collect(),
        3 => number.map(|i| (i % 2) << 63 | i).collect(),
        _ => {
            let mut ids: Vec<u64> = number.map(|_| rng.bits()).collect();
            ids.sort_unstable();
            ids.dedup();
            ids
        }
    }
}

/// Minishards around 2^10, 2^15 and 2^16 entries and above, in orders that are
/// hard on a search and on a sort; and with an id that stands twice.
#[test]
fn many_entries() {
    let mut rng = Rng::new(18);
    for count in [1_000, 1_024, 32_768, 65_536, 65_537, 70_000] {
        for kind in 0..5 {
            let mut ids = many(&mut rng, kind, count);
            match rng.below(4) {
                0 => ids.reverse(),
                1 => ids.rotate_left(count / 3),
                _ => rng.shuffle(&mut ids),
            }
            let chunk = |id: &u64| (*id, id % 5, id % 4);
            let mut rows: Vec<Row> = ids.iter().map(chunk).collect();
            let asked = [ids[0], ids[count / 2], ids[count - 1], ids[0] ^ 1];
            assert_eq!(same_answers(&listing(&rows), &asked), Ok(()));
            let later = 1 + rng.index(count - 1);
            rows[later].0 = rows[rng.index(later)].0;
            assert_eq!(same_answers(&listing(&rows), &asked[..1]), twice(later));
            let extremes = if rng.once_in(2) {
                ids.iter().min()
            } else {
                ids.iter().max()
            };
            let mut rows: Vec<Row> = ids.iter().map(chunk).collect();
            rows.push(chunk(extremes.expect("there are ids")));
            assert_eq!(same_answers(&listing(&rows), &[]), twice(count));
            // The last chunk past the file, then one before it too.
            let mut rows: Vec<Row> = ids.iter().map(chunk).collect();
            rows[count - 1].2 = 1 << 40;
            let told = same_answers(&listing(&rows), &asked[..1]);
            assert_eq!(told, past_the_end(count - 1, count));
            rows[later].1 = 1 << 31;
            let told = same_answers(&listing(&rows), &asked[..1]);
            assert_eq!(told, past_the_end(later, count));
        }
    }
}

/// Ids whose hashes begin alike, so that a filter by their hash soon seems to
/// know each of them; and with one that stands twice.
#[test]
fn ids_that_crowd_a_filter() {
    let mut rng = Rng::new(19);
    let crowds = |id: &u64| murmur3_x86_128(&id.to_le_bytes(), 0)[7] == 0;
    let mut ids: Vec<u64> = (0..).filter(crowds).take(8_000).collect();
    rng.shuffle(&mut ids);
    let mut rows: Vec<Row> = ids.iter().map(|id| (*id, 0, 0)).collect();
    assert_eq!(same_answers(&listing(&rows), &ids[..2]), Ok(()));
    for later in [1_500, 5_000, 7_999] {
        rows[later].0 = rows[rng.index(later)].0;
        assert_eq!(same_answers(&listing(&rows), &[]), twice(later));
        rows[later].0 = ids[later];
    }
}
