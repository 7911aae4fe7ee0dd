//! The positions of refusals 7 to 11 (change requests, order 6): shards made by
//! hand with the byte that each call names, and on damaged shards that each
//! call passes on one and the same position.

use compare::sides::{answer, refusal, sharding};
use coronagamba::{Refusal, Shard, Unlisted};
use reference::sharding::Sharding;
use reference::{settle, shard};
use testkit::shards::{self, Sample};
use testkit::{Met, Rng};

/// Two minishards, one shard: an even id belongs to the first, an odd one to
/// the second.
const TWO: Sharding = Sharding {
    preshift: 0,
    hash: 0,
    minishard_bits: 1,
    shard_bits: 0,
    kind: 0,
};

/// Numbers as they stand in a shard.
fn row(numbers: &[u64]) -> Vec<u8> {
    let bytes = numbers.iter().flat_map(|number| number.to_le_bytes());
    bytes.collect()
}

/// A refusal that names this byte and no minishard.
fn at(number: u8, position: u64) -> Refusal {
    refusal(reference::Refusal::at(number, position))
}

/// The verdicts on both minishards of a shard of [`TWO`], by every call on
/// both sides: an even id is asked for in the first, an odd one in the second.
#[track_caller]
fn told(file: &[u8], first: Result<u64, Refusal>, second: Result<u64, Refusal>) {
    let opened = Shard::open(sharding(&TWO), 0, file);
    for (minishard, expected) in [(0, first), (1, second)] {
        assert_eq!(opened.listed_count(minishard), expected);
        let listed = opened.listing(minishard);
        assert_eq!(listed.map(|listed| listed.len() as u64), expected);
        let listed = shard::list_minishard(&TWO, 0, file, minishard);
        let counted = listed.map(|listed| listed.len() as u64);
        assert_eq!(counted.map_err(refusal), expected);
        for id in [minishard, 100 + minishard] {
            let absent = Err(refusal(12));
            let expected = expected.map_or_else(Err, |_| absent);
            assert_eq!(opened.lookup(id).map(|_| ()), expected);
            assert_eq!(opened.chunk(id).map(|_| ()), expected);
            let looked_up = shard::lookup(&TWO, 0, id, file);
            assert_eq!(looked_up.map(|_| ()).map_err(refusal), expected);
        }
    }
    let fault = first.err().or(second.err());
    let settled = opened.settled_length(Unlisted::Drop).err();
    assert_eq!(settled, fault);
    assert_eq!(
        opened.settle(Unlisted::Drop, &mut []).err(),
        fault.or(Some(refusal(13)))
    );
    assert_eq!(
        settle::length_of(&TWO, 0, file, true).err().map(refusal),
        fault
    );
    let faulty = fault.map(|fault| Refusal {
        minishard: Some(u64::from(first.is_ok())),
        ..fault
    });
    assert_eq!(opened.check().err(), faulty);
    assert_eq!(opened.chunks().err(), faulty);
    assert_eq!(shard::check(&TWO, 0, file).err().map(refusal), faulty);
}

/// A shard of two minishards of three chunks each: the shard index is bytes 0 to
/// 32, the chunks `abcdefghi` are bytes 32 to 41. The first minishard index is
/// bytes 41 to 113, with rows from 41, 65 and 89; the second is bytes 118 to
/// 190, behind five bytes that nobody lists, with rows from 118, 142 and 166.
fn file(first: [u64; 9], second: [u64; 9]) -> Vec<u8> {
    let index = row(&[9, 81, 86, 158]);
    [
        index,
        b"abcdefghi".to_vec(),
        row(&first),
        b"-----".to_vec(),
        row(&second),
    ]
    .concat()
}

/// Ids 2, 6, 4 and ids 7, 3, 5, a byte each.
const FIRST: [u64; 9] = [2, 4, u64::MAX - 1, 0, 1, 1, 1, 1, 1];
const SECOND: [u64; 9] = [7, u64::MAX - 3, 2, 1, 1, 1, 1, 1, 1];

/// Rows with another number at one place.
fn with(mut rows: [u64; 9], place: usize, number: u64) -> [u64; 9] {
    rows[place] = number;
    rows
}

#[test]
fn by_hand() {
    told(&file(FIRST, SECOND), Ok(3), Ok(3));
    // Entries of the shard index: reversed, past the file, of another length.
    for (start, end, number) in [(158, 86, 7), (86, 159, 7), (86, 157, 8)] {
        let second = Err(at(number, 16));
        let mut other = file(FIRST, SECOND);
        other[16..32].copy_from_slice(&row(&[start, end]));
        told(&other, Ok(3), second);
        other[0..16].copy_from_slice(&row(&[start, end]));
        told(&other, Err(at(number, 0)), second);
    }
    // Ids 2, 6, 2 and ids 7, 7, 9: of a pair the later one.
    let first = with(FIRST, 2, u64::MAX - 3);
    let second = with(SECOND, 1, 0);
    told(&file(first, SECOND), Err(at(9, 57)), Ok(3));
    told(&file(FIRST, second), Ok(3), Err(at(9, 126)));
    told(&file(first, second), Err(at(9, 57)), Err(at(9, 126)));
    // Ids 2, 5, 3 and ids 8, 4, 6: the first of several.
    let first = with(FIRST, 1, 3);
    let second = with(SECOND, 0, 8);
    told(&file(first, SECOND), Err(at(10, 49)), Ok(3));
    told(&file(FIRST, second), Ok(3), Err(at(10, 118)));
    told(&file(first, second), Err(at(10, 49)), Err(at(10, 118)));
    // A size that ends past the file, and a start that is past it.
    let first = with(FIRST, 7, 999);
    let second = with(SECOND, 5, 999);
    told(&file(first, SECOND), Err(at(11, 73)), Ok(3));
    told(&file(FIRST, second), Ok(3), Err(at(11, 158)));
    told(&file(first, second), Err(at(11, 73)), Err(at(11, 158)));
    // The lowest number goes first, wherever its entry is.
    let first = with(with(FIRST, 6, 999), 2, 0);
    told(&file(first, second), Err(at(9, 57)), Err(at(11, 158)));
    let first = with(with(FIRST, 6, 999), 2, 1);
    told(&file(first, second), Err(at(10, 57)), Err(at(11, 158)));
}

/// Both entries of the shard index name one minishard index. What is no fault of
/// the first is one of the second.
#[test]
fn one_index_of_two_minishards() {
    let mut shared = file(FIRST, SECOND);
    let (first, second) = shared.split_at_mut(16);
    second[..16].copy_from_slice(first);
    told(&shared, Ok(3), Err(at(10, 41)));
}

/// The last bytes of the longest shard are the start step and the size of a
/// chunk that ends a byte past it.
#[test]
fn at_the_end_of_the_longest_shard() {
    const LENGTH: u64 = 1 << 30;
    let mut file = vec![0; LENGTH as usize];
    file[16..32].copy_from_slice(&row(&[LENGTH - 56, LENGTH - 32]));
    file[LENGTH as usize - 24..].copy_from_slice(&row(&[1, 0, LENGTH - 32 + 1]));
    told(&file, Ok(0), Err(at(11, LENGTH - 16)));
    file[LENGTH as usize - 24] = 2;
    told(&file, Ok(0), Err(at(10, LENGTH - 24)));
}

/// The calls of one shard pass on what one judge says: settling what the check
/// says, a lookup what the listing of its minishard says. The bytes that a
/// position names are in the file.
#[test]
fn the_calls_agree() {
    let mut rng = Rng::new(61);
    let mut met = Met::new();
    for _ in 0..10_000 {
        let sample = shards::damaged(&mut rng, 12);
        let Sample {
            sharding: specification,
            number,
            file,
        } = &sample;
        let opened = Shard::open(sharding(specification), *number, file);
        let checked = opened.check();
        let expected = shard::check(specification, *number, file);
        assert_eq!(checked, answer(expected), "{sample:?}");
        let passed_on = checked.map_err(|refusal| Refusal {
            minishard: None,
            ..refusal
        });
        assert_eq!(opened.settled_length(Unlisted::Drop).map(|_| ()), passed_on);
        let Err(fault) = checked else { continue };
        assert_eq!(
            opened.settle(Unlisted::Drop, &mut []).map(|_| ()),
            passed_on
        );
        let Some(minishard) = fault.minishard else {
            assert_eq!((fault.number, fault.position), (6, None));
            continue;
        };
        met.note(&Err::<(), u8>(fault.number));
        assert_eq!(opened.listed_count(minishard).map(|_| ()), passed_on);
        let bytes = if fault.number < 9 { 16 } else { 8 };
        let position = fault.position.expect("7 to 11 name a position");
        assert!(position + bytes <= file.len() as u64);
        let id = shards::question(&mut rng, &sample);
        let place = specification.place(id);
        if place.shard == *number {
            let listed = opened.listed_count(place.minishard).map(|_| ());
            let looked_up = opened.lookup(id).map(|_| ());
            assert!(looked_up == listed || looked_up == Err(refusal(12)) && listed.is_ok());
        }
    }
    met.assert_exactly(&[7, 8, 9, 10, 11]);
}
