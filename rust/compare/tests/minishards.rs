//! Shards of 2^13 to 2^16 minishards (change requests, order 4): sound ones,
//! and faults in the last minishard.

use compare::sides::{answer, refusal, sharding};
use coronagamba::{Listed, Shard, Span, Unlisted};
use reference::endian::put_u64;
use reference::sharding::{Sharding, MOST_MINISHARD_BITS};
use reference::{settle, shard};
use testkit::shards::{self, Content};
use testkit::Rng;

/// What order 4 added.
const BITS: std::ops::RangeInclusive<u8> = 13..=16;

/// One shard with so many minishards.
fn specification(hash: u8, minishard_bits: u8) -> Sharding {
    Sharding {
        preshift: 0,
        hash,
        minishard_bits,
        shard_bits: 0,
        kind: 0,
    }
}

/// The least id of a minishard.
fn id_in(specification: &Sharding, minishard: u64) -> u64 {
    let found = (0..).find(|id| specification.place(*id).minishard == minishard);
    found.expect("each minishard has ids")
}

/// The last minishard.
fn last(specification: &Sharding) -> u64 {
    specification.minishard_count() - 1
}

/// Asks both sides for the chunks that a minishard lists.
fn same_listing(specification: &Sharding, file: &[u8], minishard: u64) {
    let listed = |entry: &shard::Entry| Listed {
        id: entry.id,
        span: Span {
            start: entry.start,
            length: entry.length,
        },
    };
    let expected = shard::list_minishard(specification, 0, file, minishard);
    let opened = Shard::open(sharding(specification), 0, file);
    assert_eq!(
        opened.listing(minishard),
        answer(expected.map(|entries| entries.iter().map(listed).collect()))
    );
}

/// Asks both sides for an id.
fn same_lookup(specification: &Sharding, file: &[u8], id: u64) -> Result<(), u8> {
    let expected = shard::lookup(specification, 0, id, file);
    let opened = Shard::open(sharding(specification), 0, file);
    let bytes = expected.map(|entry| entry.bytes(file));
    assert_eq!(opened.chunk(id), answer(bytes));
    expected.map(|_| ()).map_err(|refusal| refusal.number)
}

/// A few chunks, in the first and in the last minishard too.
fn content(rng: &mut Rng, specification: &Sharding) -> Content {
    let mut content = shards::content(rng, specification, 0, 40);
    content.insert(id_in(specification, 0), b"first".to_vec());
    content.insert(id_in(specification, last(specification)), b"last".to_vec());
    content
}

#[test]
fn sound_shards_are_read_and_settled() {
    let mut rng = Rng::new(4);
    for bits in BITS {
        for hash in [0, 1, 0, 1, 0, 1] {
            let specification = specification(hash, bits);
            let content = content(&mut rng, &specification);
            let file = shards::lay_out(&mut rng, &specification, &content);
            let opened = Shard::open(sharding(&specification), 0, &file);
            assert_eq!(opened.check(), Ok(()));
            assert_eq!(shard::check(&specification, 0, &file), Ok(()));
            for (id, bytes) in &content {
                assert_eq!(opened.chunk(*id), Ok(&bytes[..]));
                assert_eq!(same_lookup(&specification, &file, *id), Ok(()));
                same_listing(&specification, &file, specification.place(*id).minishard);
            }
            for minishard in [1, last(&specification), last(&specification) + 1] {
                same_listing(&specification, &file, minishard);
            }
            let listed: Vec<settle::Listed> = content
                .iter()
                .map(|(id, bytes)| (*id, &bytes[..]))
                .collect();
            let form = settle::settled_form(&specification, &listed);
            assert!(form.len() > 16 << bits);
            assert_eq!(opened.settled_length(Unlisted::Drop), Ok(form.len() as u64));
            assert!(opened.settled(Unlisted::Drop).as_ref() == Ok(&form));
            let settled = Shard::open(sharding(&specification), 0, &form);
            assert!(settled.settled(Unlisted::Drop).as_ref() == Ok(&form));
        }
    }
}

/// A shard of which only the last minishard has an entry: the chunk bytes
/// `abc`, and this minishard index behind them.
fn nearly_empty(specification: &Sharding, entry: [u64; 2], index: &[u64]) -> Vec<u8> {
    let end = specification.index_end() as usize;
    let mut file = vec![0; end];
    for (at, number) in [(end - 16, entry[0]), (end - 8, entry[1])] {
        put_u64(&mut file, at, number).expect("the shard index has it");
    }
    file.extend(b"abc");
    file.extend(index.iter().flat_map(|number| number.to_le_bytes()));
    file
}

#[test]
fn faults_in_the_last_minishard_are_named() {
    for bits in BITS {
        let specification = specification(0, bits);
        let last = last(&specification);
        let sound = [last, 0, 3];
        assert_eq!(id_in(&specification, last), last);
        let cases: [(u8, [u64; 2], &[u64]); 7] = [
            (0, [3, 27], &sound),
            (7, [27, 3], &sound),
            (7, [3, 51], &sound),
            (8, [3, 26], &sound),
            (9, [3, 51], &[last, 0, 0, 0, 3, 0]),
            (10, [3, 27], &[last - 1, 0, 3]),
            (11, [3, 27], &[last, 0, 28]),
        ];
        for (number, entry, index) in cases {
            let file = nearly_empty(&specification, entry, index);
            let opened = Shard::open(sharding(&specification), 0, &file);
            let expected = shard::check(&specification, 0, &file);
            assert_eq!(opened.check(), expected.map_err(refusal));
            let told = expected
                .err()
                .map(|refusal| (refusal.number, refusal.minishard));
            let fault = (number != 0).then_some((number, Some(last)));
            assert_eq!(told, fault, "{bits} bits, {entry:?} {index:?}");
            let asked = same_lookup(&specification, &file, last);
            assert_eq!(asked.err().unwrap_or(0), number);
            assert_eq!(same_lookup(&specification, &file, 0), Err(12));
            same_listing(&specification, &file, last);
            let settled = opened.settled(Unlisted::Drop).map(|_| ());
            assert_eq!(settled.map_err(|refusal| refusal.number), asked);
        }
    }
}

#[test]
fn seventeen_bits_are_refused() {
    for (bits, number) in [(12, 0), (13, 0), (16, 0), (17, 1), (32, 1), (255, 1)] {
        let specification = specification(0, bits);
        assert_eq!(specification.allowed().err().unwrap_or(0), number);
        let file = vec![0; 16 << bits.min(MOST_MINISHARD_BITS + 1)];
        let opened = Shard::open(sharding(&specification), 0, &file);
        let checked = opened.check().map_err(|refusal| refusal.number);
        assert_eq!(checked.err().unwrap_or(0), number);
        let found = opened.lookup(0).map_err(|refusal| refusal.number);
        assert_eq!(found, Err(if number == 0 { 12 } else { 1 }));
    }
}
