//! Lookup and the whole-shard check: cut files, against the reference, lengths
//! around the limit, and what a lookup does not depend on.

use compare::sides::{answer, refusal, sharding};
use coronagamba::{Shard, Span};
use reference::shard;
use testkit::shards::{self, Sample};
use testkit::{Met, Rng};

/// The library's shard over a sample's file.
fn open(sample: &Sample) -> Shard<'_> {
    Shard::open(sharding(&sample.sharding), sample.number, &sample.file)
}

/// Asks both for an id, and for the bytes where it is listed.
fn same_lookup(sample: &Sample, id: u64) -> Result<(), reference::Refusal> {
    let Sample {
        sharding,
        number,
        file,
    } = sample;
    let expected = shard::lookup(sharding, *number, id, file);
    let span = |entry: shard::Entry| Span {
        start: entry.start,
        length: entry.length,
    };
    let shard = open(sample);
    assert_eq!(
        shard.lookup(id),
        answer(expected.map(span)),
        "{sample:?} {id}"
    );
    let bytes = expected.map(|entry| entry.bytes(file));
    assert_eq!(shard.chunk(id), answer(bytes));
    expected.map(|_| ())
}

/// Checks the whole shard on both sides.
fn same_check(sample: &Sample) -> Result<(), reference::Refusal> {
    let expected = shard::check(&sample.sharding, sample.number, &sample.file);
    assert_eq!(
        open(sample).check(),
        expected.map_err(refusal),
        "{sample:?}"
    );
    expected
}

/// Each front of a small sound shard, from the whole file down to nothing.
/// The bytes behind the front stay in memory, so that reading on would find
/// what the whole file says.
#[test]
fn truncations_at_every_length() {
    let mut rng = Rng::new(8);
    let (mut lookups, mut checks) = (Met::new(), Met::new());
    let mut shards = 0;
    while shards < 1_000 {
        let mut sample = shards::sound(&mut rng, 8);
        if sample.file.len() > 700 {
            continue;
        }
        shards += 1;
        let listed = shard::list(&sample.sharding, sample.number, &sample.file)
            .expect("the sample is sound");
        for length in (0..=sample.file.len()).rev() {
            sample.file.truncate(length);
            checks.note(&same_check(&sample));
            let id = if listed.is_empty() {
                shards::question(&mut rng, &sample)
            } else {
                rng.pick(&listed).id
            };
            lookups.note(&same_lookup(&sample, id));
        }
    }
    checks.assert_exactly(&[0, 6, 7, 11]);
    lookups.assert_exactly(&[0, 5, 6, 7, 11, 12]);
}

#[test]
fn lengths_around_a_gibibyte() {
    let specification = coronagamba::Sharding {
        preshift: 0,
        hash: 0,
        minishard_bits: 0,
        shard_bits: 0,
        kind: 0,
    };
    let mut file = vec![0; (1 << 30) + 1];
    let shard = Shard::open(specification, 0, &file);
    assert_eq!(shard.check().unwrap_err().number, 6);
    assert_eq!(shard.lookup(0).unwrap_err().number, 6);
    file.pop();
    let shard = Shard::open(specification, 0, &file);
    assert_eq!(shard.check(), Ok(()));
    assert_eq!(shard.lookup(0).unwrap_err().number, 12);
}

/// Bytes that no part of a lookup names may change freely.
#[test]
fn other_bytes_may_change() {
    let mut rng = Rng::new(5);
    let mut found = 0;
    for _ in 0..10_000 {
        let sample = shards::sound(&mut rng, 12);
        let Sample {
            sharding,
            number,
            file,
        } = &sample;
        let id = shards::question(&mut rng, &sample);
        let before = open(&sample).chunk(id);
        let Ok(entry) = shard::lookup(sharding, *number, id, file) else {
            continue;
        };
        let minishard = sharding.place(id).minishard as usize;
        let mut kept = vec![false; file.len()];
        let base = sharding.index_end() as usize;
        let at = |place| reference::endian::read_u64(file, place) as usize;
        kept[16 * minishard..16 * minishard + 16].fill(true);
        kept[base + at(16 * minishard)..base + at(16 * minishard + 8)].fill(true);
        kept[entry.start as usize..][..entry.length as usize].fill(true);
        let mut other = sample.clone();
        for (byte, kept) in other.file.iter_mut().zip(kept) {
            if !kept {
                *byte = rng.bits() as u8;
            }
        }
        assert_eq!(open(&other).chunk(id), before);
        found += 1;
    }
    assert!(found > 2_000);
}
