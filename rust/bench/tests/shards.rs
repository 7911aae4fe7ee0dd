//! Plain Rust makes the tests of shards that the library makes, in volumes and
//! in meshes, and settles to the same bytes.

use bench::plain;
use compare::sides;
use coronagamba::{Refusal, Shard, Sharding, Span, Unlisted};
use std::collections::BTreeSet;
use testkit::shards::{self, Sample};
use testkit::{meshes, Rng};

/// An answer of the library as plain Rust gives it.
fn placed(answer: Result<Span, Refusal>) -> Result<(u64, u64), u8> {
    let place = answer.map(|span| (span.start, span.length));
    place.map_err(|refusal| refusal.number)
}

/// Asks both sides everything about a shard; gives the check's refusal, 0 for
/// success.
fn answered_alike(sample: &Sample, (id, level, node): (u64, u64, u64)) -> u8 {
    let Sample { number, file, .. } = sample;
    let sharding = sides::sharding(&sample.sharding);
    let shard = Shard::open(sharding, *number, file);
    let form = shard
        .settled(Unlisted::Drop)
        .map_err(|refusal| refusal.number);
    let mut out = vec![0; form.as_ref().map_or(1 << 16, Vec::len)];
    let (checked, found, settled) = if sharding.kind == Sharding::MESH {
        (
            plain::meshes::check(&sharding, *number, file),
            plain::meshes::lookup(&sharding, *number, file, id),
            plain::meshes::settle(&sharding, *number, file, &mut out),
        )
    } else {
        (
            plain::shards::check(&sharding, *number, file),
            plain::shards::lookup(&sharding, *number, file, id),
            plain::shards::settle(&sharding, *number, file, &mut out),
        )
    };
    let told = shard.check();
    let told = told.map_err(|refusal| (refusal.number, refusal.minishard.unwrap_or(0)));
    assert_eq!(checked, told, "{sample:?}");
    assert_eq!(found, placed(shard.lookup(id)), "{id} in {sample:?}");
    out.truncate(settled.unwrap_or(0));
    assert!(settled.map(|_| out) == form, "{sample:?}");
    let fragment = placed(shard.lookup_fragment(id, level, node));
    let (level, node) = (level as usize, node as usize);
    let found = plain::meshes::fragment(&sharding, *number, file, id, level, node);
    assert_eq!(found, fragment, "{level} {node} of {id} in {sample:?}");
    checked.map_or_else(|(number, _)| number, |()| 0)
}

#[test]
fn volumes_are_answered_alike() {
    let mut numbers = BTreeSet::new();
    for seed in 0..20_000 {
        let rng = &mut Rng::new(seed);
        let sample = shards::any(rng);
        let id = shards::question(rng, &sample);
        numbers.insert(answered_alike(&sample, (id, 0, 0)));
    }
    assert_eq!(Vec::from_iter(numbers), [0, 1, 5, 6, 7, 8, 9, 10, 11]);
}

#[test]
fn meshes_are_answered_alike() {
    let mut numbers = BTreeSet::new();
    for seed in 0..20_000 {
        let rng = &mut Rng::new(seed);
        let sample = meshes::any(rng);
        let question = meshes::question(rng, &sample);
        numbers.insert(answered_alike(&sample, question));
    }
    let expected = [0, 1, 5, 6, 7, 8, 9, 10, 11, 15, 16, 17, 21];
    assert_eq!(Vec::from_iter(numbers), expected);
}
