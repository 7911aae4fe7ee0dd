//! All chunks of a shard: where they end, and empty minishards.

use compare::sides::sharding;
use coronagamba::{Chunk, Shard, Span};
use testkit::shards::{self, Sample};
use testkit::Rng;

/// The library's shard over a sample's file.
fn open(sample: &Sample) -> Shard<'_> {
    Shard::open(sharding(&sample.sharding), sample.number, &sample.file)
}

#[test]
fn a_finished_listing_stays_finished() {
    let mut rng = Rng::new(23);
    for _ in 0..200 {
        let sample = shards::sound(&mut rng, 4);
        let mut chunks = open(&sample).chunks().expect("the sample is sound");
        while chunks.next().is_some() {}
        assert!((0..3).all(|_| chunks.next().is_none()));
    }
}

/// 4,096 minishards, of which only the last lists a chunk.
#[test]
fn empty_minishards_are_passed_over() {
    let specification = coronagamba::Sharding {
        preshift: 0,
        hash: 0,
        minishard_bits: 12,
        shard_bits: 0,
        kind: 0,
    };
    let mut file = vec![0; 16 * 4_096];
    file.extend(b"abc");
    let last = 16 * 4_095;
    file[last..last + 8].copy_from_slice(&3u64.to_le_bytes());
    file[last + 8..last + 16].copy_from_slice(&27u64.to_le_bytes());
    for number in [4_095u64, 0, 3] {
        file.extend(number.to_le_bytes());
    }
    let shard = Shard::open(specification, 0, &file);
    let chunks: Vec<Chunk> = shard.chunks().expect("the shard is sound").collect();
    let expected = Chunk {
        minishard: 4_095,
        id: 4_095,
        span: Span {
            start: 65_536,
            length: 3,
        },
        bytes: b"abc",
    };
    assert_eq!(chunks, [expected]);
}
