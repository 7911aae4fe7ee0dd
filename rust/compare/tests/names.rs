//! Chunk names and shard file names: the cases of the paper.

use compare::sides::{cell, volume};

#[test]
fn the_cases_of_the_paper() {
    let strip = volume(&reference::grid::Volume {
        size: [100, 1, 1],
        chunk: [64, 1, 1],
        offset: [-64, 0, 0],
    });
    assert_eq!(strip.chunk_name(cell([0; 3])).unwrap(), "-64-0_0-1_0-1");
    assert_eq!(strip.chunk_name(cell([1, 0, 0])).unwrap(), "0-36_0-1_0-1");
    for (shard_bits, shard, name) in [(4, 10, "a.shard"), (5, 10, "0a.shard"), (0, 0, "0.shard")] {
        let specification = coronagamba::Sharding {
            preshift: 0,
            hash: 0,
            minishard_bits: 0,
            shard_bits,
            kind: 0,
        };
        assert_eq!(specification.shard_name(shard).unwrap(), name);
    }
}
