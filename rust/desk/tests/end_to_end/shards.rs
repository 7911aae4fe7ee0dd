//! Shards made by hand, and the words in which their specification is given.

use reference::sharding::{Sharding, MESH, VOLUME};

/// The scope's example: two minishards, one shard.
pub const ONE: Sharding = Sharding {
    preshift: 0,
    hash: 0,
    minishard_bits: 1,
    shard_bits: 0,
    kind: VOLUME,
};

/// The specification as options. A volume needs none for its kind.
pub fn options(sharding: &Sharding) -> String {
    let Sharding {
        preshift,
        hash,
        minishard_bits,
        shard_bits,
        kind,
    } = sharding;
    let hash = ["identity", "murmur"][usize::from(*hash)];
    let kind = if *kind == MESH { " --kind mesh" } else { "" };
    format!(
        "--preshift {preshift} --hash {hash} --minishard-bits {minishard_bits} \
         --shard-bits {shard_bits}{kind}"
    )
}

/// Numbers as the format stores them.
pub fn row(numbers: &[u64]) -> Vec<u8> {
    numbers.iter().flat_map(|n| n.to_le_bytes()).collect()
}

/// A shard of [`ONE`]: the shard index, the chunk bytes `abcde`, and this
/// minishard index behind them.
pub fn with_index(entries: [u64; 4], index: &[u64]) -> Vec<u8> {
    let mut file = row(&entries);
    file.extend(b"abcde");
    file.extend(row(index));
    file
}

/// The scope's example: ids 4 and 10 with bytes `ab` and `cde`.
pub fn example() -> Vec<u8> {
    with_index([5, 53, 0, 0], &[4, 6, 0, 0, 2, 3])
}
