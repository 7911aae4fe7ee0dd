//! The sample deposit's info file, as the published format has it.

use coronagamba::{Extents, Offset, Sharding};

use super::volume::VOLUME;

/// The info file of one scale for each folder of shards with its sharding.
pub fn text(scales: &[(&str, &Sharding)]) -> String {
    let scales: Vec<String> = scales.iter().map(|(key, spec)| scale(key, spec)).collect();
    format!(
        "{{\"@type\": \"neuroglancer_multiscale_volume\",
 \"data_type\": \"uint8\",
 \"num_channels\": 1,
 \"scales\": [{}],
 \"type\": \"image\"}}
",
        scales.join(",\n  ")
    )
}

fn scale(key: &str, sharding: &Sharding) -> String {
    let extents = |Extents { x, y, z }: Extents| format!("[{x}, {y}, {z}]");
    let (size, chunk) = (extents(VOLUME.size), extents(VOLUME.chunk));
    let Offset { x, y, z } = VOLUME.offset;
    let Sharding {
        preshift,
        hash,
        minishard_bits,
        shard_bits,
        kind: _,
    } = sharding;
    let hash = match *hash {
        Sharding::IDENTITY => "identity",
        _ => "murmurhash3_x86_128",
    };
    format!(
        "{{\"chunk_sizes\": [{chunk}],
   \"encoding\": \"raw\",
   \"key\": \"{key}\",
   \"resolution\": [8, 8, 8],
   \"sharding\": {{\"@type\": \"neuroglancer_uint64_sharded_v1\",
    \"data_encoding\": \"raw\",
    \"hash\": \"{hash}\",
    \"minishard_bits\": {minishard_bits},
    \"minishard_index_encoding\": \"raw\",
    \"preshift_bits\": {preshift},
    \"shard_bits\": {shard_bits}}},
   \"size\": {size},
   \"voxel_offset\": [{x}, {y}, {z}]}}"
    )
}
