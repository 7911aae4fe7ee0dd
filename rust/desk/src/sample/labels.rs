//! The sample's labels: a small volume in which each voxel has the number of
//! its net, in the compressed segmentation encoding.

use std::collections::BTreeMap;

use coronagamba::{Bounds, Cell, Extents, Offset, Refusal, Sharding, Volume};

use super::layout::Chunk;
use super::mesh;

/// Two shards of two minishards.
pub const SHARDING: Sharding = Sharding {
    preshift: 0,
    hash: 0,
    minishard_bits: 1,
    shard_bits: 1,
    kind: Sharding::VOLUME,
};

/// A grid of 3 by 2 by 2 cells, of which the last are cut on each axis.
const VOLUME: Volume = Volume {
    size: Extents {
        x: 40,
        y: 30,
        z: 20,
    },
    chunk: Extents {
        x: 16,
        y: 16,
        z: 16,
    },
    offset: Offset { x: -8, y: 0, z: 0 },
};

/// The extents of a block.
const BLOCK: u32 = 8;

/// The widths that a block's values may have, in bits.
const WIDTHS: [u32; 7] = [0, 1, 2, 4, 8, 16, 32];

/// A cell that has no chunk.
const ABSENT: Cell = Cell { x: 2, y: 1, z: 1 };

/// The chunks, in rising id order.
pub fn chunks() -> Result<Vec<Chunk>, Refusal> {
    let mut chunks = Vec::new();
    for (cell, id) in VOLUME.scan()?.filter(|(cell, _)| *cell != ABSENT) {
        chunks.push(Chunk {
            id,
            lead: Vec::new(),
            bytes: chunk(cell)?,
        });
    }
    chunks.sort_by_key(|chunk| chunk.id);
    Ok(chunks)
}

/// The chunk of a cell.
pub fn chunk(cell: Cell) -> Result<Vec<u8>, Refusal> {
    let Bounds { begin, end } = VOLUME.bounds(cell)?;
    let [begin, end] = [begin, end].map(<[i64; 3]>::from);
    let size = [0, 1, 2].map(|axis| (end[axis] - begin[axis]) as u32);
    let net = |voxel: [u32; 3]| net([0, 1, 2].map(|axis| begin[axis] + i64::from(voxel[axis])));
    Ok(encoded(size, net))
}

/// The number of the net that a voxel belongs to, 0 for none: strands along x,
/// with holes in them.
fn net([x, y, z]: [i64; 3]) -> u64 {
    let strand = (y / 5 + 2 * (z / 7)) as usize;
    let hole = (x + 3 * y + 5 * z) % 11 == 0;
    match mesh::NETS.get(strand) {
        Some(net) if !hole => *net,
        _ => 0,
    }
}

/// Labels of 64 bits in the compressed segmentation encoding, of one channel.
/// Blocks that have the same labels share their table.
fn encoded(size: [u32; 3], label: impl Fn([u32; 3]) -> u64) -> Vec<u8> {
    let grid = size.map(|extent| extent.div_ceil(BLOCK));
    let blocks = grid.iter().product::<u32>();
    let mut data = vec![0; 2 * blocks as usize];
    let mut tables = BTreeMap::new();
    for number in 0..blocks {
        let block = [
            number % grid[0],
            number / grid[0] % grid[1],
            number / grid[0] / grid[1],
        ];
        // What sticks out of the chunk is never read.
        let voxel = |place: u32| {
            let within = [place % BLOCK, place / BLOCK % BLOCK, place / BLOCK / BLOCK];
            let voxel = [0, 1, 2].map(|axis| BLOCK * block[axis] + within[axis]);
            let inside = (0..3).all(|axis| voxel[axis] < size[axis]);
            inside.then(|| label(voxel))
        };
        let labels: Vec<Option<u64>> = (0..BLOCK.pow(3)).map(voxel).collect();
        let mut table: Vec<u64> = labels.iter().flatten().copied().collect();
        table.sort();
        table.dedup();
        let fits = |width: &u32| table.len() <= 1 << width;
        let width = WIDTHS.into_iter().find(fits).unwrap_or(32);
        let value = |label: &Option<u64>| match label {
            Some(label) => table.partition_point(|listed| listed < label) as u32,
            None => 0,
        };
        let values: Vec<u32> = labels.iter().map(value).collect();
        let at = tables.entry(table.clone()).or_insert_with(|| {
            let words = table.iter().flat_map(|label| [*label, *label >> 32]);
            let at = data.len() as u32;
            data.extend(words.map(|word| word as u32));
            at
        });
        let header = 2 * number as usize;
        data[header] = width << 24 | *at;
        data[header + 1] = data.len() as u32;
        data.extend(packed(&values, width));
    }
    // The channel begins behind its offset.
    data.insert(0, 1);
    data.into_iter().flat_map(u32::to_le_bytes).collect()
}

/// The values, so many bits each, from the low bits of each word on.
fn packed(values: &[u32], width: u32) -> Vec<u32> {
    if width == 0 {
        return Vec::new();
    }
    let word = |values: &[u32]| {
        let shifted = values.iter().zip((0..32).step_by(width as usize));
        shifted.map(|(value, bit)| value << bit).sum()
    };
    values.chunks((32 / width) as usize).map(word).collect()
}

/// The info file, as the published format has it.
pub fn info() -> String {
    let Sharding {
        preshift,
        minishard_bits,
        shard_bits,
        ..
    } = SHARDING;
    let extents = |Extents { x, y, z }: Extents| format!("[{x}, {y}, {z}]");
    let (size, chunk) = (extents(VOLUME.size), extents(VOLUME.chunk));
    let Offset { x, y, z } = VOLUME.offset;
    format!(
        "{{\"@type\": \"neuroglancer_multiscale_volume\",
 \"data_type\": \"uint64\",
 \"num_channels\": 1,
 \"scales\": [{{\"chunk_sizes\": [{chunk}],
   \"compressed_segmentation_block_size\": [{BLOCK}, {BLOCK}, {BLOCK}],
   \"encoding\": \"compressed_segmentation\",
   \"key\": \"labels\",
   \"resolution\": [8, 8, 8],
   \"sharding\": {{\"@type\": \"neuroglancer_uint64_sharded_v1\",
    \"data_encoding\": \"raw\",
    \"hash\": \"identity\",
    \"minishard_bits\": {minishard_bits},
    \"minishard_index_encoding\": \"raw\",
    \"preshift_bits\": {preshift},
    \"shard_bits\": {shard_bits}}},
   \"size\": {size},
   \"voxel_offset\": [{x}, {y}, {z}]}}],
 \"type\": \"segmentation\"}}
"
    )
}

#[cfg(test)]
mod tests {
    use super::*;
    use crate::diagnosis::{labels_of_info, InfoLabels};
    use coronagamba::{Card, LabelBits, LabelShape, Labels};

    #[test]
    fn the_info_file_says_what_the_chunks_are() {
        let (text, volume) = (info(), VOLUME);
        let card = Card {
            sharding: SHARDING,
            volume,
        };
        assert_eq!(Card::read_info(text.as_bytes(), 0), Ok(card));
        let said = InfoLabels {
            block: Some([BLOCK; 3]),
            channels: Some(1),
            bits: Some(LabelBits::B64),
        };
        assert_eq!(labels_of_info(text.as_bytes(), 0), Ok(said));
    }

    /// Each voxel has the number of its net, and nets of several numbers are
    /// there.
    #[test]
    fn each_voxel_has_its_net() {
        let mut met = std::collections::BTreeSet::new();
        for (cell, _) in VOLUME.scan().unwrap() {
            let bytes = chunk(cell).unwrap();
            let Bounds { begin, end } = VOLUME.bounds(cell).unwrap();
            let size = [end.x - begin.x, end.y - begin.y, end.z - begin.z];
            let size = size.map(|extent| extent as u32);
            let labels = Labels::open(LabelShape::new(size, [BLOCK; 3], 1, LabelBits::B64), &bytes);
            for z in 0..size[2] {
                for y in 0..size[1] {
                    for x in 0..size[0] {
                        let [i, j, k] = [x, y, z].map(i64::from);
                        let expected = net([begin.x + i, begin.y + j, begin.z + k]);
                        assert_eq!(labels.label(x, y, z, 0), Ok(expected));
                        met.insert(expected);
                    }
                }
            }
        }
        assert!(met.len() > 5 && met.contains(&0) && met.contains(&17));
    }
}
