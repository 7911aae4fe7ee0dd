//! Names of unsharded chunks (source document 000) and of shard files, also of
//! the earlier edition's two (source document 002).

use crate::endian::write_front;
use crate::grid::{bounds_of, Cell, Volume};
use crate::sharding::Sharding;

/// The unsharded name of a cell, or 2.
pub fn chunk_name(volume: &Volume, cell: Cell) -> Result<String, u8> {
    let bounds = bounds_of(volume, cell)?;
    let axes: Vec<String> = (0..3)
        .map(|axis| format!("{}-{}", bounds.begin[axis], bounds.end[axis]))
        .collect();
    Ok(axes.join("_"))
}

/// Writes the unsharded name of a cell and gives its length, or 2, then 13.
pub fn write_chunk_name(volume: &Volume, cell: Cell, out: &mut [u8]) -> Result<usize, u8> {
    write_front(chunk_name(volume, cell)?.as_bytes(), out)
}

/// The number of a shard as its files' names have it, or 1, then 5.
fn stem(sharding: &Sharding, shard: u64) -> Result<String, u8> {
    sharding.allowed()?;
    if shard >= sharding.shard_count() {
        return Err(5);
    }
    let digits = usize::from(sharding.shard_bits.div_ceil(4)).max(1);
    Ok(format!("{shard:0digits$x}"))
}

/// The file name of a shard, or 1, then 5.
pub fn shard_name(sharding: &Sharding, shard: u64) -> Result<String, u8> {
    stem(sharding, shard).map(|stem| stem + ".shard")
}

/// The name of its index file in the earlier edition, or 1, then 5.
pub fn index_name(sharding: &Sharding, shard: u64) -> Result<String, u8> {
    stem(sharding, shard).map(|stem| stem + ".index")
}

/// The name of its data file in the earlier edition, or 1, then 5.
pub fn data_name(sharding: &Sharding, shard: u64) -> Result<String, u8> {
    stem(sharding, shard).map(|stem| stem + ".data")
}

/// Writes the file name of a shard and gives its length, or 1, then 5, then 13.
pub fn write_shard_name(sharding: &Sharding, shard: u64, out: &mut [u8]) -> Result<usize, u8> {
    write_front(shard_name(sharding, shard)?.as_bytes(), out)
}

/// Writes the name of its index file and gives its length, or 1, then 5, then 13.
pub fn write_index_name(sharding: &Sharding, shard: u64, out: &mut [u8]) -> Result<usize, u8> {
    write_front(index_name(sharding, shard)?.as_bytes(), out)
}

/// Writes the name of its data file and gives its length, or 1, then 5, then 13.
pub fn write_data_name(sharding: &Sharding, shard: u64, out: &mut [u8]) -> Result<usize, u8> {
    write_front(data_name(sharding, shard)?.as_bytes(), out)
}

#[cfg(test)]
mod tests {
    use super::*;

    fn with_shard_bits(shard_bits: u8) -> Sharding {
        Sharding {
            preshift: 0,
            hash: 0,
            minishard_bits: 0,
            shard_bits,
            kind: 0,
        }
    }

    #[test]
    fn chunk_names() {
        let volume = Volume {
            size: [100, 1, 1],
            chunk: [64, 1, 1],
            offset: [-64, 0, 0],
        };
        assert_eq!(chunk_name(&volume, [0; 3]).unwrap(), "-64-0_0-1_0-1");
        assert_eq!(chunk_name(&volume, [1, 0, 0]).unwrap(), "0-36_0-1_0-1");
        assert_eq!(chunk_name(&volume, [2, 0, 0]), Err(2));
    }

    #[test]
    fn shard_names() {
        assert_eq!(shard_name(&with_shard_bits(4), 10).unwrap(), "a.shard");
        assert_eq!(shard_name(&with_shard_bits(5), 10).unwrap(), "0a.shard");
        assert_eq!(shard_name(&with_shard_bits(0), 0).unwrap(), "0.shard");
        assert_eq!(
            shard_name(&with_shard_bits(32), 0xffff_fffe).unwrap(),
            "fffffffe.shard"
        );
        assert_eq!(shard_name(&with_shard_bits(4), 16), Err(5));
        assert_eq!(shard_name(&with_shard_bits(33), u64::MAX), Err(1));
    }

    #[test]
    fn names_of_the_earlier_edition() {
        let sharding = with_shard_bits(5);
        assert_eq!(index_name(&sharding, 10).unwrap(), "0a.index");
        assert_eq!(data_name(&sharding, 10).unwrap(), "0a.data");
        assert_eq!(index_name(&sharding, 32), Err(5));
        assert_eq!(data_name(&with_shard_bits(33), 0), Err(1));
    }

    #[test]
    fn a_short_output_stays_as_it_was() {
        let mut out = [b'#'; 8];
        let sharding = with_shard_bits(5);
        assert_eq!(write_shard_name(&sharding, 10, &mut out[..7]), Err(13));
        assert_eq!(&out, b"########");
        assert_eq!(write_shard_name(&sharding, 10, &mut out), Ok(8));
        assert_eq!(&out, b"0a.shard");
    }
}
