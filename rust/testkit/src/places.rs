//! Random volumes, cells, keys, specifications and ids.

use crate::Rng;
use reference::grid::{grid_size, key_bits, Cell, Volume};
use reference::sharding::{Place, Sharding, MESH, MOST_MINISHARD_BITS, VOLUME};

/// A volume of any numbers: zeros and grids of up to 96 key bits occur.
pub fn wild_volume(rng: &mut Rng) -> Volume {
    Volume {
        size: std::array::from_fn(|_| rng.edge_u32()),
        chunk: std::array::from_fn(|_| rng.edge_u32()),
        offset: std::array::from_fn(|_| rng.edge_i32()),
    }
}

/// A volume with no extent of 0 and a grid of at most `bits` bits on an axis.
pub fn volume_of_bits(rng: &mut Rng, bits: u32) -> Volume {
    let mut volume = wild_volume(rng);
    for axis in 0..3 {
        let grid = rng.edge(bits).max(1);
        let most_chunk = u64::from(u32::MAX) / grid;
        let chunk = (rng.edge_u64() % most_chunk).max(1);
        let last = rng.within(1, chunk);
        volume.chunk[axis] = chunk as u32;
        volume.size[axis] = ((grid - 1) * chunk + last) as u32;
    }
    volume
}

/// A volume of some kind: wild, small, or around 64 key bits.
pub fn volume(rng: &mut Rng) -> Volume {
    match rng.below(8) {
        0 => wild_volume(rng),
        1 | 2 => volume_of_bits(rng, 4),
        3 => volume_of_bits(rng, 12),
        4 | 5 => volume_of_bits(rng, 23),
        6 => volume_of_bits(rng, 32),
        _ => brim_volume(rng),
    }
}

/// A volume of single-voxel chunks whose grid needs 62 to 66 key bits.
pub fn brim_volume(rng: &mut Rng) -> Volume {
    let needed = rng.within(62, 66);
    let x = rng.within(needed.saturating_sub(64), 32);
    let y = rng.within((needed - x).saturating_sub(32), (needed - x).min(32));
    let mut bits = [x, y, needed - x - y];
    rng.shuffle(&mut bits);
    let least = |b: u64| if b == 0 { 1 } else { (1u64 << (b - 1)) + 1 };
    let most = |b: u64| (1u64 << b).min(u64::from(u32::MAX));
    Volume {
        size: bits.map(|b| {
            let size = match rng.below(3) {
                0 => least(b),
                1 => most(b),
                _ => rng.within(least(b), most(b)),
            };
            size as u32
        }),
        chunk: [1; 3],
        offset: std::array::from_fn(|_| rng.edge_i32()),
    }
}

/// A volume of single-voxel chunks whose axes need the same number of bits, at
/// most 21.
pub fn even_volume(rng: &mut Rng) -> Volume {
    let bits = rng.within(1, 21);
    Volume {
        size: std::array::from_fn(|_| rng.within((1 << (bits - 1)) + 1, 1 << bits) as u32),
        chunk: [1; 3],
        offset: std::array::from_fn(|_| rng.edge_i32()),
    }
}

/// A cell that is mostly inside the volume's grid and often at its border.
pub fn cell(rng: &mut Rng, volume: &Volume) -> Cell {
    let Ok(grid) = grid_size(volume) else {
        return std::array::from_fn(|_| rng.edge_u32());
    };
    let mut cell = grid.map(|size| match rng.below(4) {
        0 => size - 1,
        1 => (rng.edge_u32()) % size,
        _ => rng.below(u64::from(size)) as u32,
    });
    if rng.once_in(5) {
        let axis = rng.index(3);
        cell[axis] = *rng.pick(&[grid[axis], grid[axis].saturating_add(1), u32::MAX]);
    }
    cell
}

/// A key that is often one of the volume's, or a neighbour of one.
pub fn key(rng: &mut Rng, volume: &Volume) -> u64 {
    let bits = grid_size(volume).map_or(64, key_bits).min(64);
    let fitting = if bits == 0 {
        0
    } else {
        rng.edge_u64() & (u64::MAX >> (64 - bits))
    };
    match rng.below(6) {
        0 => rng.edge_u64(),
        1 if bits < 64 => fitting | 1 << rng.within(bits as u64, 63),
        2 => {
            let inside = cell(rng, volume);
            reference::grid::key_of(volume, inside).unwrap_or(fitting)
        }
        _ => fitting,
    }
}

/// An allowed specification of a volume.
pub fn sharding(rng: &mut Rng) -> Sharding {
    Sharding {
        preshift: rng.below(64) as u8 >> rng.below(7),
        hash: rng.below(2) as u8,
        minishard_bits: rng.below(u64::from(MOST_MINISHARD_BITS) + 1) as u8,
        shard_bits: rng.below(33) as u8,
        kind: VOLUME,
    }
}

/// The number of a kind: mostly volume or mesh, else any.
pub fn kind(rng: &mut Rng) -> u8 {
    match rng.below(12) {
        0 => *rng.pick(&[2, 3, 127, 128, 254, 255]),
        1 => rng.edge(8) as u8,
        2..7 => VOLUME,
        _ => MESH,
    }
}

/// A specification of any numbers for a volume, near the limits half of the
/// time.
pub fn wild_sharding(rng: &mut Rng) -> Sharding {
    let mut sharding = sharding(rng);
    if rng.once_in(2) {
        let near = |rng: &mut Rng, limit: u64| {
            if rng.once_in(4) {
                rng.edge(8) as u8
            } else {
                (limit + rng.below(3)) as u8
            }
        };
        match rng.below(4) {
            0 => sharding.preshift = near(rng, 62),
            1 => sharding.hash = near(rng, 0),
            2 => sharding.minishard_bits = near(rng, u64::from(MOST_MINISHARD_BITS) - 1),
            _ => sharding.shard_bits = near(rng, 31),
        }
    }
    sharding
}

/// A shard number: mostly one that the specification has, else near its end.
pub fn shard_number(rng: &mut Rng, sharding: &Sharding) -> u64 {
    number_of_bits(rng, sharding.shard_bits)
}

/// A minishard number: mostly one that the specification has, else near its
/// end.
pub fn minishard_number(rng: &mut Rng, sharding: &Sharding) -> u64 {
    number_of_bits(rng, sharding.minishard_bits)
}

/// A number, mostly of at most these bits, else near the first one of more.
fn number_of_bits(rng: &mut Rng, bits: u8) -> u64 {
    let count = 1u64.checked_shl(bits.into()).unwrap_or(0);
    match rng.below(6) {
        0 => count,
        1 => count.wrapping_add(rng.edge_u64()),
        2 => rng.edge_u64(),
        _ if count == 0 => rng.edge_u64(),
        3 => count - 1,
        _ => rng.below(count),
    }
}

/// The bits above the minishard and shard bits of a hashed id, and the low
/// bits that the preshift drops, chosen freely: an id of this place under the
/// identity hash, where one exists.
pub fn identity_id(rng: &mut Rng, sharding: &Sharding, place: Place) -> Option<u64> {
    let used = u32::from(sharding.minishard_bits + sharding.shard_bits);
    let above = rng.edge_u64() >> rng.below(64);
    let hashed = u128::from(above) << used
        | u128::from(place.shard) << sharding.minishard_bits
        | u128::from(place.minishard);
    let id = hashed << sharding.preshift | u128::from(rng.edge_u64() & low(sharding.preshift));
    [id, id & u128::from(u64::MAX)]
        .into_iter()
        .filter_map(|id| u64::try_from(id).ok())
        .find(|id| sharding.place(*id) == place)
}

/// The lowest bits set.
fn low(bits: u8) -> u64 {
    (1 << bits) - 1
}

#[cfg(test)]
mod tests {
    use super::*;
    use crate::Met;
    use reference::grid::cell_of;
    use reference::grid::key_of;

    #[test]
    fn volumes_lie_on_each_side_of_64_bits() {
        let mut rng = Rng::new(1);
        let (mut keys, mut cells) = (Met::new(), Met::new());
        let mut counts = [0; 97];
        for _ in 0..20_000 {
            let volume = volume(&mut rng);
            let cell = cell(&mut rng, &volume);
            keys.note(&key_of(&volume, cell));
            cells.note(&cell_of(&volume, key(&mut rng, &volume)));
            if let Ok(grid) = grid_size(&volume) {
                counts[key_bits(grid)] += 1;
            }
        }
        keys.assert_exactly(&[0, 2, 3]);
        cells.assert_exactly(&[0, 2, 3, 4]);
        assert!(counts[0] > 0 && counts[63] > 50 && counts[64] > 50 && counts[65] > 50);
    }

    #[test]
    fn brim_volumes_need_62_to_66_bits() {
        let mut rng = Rng::new(2);
        for _ in 0..10_000 {
            let grid = grid_size(&brim_volume(&mut rng)).unwrap();
            assert!((62..=66).contains(&key_bits(grid)), "{grid:?}");
        }
    }

    #[test]
    fn even_volumes_need_the_same_bits_along_each_axis() {
        let (mut rng, mut met) = (Rng::new(4), [0; 64]);
        for _ in 0..10_000 {
            let grid = grid_size(&even_volume(&mut rng)).unwrap();
            let [x, y, z] = grid.map(|size| key_bits([size, 1, 1]));
            assert!(x == y && y == z, "{grid:?}");
            met[key_bits(grid)] += 1;
        }
        assert!((1..=21).all(|bits| met[3 * bits] > 100));
    }

    #[test]
    fn identity_ids_have_their_place() {
        let mut rng = Rng::new(3);
        let mut found = 0;
        for _ in 0..10_000 {
            let sharding = Sharding {
                hash: 0,
                ..sharding(&mut rng)
            };
            let place = Place {
                shard: rng.below(sharding.shard_count()),
                minishard: rng.below(sharding.minishard_count()),
            };
            if let Some(id) = identity_id(&mut rng, &sharding, place) {
                assert_eq!(sharding.place(id), place);
                found += 1;
            }
        }
        assert!(found > 5_000);
    }
}
