//! Grid sizes, cell bounds and compressed Morton keys (source document 000).
//!
//! Axes stand in the order x, y, z in every array.

/// A volume as a card describes it.
#[derive(Clone, Copy, Debug, PartialEq, Eq, Hash)]
pub struct Volume {
    /// Extents in voxels.
    pub size: [u32; 3],
    /// Extents of a chunk in voxels.
    pub chunk: [u32; 3],
    /// Where the volume begins in global coordinates.
    pub offset: [i32; 3],
}

/// The coordinates of a grid cell.
pub type Cell = [u32; 3];

/// The voxels of a cell: from `begin` up to `end`, `end` excluded.
#[derive(Clone, Copy, Debug, PartialEq, Eq, Hash)]
pub struct Bounds {
    /// The first voxel.
    pub begin: [i128; 3],
    /// One past the last voxel.
    pub end: [i128; 3],
}

/// The grid size: extent divided by chunk, rounded up. Gives 2 where an
/// extent is 0.
pub fn grid_size(volume: &Volume) -> Result<[u32; 3], u8> {
    if volume.size.contains(&0) || volume.chunk.contains(&0) {
        return Err(2);
    }
    Ok(std::array::from_fn(|axis| {
        volume.size[axis].div_ceil(volume.chunk[axis])
    }))
}

/// The grid size, or 2 also where the cell is outside the grid.
fn grid_around(volume: &Volume, cell: Cell) -> Result<[u32; 3], u8> {
    let grid = grid_size(volume)?;
    if inside(grid, cell) {
        Ok(grid)
    } else {
        Err(2)
    }
}

/// Each coordinate is below its grid size.
fn inside(grid: [u32; 3], cell: Cell) -> bool {
    (0..3).all(|axis| cell[axis] < grid[axis])
}

/// The pairs of bit and axis that give an output bit each, lowest first:
/// bits rising, for each x, y, z in turn, those with 2^bit below the grid size.
fn used_bits(grid: [u32; 3]) -> Vec<(u32, usize)> {
    let mut used = Vec::new();
    for bit in 0..32 {
        for (axis, &size) in grid.iter().enumerate() {
            if 1u64 << bit < u64::from(size) {
                used.push((bit, axis));
            }
        }
    }
    used
}

/// How many key bits this grid needs.
pub fn key_bits(grid: [u32; 3]) -> usize {
    used_bits(grid).len()
}

/// The key of a cell, or 2, then 3.
pub fn key_of(volume: &Volume, cell: Cell) -> Result<u64, u8> {
    let grid = grid_around(volume, cell)?;
    let used = used_bits(grid);
    if used.len() > 64 {
        return Err(3);
    }
    let mut key = 0;
    for (place, (bit, axis)) in used.into_iter().enumerate() {
        key |= u64::from(cell[axis] >> bit & 1) << place;
    }
    Ok(key)
}

/// The cell of a key, or 2, then 3, then 4.
pub fn cell_of(volume: &Volume, key: u64) -> Result<Cell, u8> {
    let grid = grid_size(volume)?;
    let used = used_bits(grid);
    if used.len() > 64 {
        return Err(3);
    }
    if used.len() < 64 && key >> used.len() != 0 {
        return Err(4);
    }
    let mut cell = [0; 3];
    for (place, (bit, axis)) in used.into_iter().enumerate() {
        cell[axis] |= ((key >> place & 1) as u32) << bit;
    }
    if inside(grid, cell) {
        Ok(cell)
    } else {
        Err(4)
    }
}

/// The voxels of a cell, or 2.
pub fn bounds_of(volume: &Volume, cell: Cell) -> Result<Bounds, u8> {
    grid_around(volume, cell)?;
    let wide = |axis: usize| {
        (
            i128::from(volume.offset[axis]),
            i128::from(cell[axis]),
            i128::from(volume.chunk[axis]),
            i128::from(volume.size[axis]),
        )
    };
    Ok(Bounds {
        begin: std::array::from_fn(|axis| {
            let (offset, g, chunk, _) = wide(axis);
            offset + g * chunk
        }),
        end: std::array::from_fn(|axis| {
            let (offset, g, chunk, size) = wide(axis);
            offset + ((g + 1) * chunk).min(size)
        }),
    })
}

/// The cells of an axis that have a voxel of the box, first and one past the
/// last: those of the first and of the last voxel that both have.
fn covering(volume: &Volume, axis: usize, lower: i64, upper: i64) -> (u64, u64) {
    let offset = i128::from(volume.offset[axis]);
    let first = offset.max(lower.into());
    let end = (offset + i128::from(volume.size[axis])).min(upper.into());
    if end <= first {
        return (0, 0);
    }
    let cell_of = |voxel: i128| ((voxel - offset) / i128::from(volume.chunk[axis])) as u64;
    (cell_of(first), cell_of(end - 1) + 1)
}

/// The keys of all cells that have a voxel of the box from `lower` up to
/// `upper`, rising, or 2, then 3, then 13 where there are more than `room`.
pub fn cover(
    volume: &Volume,
    lower: [i64; 3],
    upper: [i64; 3],
    room: usize,
) -> Result<Vec<u64>, u8> {
    let grid = grid_size(volume)?;
    if key_bits(grid) > 64 {
        return Err(3);
    }
    let [x, y, z] = [0, 1, 2].map(|axis| covering(volume, axis, lower[axis], upper[axis]));
    let wide = |(from, to): (u64, u64)| u128::from(to - from);
    if wide(x) * wide(y) * wide(z) > room as u128 {
        return Err(13);
    }
    let mut keys = Vec::new();
    for z in z.0..z.1 {
        for y in y.0..y.1 {
            for x in x.0..x.1 {
                keys.push(key_of(volume, [x as u32, y as u32, z as u32])?);
            }
        }
    }
    keys.sort_unstable();
    Ok(keys)
}

#[cfg(test)]
mod tests {
    use super::*;

    /// A volume whose chunks are single voxels: its size is its grid.
    fn of_grid(size: [u32; 3]) -> Volume {
        Volume {
            size,
            chunk: [1; 3],
            offset: [0; 3],
        }
    }

    #[test]
    fn keys_of_grid_5_3_1() {
        let volume = of_grid([5, 3, 1]);
        assert_eq!(key_of(&volume, [4, 2, 0]), Ok(24));
        assert_eq!(key_of(&volume, [3, 1, 0]), Ok(7));
        assert_eq!(cell_of(&volume, 24), Ok([4, 2, 0]));
        assert_eq!(cell_of(&volume, 7), Ok([3, 1, 0]));
        assert_eq!(cell_of(&volume, 20), Err(4));
        assert_eq!(cell_of(&volume, 32), Err(4));
    }

    #[test]
    fn grid_1_1_1_has_only_key_0() {
        let volume = of_grid([1; 3]);
        assert_eq!(key_of(&volume, [0; 3]), Ok(0));
        assert_eq!(cell_of(&volume, 0), Ok([0; 3]));
        for key in [1, 2, u64::MAX] {
            assert_eq!(cell_of(&volume, key), Err(4));
        }
    }

    #[test]
    fn sixty_four_bits_are_the_most() {
        let widest = of_grid([1 << 22, 1 << 21, 1 << 21]);
        assert_eq!(key_bits(grid_size(&widest).unwrap()), 64);
        let last = [(1 << 22) - 1, (1 << 21) - 1, (1 << 21) - 1];
        assert_eq!(key_of(&widest, last), Ok(u64::MAX));
        assert_eq!(cell_of(&widest, u64::MAX), Ok(last));
        let wider = of_grid([1 << 22, 1 << 22, 1 << 21]);
        assert_eq!(key_of(&wider, [0; 3]), Err(3));
        assert_eq!(cell_of(&wider, 0), Err(3));
        assert_eq!(key_of(&wider, [1 << 22, 0, 0]), Err(2));
    }

    #[test]
    fn bounds_count_from_the_offset() {
        let volume = Volume {
            size: [100, 1, 1],
            chunk: [64, 1, 1],
            offset: [-64, 0, 0],
        };
        let first = bounds_of(&volume, [0, 0, 0]).unwrap();
        assert_eq!((first.begin[0], first.end[0]), (-64, 0));
        let second = bounds_of(&volume, [1, 0, 0]).unwrap();
        assert_eq!((second.begin[0], second.end[0]), (0, 36));
        assert_eq!(bounds_of(&volume, [2, 0, 0]), Err(2));
    }

    #[test]
    fn the_published_example() {
        let volume = Volume {
            size: [6446, 6643, 8090],
            chunk: [64; 3],
            offset: [0; 3],
        };
        assert_eq!(grid_size(&volume), Ok([101, 104, 127]));
        assert_eq!(key_bits([101, 104, 127]), 21);
    }

    /// Which cells have a voxel of the box, cell by cell and voxel by voxel.
    fn by_voxels(volume: &Volume, lower: [i64; 3], upper: [i64; 3]) -> Vec<u64> {
        let grid = grid_size(volume).unwrap();
        let mut keys = Vec::new();
        for key in 0..1 << key_bits(grid) {
            let Ok(cell) = cell_of(volume, key) else {
                continue;
            };
            let bounds = bounds_of(volume, cell).unwrap();
            let shares = |axis: usize| {
                let mut voxels = bounds.begin[axis]..bounds.end[axis];
                voxels.any(|at| (lower[axis].into()..upper[axis].into()).contains(&at))
            };
            if (0..3).all(shares) {
                keys.push(key);
            }
        }
        keys
    }

    #[test]
    fn boxes_and_their_cells() {
        let volume = Volume {
            size: [5, 3, 4],
            chunk: [2, 1, 3],
            offset: [-3, 1, 0],
        };
        let near = || -5..7;
        for (x, to) in near().flat_map(|x| near().map(move |to| (x, to))) {
            for (y, z) in near().flat_map(|y| near().map(move |z| (y, z))) {
                for (lower, upper) in [([x, y, 0], [to, 4, z]), ([x, 2, y], [to, z, 3])] {
                    let expected = by_voxels(&volume, lower, upper);
                    assert_eq!(cover(&volume, lower, upper, 24), Ok(expected));
                }
            }
        }
        let (least, most) = ([i64::MIN; 3], [i64::MAX; 3]);
        let all = by_voxels(&volume, [-3, 1, 0], [2, 4, 4]);
        assert_eq!(all.len(), 3 * 3 * 2);
        assert_eq!(cover(&volume, least, most, 18), Ok(all));
        assert_eq!(cover(&volume, least, most, 17), Err(13));
        assert_eq!(cover(&volume, most, least, 0), Ok(Vec::new()));
    }

    #[test]
    fn a_zero_extent_is_refused() {
        for axis in 0..3 {
            let mut volume = of_grid([1; 3]);
            volume.size[axis] = 0;
            assert_eq!(grid_size(&volume), Err(2));
            let mut volume = of_grid([1; 3]);
            volume.chunk[axis] = 0;
            assert_eq!(cell_of(&volume, 0), Err(2));
        }
    }

    #[test]
    fn every_cell_of_small_grids_comes_back() {
        for x in 1..6 {
            for y in 1..6 {
                for z in 1..6 {
                    let volume = of_grid([x, y, z]);
                    let mut cells = 0;
                    for key in 0..1 << key_bits([x, y, z]) {
                        if let Ok(cell) = cell_of(&volume, key) {
                            assert_eq!(key_of(&volume, cell), Ok(key));
                            cells += 1;
                        }
                    }
                    assert_eq!(cells, x * y * z);
                }
            }
        }
    }
}
