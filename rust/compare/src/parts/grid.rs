//! Grid sizes, keys, cells and bounds.

use crate::agree::{same, same_writing};
use crate::question::{Choice, Corner, Reader, Room, Spot, Writer};
use crate::{sides, Part};
use coronagamba::{Bounds, Cell, Extents, Point};
use reference::grid;
use std::ops::Range;
use testkit::{places, Lent, Rng};

/// The grid size of a volume.
pub const GRID: Part = Part {
    name: "grid",
    about: "the grid size of a volume",
    meets: &[0, 2],
    compare: compare_grid,
    sample: sample_grid,
};

/// The key of a cell.
pub const KEY: Part = Part {
    name: "key",
    about: "the key of a cell, which gives the cell back",
    meets: &[0, 2, 3],
    compare: compare_key,
    sample: sample_spot,
};

/// The keys of many cells.
pub const KEYS: Part = Part {
    name: "keys",
    about: "the keys of many cells, as single calls give them",
    meets: &[0, 2, 3, 13],
    compare: compare_keys,
    sample: sample_keys,
};

/// The keys of a row of cells.
pub const ROW_KEYS: Part = Part {
    name: "row_keys",
    about: "the keys of a row of cells, as a batch gives them",
    meets: &[0, 2, 3, 13],
    compare: compare_row_keys,
    sample: sample_row_keys,
};

/// The keys of the cells that share a voxel with a box.
pub const COVER: Part = Part {
    name: "cover",
    about: "the keys of the cells that share a voxel with a box",
    meets: &[0, 2, 3, 13],
    compare: compare_cover,
    sample: sample_cover,
};

/// The cell of a key.
pub const CELL: Part = Part {
    name: "cell",
    about: "the cell of a key, which gives the key back",
    meets: &[0, 2, 3, 4],
    compare: compare_cell,
    sample: sample_cell,
};

/// The bounds of a cell.
pub const BOUNDS: Part = Part {
    name: "bounds",
    about: "the voxels of a cell",
    meets: &[0, 2],
    compare: compare_bounds,
    sample: sample_spot,
};

fn compare_grid(bytes: &[u8]) -> u8 {
    let volume = Reader::new(bytes).volume();
    same(
        format_args!("grid of {volume:?}"),
        sides::volume(&volume).grid(),
        grid::grid_size(&volume).map(Extents::from),
    )
}

fn compare_key(bytes: &[u8]) -> u8 {
    let mut reader = Reader::new(bytes);
    let volume = reader.volume();
    let cell = reader.spot().cell(&volume);
    let library = sides::volume(&volume);
    let key = library.key(cell.into());
    if let Ok(key) = key {
        let back = library.cell(key);
        same::<_, u8>(
            format_args!("the cell of key {key} of {cell:?} in {volume:?}"),
            back,
            Ok(cell.into()),
        );
    }
    same(
        format_args!("key of {cell:?} in {volume:?}"),
        key,
        grid::key_of(&volume, cell),
    )
}

/// Writes the keys of many cells, by the reference. Each lower number is tested
/// for all cells before a higher one (scope, "Refusal numbers").
fn write_keys(volume: &grid::Volume, cells: &[grid::Cell], out: &mut [u64]) -> Result<usize, u8> {
    let grid = grid::grid_size(volume)?;
    let keys: Vec<_> = cells
        .iter()
        .map(|cell| grid::key_of(volume, *cell))
        .collect();
    if keys.contains(&Err(2)) {
        return Err(2);
    }
    if grid::key_bits(grid) > 64 {
        return Err(3);
    }
    let keys: Vec<u64> = keys.into_iter().collect::<Result<_, u8>>()?;
    out.get_mut(..keys.len()).ok_or(13)?.copy_from_slice(&keys);
    Ok(keys.len())
}

fn compare_keys(bytes: &[u8]) -> u8 {
    let mut reader = Reader::new(bytes);
    let (volume, room) = (reader.volume(), reader.room());
    let cells: Vec<grid::Cell> = reader.spots().map(|spot| spot.cell(&volume)).collect();
    let library = sides::volume(&volume);
    let asked: Vec<Cell> = cells.iter().copied().map(Cell::from).collect();
    let length = room.length(cells.len());
    let met = same_writing(
        format_args!("keys of {cells:?} in {volume:?}"),
        &Lent::numbers(&mut Rng::new(length as u64), length),
        |out| library.write_keys(&asked, out),
        |out| write_keys(&volume, &cells, out),
    );
    if met == 0 {
        let single: Result<Vec<u64>, _> = asked.iter().map(|cell| library.key(*cell)).collect();
        assert_eq!(library.keys(&asked), single, "the keys in {volume:?}");
    }
    met
}

/// The most keys of a row or a cover that are looked at one by one.
const MOST_KEYS: usize = 1 << 10;

/// Writes the keys of a row of cells, by the reference: 2 where its first or
/// its last cell is outside.
fn write_row_keys(
    volume: &grid::Volume,
    xs: Range<u32>,
    [y, z]: [u32; 2],
    out: &mut [u64],
) -> Result<usize, u8> {
    let grid = grid::grid_size(volume)?;
    let key = |x: u32| grid::key_of(volume, [x, y, z]);
    if !xs.is_empty() && [xs.start, xs.end - 1].into_iter().any(|x| key(x) == Err(2)) {
        return Err(2);
    }
    if grid::key_bits(grid) > 64 {
        return Err(3);
    }
    let count = xs.len();
    for (out, x) in out.get_mut(..count).ok_or(13)?.iter_mut().zip(xs) {
        *out = key(x)?;
    }
    Ok(count)
}

fn compare_row_keys(bytes: &[u8]) -> u8 {
    let mut reader = Reader::new(bytes);
    let (volume, room) = (reader.volume(), reader.room());
    let [from, y, z] = reader.spot().cell(&volume);
    let xs = from..reader.choice().row_end(&volume, from);
    let library = sides::volume(&volume);
    let length = room.length(xs.len().min(MOST_KEYS));
    let met = same_writing(
        format_args!("keys of {xs:?} at {y}, {z} in {volume:?}, room for {length}"),
        &Lent::numbers(&mut Rng::new(length as u64), length),
        |out| library.write_row_keys(xs.clone(), y, z, out),
        |out| write_row_keys(&volume, xs.clone(), [y, z], out),
    );
    if met == 0 {
        let cells: Vec<Cell> = xs.clone().map(|x| Cell { x, y, z }).collect();
        let row = library.row_keys(xs, y, z);
        assert_eq!(row, library.keys(&cells), "the row in {volume:?}");
    }
    met
}

/// Whether a cell's voxels and a box have one in common.
fn share(cell: Bounds, boxed: Bounds) -> bool {
    let numbers = |point: Point| <[i64; 3]>::from(point);
    let [begin, end] = [cell.begin, cell.end].map(numbers);
    let [lower, upper] = [boxed.begin, boxed.end].map(numbers);
    (0..3).all(|axis| begin[axis].max(lower[axis]) < end[axis].min(upper[axis]))
}

fn compare_cover(bytes: &[u8]) -> u8 {
    let mut reader = Reader::new(bytes);
    let (volume, room) = (reader.volume(), reader.room());
    let [lower, upper] = [reader.corner(), reader.corner()].map(|corner| corner.voxel(&volume));
    let library = sides::volume(&volume);
    let boxed = Bounds {
        begin: lower.into(),
        end: upper.into(),
    };
    let needed = match grid::cover(&volume, lower, upper, MOST_KEYS) {
        Ok(keys) => keys.len(),
        Err(_) => MOST_KEYS,
    };
    let length = room.length(needed);
    let met = same_writing(
        format_args!("keys of {lower:?}..{upper:?} in {volume:?}, room for {length}"),
        &Lent::numbers(&mut Rng::new(length as u64), length),
        |out| library.write_cover(boxed, out),
        |out| {
            let keys = grid::cover(&volume, lower, upper, out.len())?;
            out[..keys.len()].copy_from_slice(&keys);
            Ok::<_, u8>(keys.len())
        },
    );
    let keys = library.cover(boxed, length);
    assert_eq!(keys.is_ok(), met == 0, "the keys as a list in {volume:?}");
    for pair in keys.iter().flat_map(|keys| keys.windows(2)) {
        assert!(pair[0] < pair[1], "{pair:?} do not rise in {volume:?}");
    }
    for key in keys.iter().flatten() {
        let cell = library.cell(*key).and_then(|cell| library.bounds(cell));
        assert!(
            cell.is_ok_and(|cell| share(cell, boxed)),
            "key {key} of {boxed:?} in {volume:?}"
        );
    }
    met
}

fn compare_cell(bytes: &[u8]) -> u8 {
    let mut reader = Reader::new(bytes);
    let volume = reader.volume();
    let key = reader.choice().key(&volume);
    let library = sides::volume(&volume);
    let cell = library.cell(key);
    if let Ok(cell) = cell {
        same::<_, u8>(
            format_args!("the key of {cell:?} of key {key} in {volume:?}"),
            library.key(cell),
            Ok(key),
        );
    }
    same(
        format_args!("cell of {key} in {volume:?}"),
        cell,
        grid::cell_of(&volume, key).map(Cell::from),
    )
}

fn compare_bounds(bytes: &[u8]) -> u8 {
    let mut reader = Reader::new(bytes);
    let volume = reader.volume();
    let cell = reader.spot().cell(&volume);
    same(
        format_args!("bounds of {cell:?} in {volume:?}"),
        sides::volume(&volume).bounds(cell.into()),
        grid::bounds_of(&volume, cell).map(|bounds| Bounds {
            begin: sides::point(bounds.begin),
            end: sides::point(bounds.end),
        }),
    )
}

fn sample_grid(rng: &mut Rng) -> Vec<u8> {
    Writer::new().volume(&places::volume(rng)).finish()
}

fn sample_spot(rng: &mut Rng) -> Vec<u8> {
    let volume = places::volume(rng);
    let cell = places::cell(rng, &volume);
    Writer::new()
        .volume(&volume)
        .spot(Spot::draw(rng, cell))
        .finish()
}

/// A volume for many keys: now and then all bits are shared by the three axes.
fn volume_of_keys(rng: &mut Rng) -> grid::Volume {
    match rng.once_in(4) {
        true => places::even_volume(rng),
        false => places::volume(rng),
    }
}

fn sample_keys(rng: &mut Rng) -> Vec<u8> {
    let volume = volume_of_keys(rng);
    let mut writer = Writer::new().volume(&volume).room(Room::draw(rng));
    let inside = !rng.once_in(4);
    let most = if rng.once_in(100) { 300 } else { 12 };
    for _ in 0..rng.index(most) {
        let cell = places::cell(rng, &volume);
        writer = writer.spot(if inside {
            Spot::inside(rng, cell)
        } else {
            Spot::draw(rng, cell)
        });
    }
    writer.finish()
}

fn sample_row_keys(rng: &mut Rng) -> Vec<u8> {
    let volume = volume_of_keys(rng);
    let room = Room::draw(rng);
    let cell = places::cell(rng, &volume);
    let first = match rng.once_in(4) {
        true => Spot::draw(rng, cell),
        false => Spot::inside(rng, cell),
    };
    let number = rng.edge_u64();
    Writer::new()
        .volume(&volume)
        .room(room)
        .spot(first)
        .choice(Choice::draw(rng, number))
        .finish()
}

fn sample_cover(rng: &mut Rng) -> Vec<u8> {
    let volume = places::volume(rng);
    let (room, lower) = (Room::draw(rng), Corner::draw(rng));
    let upper = if rng.once_in(3) {
        lower.beyond(rng, &volume)
    } else {
        Corner::draw(rng)
    };
    Writer::new()
        .volume(&volume)
        .room(room)
        .corner(lower)
        .corner(upper)
        .finish()
}

fn sample_cell(rng: &mut Rng) -> Vec<u8> {
    let volume = places::volume(rng);
    let key = places::key(rng, &volume);
    Writer::new()
        .volume(&volume)
        .choice(Choice::draw(rng, key))
        .finish()
}
