//! Whole grids and rows of cells: every key is that of the steps, in batches,
//! rows and scans alike.

use compare::sides::volume;
use coronagamba::Cell;
use reference::grid::{self, Volume};
use testkit::{places, Lent, Rng};

/// A volume whose chunks are single voxels: its size is its grid.
fn of_grid(size: [u32; 3]) -> Volume {
    Volume {
        size,
        chunk: [1; 3],
        offset: [0; 3],
    }
}

/// The cells of a grid in the order of a scan.
fn cells([x, y, z]: [u32; 3]) -> impl Iterator<Item = [u32; 3]> {
    let rows = (0..z).flat_map(move |z| (0..y).map(move |y| (y, z)));
    rows.flat_map(move |(y, z)| (0..x).map(move |x| [x, y, z]))
}

/// Asks for all keys of a grid in one batch, row by row and in a scan.
fn whole_grid(size: [u32; 3]) {
    let sample = of_grid(size);
    let library = volume(&sample);
    let key = |cell| grid::key_of(&sample, cell).expect("a cell of the grid");
    let steps: Vec<u64> = cells(size).map(key).collect();
    let asked: Vec<Cell> = cells(size).map(Cell::from).collect();
    assert!(library.keys(&asked).as_ref() == Ok(&steps), "{size:?}");
    let rows = steps.chunks_exact(size[0] as usize);
    for (n, row) in rows.enumerate() {
        let (y, z) = (n as u32 % size[1], n as u32 / size[1]);
        let found = library.row_keys(0..size[0], y, z);
        assert!(found.as_deref() == Ok(row), "{size:?} {y} {z}");
    }
    let scan = library.scan().expect("a grid of few bits");
    assert!(scan.eq(asked.into_iter().zip(steps)), "{size:?}");
}

/// Every cell of the published example.
#[test]
fn the_published_grid() {
    whole_grid([101, 104, 127]);
}

/// Axes on each side of a byte, of two bytes and of powers of two; the three
/// share eight bits in the first, so that every entry of the table is used, few
/// in others, or none.
#[test]
fn whole_grids() {
    for size in [
        [257, 130, 129],
        [256, 256, 16],
        [257, 300, 5],
        [129, 128, 127],
        [1, 700, 33],
        [513, 1, 400],
        [600, 511, 1],
        [65_537, 2, 2],
        [3, 65_536, 2],
        [2, 4, 70_000],
        [1_000_000, 1, 1],
        [1, 1, 300_000],
    ] {
        whole_grid(size);
    }
}

#[test]
fn every_small_grid() {
    for x in 1..10 {
        for y in 1..10 {
            for z in 1..10 {
                whole_grid([x, y, z]);
            }
        }
    }
}

/// Some rows of a volume of at most 64 key bits, by a power of two.
fn rows_by_borders(rng: &mut Rng, sample: &Volume, size: [u32; 3]) {
    let [_, y, z] = [0, 1, 2].map(|axis| rng.below(size[axis].into()) as u32);
    let border = (1u64 << rng.below(33)).min(size[0].into()) as u32;
    let from = border.saturating_sub(rng.below(20) as u32);
    let to = size[0].min(from.saturating_add(rng.below(40) as u32));
    let row = (from..to).map(|x| grid::key_of(sample, [x, y, z]));
    let row: Result<Vec<u64>, u8> = row.collect();
    let found = volume(sample).row_keys(from..to, y, z);
    assert_eq!(found.map_err(|refusal| refusal.number), row, "{sample:?}");
}

/// Rows in grids of 0 to 64 key bits, across borders of every power of two.
#[test]
fn rows_across_borders() {
    let mut rng = Rng::new(9);
    let mut bits = [0; 65];
    for _ in 0..20_000 {
        let sample = places::volume(&mut rng);
        match grid::grid_size(&sample) {
            Ok(size) if grid::key_bits(size) <= 64 => {
                rows_by_borders(&mut rng, &sample, size);
                bits[grid::key_bits(size)] += 1;
            }
            _ => (),
        }
    }
    assert!(bits[0] > 0 && bits[63] > 50 && bits[64] > 50);
}

/// The three axes share all bits: one to three bytes of each, and no rest.
#[test]
fn rows_without_a_rest() {
    let mut rng = Rng::new(10);
    for _ in 0..20_000 {
        let sample = places::even_volume(&mut rng);
        rows_by_borders(&mut rng, &sample, sample.size);
    }
}

/// Each refusal of a row, and which comes first; nothing is written, before,
/// in or behind the output.
#[test]
fn refusals_of_rows() {
    let none = of_grid([5, 0, 1]);
    let small = of_grid([5, 3, 1]);
    let large = of_grid([1 << 22, 1 << 22, 1 << 21]);
    let all = 0..u32::MAX;
    for (sample, xs, y, z, room, number) in [
        (none, 0..0, 0, 0, 9, 2),
        (none, 0..1, 0, 0, 0, 2),
        (small, 4..6, 0, 0, 9, 2),
        (small, 5..6, 0, 0, 9, 2),
        (small, 0..5, 3, 0, 9, 2),
        (small, 0..5, 0, 1, 9, 2),
        (small, all.clone(), 0, 0, 0, 2),
        (small, 0..5, 0, 0, 4, 13),
        (small, 4..5, 2, 0, 0, 13),
        (large, all, 0, 0, 0, 2),
        (large, 0..1, 1 << 22, 0, 0, 2),
        (large, 0..1, 0, 0, 0, 3),
        (large, 3..3, 0, 0, 9, 3),
    ] {
        let before = Lent::numbers(&mut Rng::new(number), room);
        let mut lent = before.clone();
        let found = volume(&sample).write_row_keys(xs.clone(), y, z, lent.part());
        let found = found.map_err(|refusal| u64::from(refusal.number));
        assert_eq!(found, Err(number), "{sample:?} {xs:?} {y} {z}");
        assert!(lent == before, "{sample:?} {xs:?} {y} {z}");
    }
}

/// A row of no cells is no row outside the grid, wherever it is.
#[test]
fn rows_without_cells() {
    let library = volume(&of_grid([5, 3, 1]));
    for xs in [0..0, 5..5, 5..2, u32::MAX..0, u32::MAX..u32::MAX] {
        assert_eq!(library.row_keys(xs.clone(), 9, 9), Ok(vec![]), "{xs:?}");
        assert_eq!(library.write_row_keys(xs, 9, 9, &mut []), Ok(0));
    }
}

/// What lies behind the row is not written.
#[test]
fn room_behind_a_row_is_kept() {
    let sample = of_grid([101, 104, 127]);
    for room in 17..30 {
        let before = Lent::numbers(&mut Rng::new(room), room as usize);
        let (mut ours, mut theirs) = (before.clone(), before);
        let count = volume(&sample).write_row_keys(60..77, 100, 99, ours.part());
        assert_eq!(count, Ok(17));
        for (key, x) in theirs.part().iter_mut().zip(60..77) {
            *key = grid::key_of(&sample, [x, 100, 99]).unwrap();
        }
        assert!(ours == theirs, "{room}");
    }
}
