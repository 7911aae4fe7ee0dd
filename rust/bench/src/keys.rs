//! Keys of cells: one by one, in batches and in rows. The limit is what the
//! processor's own instruction for depositing bits takes, where it has one.

use crate::clock::thread_time;
use crate::places::volume;
use crate::runner::{numbers, Measure};
use bench::plain::deposit::Masks;
use bench::plain::places as plain;
use coronagamba::{Cell, Volume};
use std::hint::black_box;
use std::ops::Range;

/// A grid whose keys are timed.
struct Grid {
    name: &'static str,
    size: [u32; 3],
    /// The bar for a batch, where there is one.
    bar: Option<f64>,
    /// The x of the rows that are timed.
    xs: Range<u32>,
}

/// About how many keys a run has.
const COUNT: usize = 300_000;

impl Grid {
    fn volume(&self) -> Volume {
        black_box(volume(self.size))
    }

    /// Cells all over the grid.
    fn cells(&self) -> Vec<Cell> {
        let numbers = numbers(3 * COUNT);
        let within = |at: &[u64], axis: usize| (at[axis] % u64::from(self.size[axis])) as u32;
        numbers
            .chunks_exact(3)
            .map(|at| Cell::from([0, 1, 2].map(|axis| within(at, axis))))
            .collect()
    }

    /// Rows in the order of a scan, by their y and z.
    fn rows(&self) -> Vec<(u32, u32)> {
        let [_, y, z] = self.size;
        let first = z / 3;
        let rows = (first..z).flat_map(|z| (0..y).map(move |y| (y, z)));
        rows.take(COUNT / self.xs.len()).collect()
    }
}

/// Some of the keys: all are looked at behind the runs.
fn some(keys: &[u64]) -> u64 {
    keys[0] ^ keys[keys.len() / 3] ^ keys[keys.len() - 1]
}

/// Lets each side write as many keys as the measure has operations.
fn run(
    measure: &Measure,
    library: impl Fn(&mut [u64]),
    plain: impl Fn(&mut [u64]),
    limit: Option<impl Fn(&mut [u64])>,
) {
    let mut keys = [(); 3].map(|()| vec![0; measure.operations]);
    let [ours, theirs, least] = &mut keys;
    let mut limit = limit.map(|limit| {
        move || {
            limit(least);
            some(least)
        }
    });
    let limit = limit.as_mut().map(|limit| limit as &mut dyn FnMut() -> u64);
    let limited = limit.is_some();
    measure.run_by(
        thread_time,
        || {
            library(ours);
            some(ours)
        },
        || {
            plain(theirs);
            some(theirs)
        },
        limit,
    );
    let [ours, theirs, least] = keys;
    assert!(ours == theirs, "{}: the keys", measure.name);
    assert!(!limited || ours == least, "{}: the limit", measure.name);
}

/// A side without a limit.
const NONE: Option<fn(&mut [u64])> = None;

/// Writes what is given for each cell.
fn each(cells: &[Cell], keys: &mut [u64], key: impl Fn(Cell) -> u64) {
    for (out, cell) in keys.iter_mut().zip(cells) {
        *out = key(*cell);
    }
}

/// A call for each cell.
fn single(grid: &Grid) {
    let (volume, cells) = (grid.volume(), grid.cells());
    let library = |cell| volume.key(cell).unwrap_or(u64::MAX);
    let measure = Measure {
        name: &format!("key, {}", grid.name),
        operations: cells.len(),
        bar: None,
    };
    run(
        &measure,
        |keys| each(&cells, keys, library),
        |keys| {
            each(&cells, keys, |cell| {
                plain::key(&volume, cell).unwrap_or(u64::MAX)
            })
        },
        NONE,
    );
    // The library on both sides: with the table, which is made for one key, and
    // by the steps.
    let by_table = |cell| {
        let mut key = [0];
        let written = volume.write_keys(&[cell], &mut key);
        written.map_or(u64::MAX, |_| key[0])
    };
    let measure = Measure {
        name: &format!(
            "key in a batch of one, {}, beside a call for a key",
            grid.name
        ),
        ..measure
    };
    run(
        &measure,
        |keys| each(&cells, keys, by_table),
        |keys| each(&cells, keys, library),
        NONE,
    );
}

/// One call for all cells.
fn batch(grid: &Grid) {
    let (volume, cells) = (grid.volume(), grid.cells());
    run(
        &Measure {
            name: &format!("key in a batch, {}", grid.name),
            operations: cells.len(),
            bar: grid.bar,
        },
        |keys| assert!(volume.write_keys(&cells, keys).is_ok()),
        |keys| assert!(plain::keys(&volume, &cells, keys).is_ok()),
        Masks::of(grid.size).map(|masks| {
            let cells = &cells;
            move |keys: &mut [u64]| masks.keys(cells, keys)
        }),
    );
}

/// One call for a row of cells.
fn row(grid: &Grid) {
    let (volume, rows, xs) = (grid.volume(), grid.rows(), &grid.xs);
    let each = |keys: &mut [u64], write: &dyn Fn(Range<u32>, u32, u32, &mut [u64])| {
        for ((y, z), keys) in rows.iter().zip(keys.chunks_exact_mut(xs.len())) {
            write(xs.clone(), *y, *z, keys);
        }
    };
    let library = |keys: &mut [u64]| {
        each(keys, &|xs, y, z, keys| {
            assert!(volume.write_row_keys(xs, y, z, keys).is_ok())
        });
    };
    let measure = Measure {
        name: &format!("key in a row of {}, {}", xs.len(), grid.name),
        operations: rows.len() * xs.len(),
        bar: None,
    };
    run(
        &measure,
        library,
        |keys| {
            each(keys, &|xs, y, z, keys| {
                assert!(plain::row_keys(&volume, xs, y, z, keys).is_ok())
            })
        },
        Masks::of(grid.size).map(|masks| {
            let each = &each;
            move |keys: &mut [u64]| each(keys, &|xs, y, z, keys| masks.row_keys(xs, y, z, keys))
        }),
    );
    // The library on both sides.
    let cells = rows
        .iter()
        .flat_map(|(y, z)| xs.clone().map(|x| Cell { x, y: *y, z: *z }));
    let cells: Vec<Cell> = cells.collect();
    let measure = Measure {
        name: &format!("{}, beside a batch of these cells", measure.name),
        bar: Some(0.66),
        ..measure
    };
    let batch = |keys: &mut [u64]| assert!(volume.write_keys(&cells, keys).is_ok());
    run(&measure, library, batch, NONE);
}

/// Prints the lines of keys.
pub fn run_all() {
    for grid in [
        Grid {
            name: "grid 101 104 127 (21 bits)",
            size: [101, 104, 127],
            bar: Some(0.33),
            xs: 0..101,
        },
        Grid {
            name: "grid 65000 3000 20 (33 bits)",
            size: [65_000, 3_000, 20],
            bar: None,
            xs: 12_345..17_345,
        },
        Grid {
            name: "three axes of 21 bits (63 bits)",
            size: [2_000_000; 3],
            bar: Some(0.2),
            xs: 333_333..338_333,
        },
    ] {
        single(&grid);
        batch(&grid);
        row(&grid);
    }
}
