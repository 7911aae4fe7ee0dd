//! Keys of many cells at once, against single calls.

use compare::sides::{cell, volume};
use coronagamba::Cell;
use reference::grid::{self, Volume};
use testkit::{places, Met, Rng};

const SAMPLES: usize = 10_000;

/// Cells of a volume; all are inside its grid, or each may be outside.
fn cells(rng: &mut Rng, volume: &Volume) -> Vec<[u32; 3]> {
    let mut cells: Vec<[u32; 3]> = (0..rng.index(12))
        .map(|_| places::cell(rng, volume))
        .collect();
    if !rng.once_in(3) {
        cells.retain(|at| grid::key_of(volume, *at) != Err(2));
    }
    cells
}

/// A batch has a key for each cell as a single call gives it; where it is
/// refused, so is one of the single calls, with the least number.
#[test]
fn batches_and_single_calls() {
    let mut rng = Rng::new(52);
    let mut met = Met::new();
    for _ in 0..SAMPLES {
        let sample = places::volume(&mut rng);
        let at = cells(&mut rng, &sample);
        if at.is_empty() {
            continue;
        }
        let asked: Vec<Cell> = at.into_iter().map(cell).collect();
        let volume = volume(&sample);
        let single: Result<Vec<u64>, _> = asked.iter().map(|at| volume.key(*at)).collect();
        let keys = volume.keys(&asked);
        if let Ok(keys) = &keys {
            assert_eq!(single.as_ref(), Ok(keys), "{sample:?} {asked:?}");
        }
        let refusals = asked.iter().filter_map(|at| volume.key(*at).err());
        let least = refusals.map(|refusal| refusal.number).min();
        let number = keys.map(|_| ()).map_err(|refusal| refusal.number);
        assert_eq!(number.err(), least, "{sample:?} {asked:?}");
        met.note(&number);
    }
    met.assert_exactly(&[0, 2, 3]);
}

#[test]
fn no_cells() {
    let keys = |size: [u32; 3]| coronagamba::Volume::new(size, [1; 3], [0; 3]).keys(&[]);
    let number = |size| keys(size).unwrap_err().number;
    assert_eq!(keys([5, 3, 1]), Ok(Vec::new()));
    assert_eq!(number([5, 3, 0]), 2);
    assert_eq!(number([1 << 22, 1 << 22, 1 << 21]), 3);
}

#[test]
fn every_cell_of_a_grid() {
    let volume = coronagamba::Volume::new([5, 3, 1], [1; 3], [0; 3]);
    let cells: Vec<Cell> = (0..15).map(|n| cell([n % 5, n / 5, 0])).collect();
    // By the scope's rule the key bits are x0 y0 x1 y1 x2, from low to high.
    let bit = |number: u32, place: u32| u64::from(number >> place & 1);
    let expected: Vec<u64> = (0..15)
        .map(|n| (n % 5, n / 5))
        .map(|(x, y)| bit(x, 0) | bit(y, 0) << 1 | bit(x, 1) << 2 | bit(y, 1) << 3 | bit(x, 2) << 4)
        .collect();
    assert_eq!(expected[14], 24);
    assert_eq!(volume.keys(&cells), Ok(expected));
}
