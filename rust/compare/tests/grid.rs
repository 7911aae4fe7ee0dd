//! All keys of small grids, against the reference, and the cases of the paper.

use compare::sides::{answer, cell, extents, volume};
use reference::grid::{self, Volume};

/// A volume whose chunks are single voxels: its size is its grid.
fn of_grid(size: [u32; 3]) -> Volume {
    Volume {
        size,
        chunk: [1; 3],
        offset: [0; 3],
    }
}

#[test]
fn every_key_of_small_grids() {
    for x in 1..7 {
        for y in 1..7 {
            for z in 1..7 {
                let sample = of_grid([x, y, z]);
                for key in 0..2 << grid::key_bits([x, y, z]) {
                    let expected = grid::cell_of(&sample, key);
                    assert_eq!(volume(&sample).cell(key), answer(expected.map(cell)));
                    if let Ok(at) = expected {
                        assert_eq!(volume(&sample).key(cell(at)), Ok(key));
                    }
                }
            }
        }
    }
}

#[test]
fn the_cases_of_the_paper() {
    let small = volume(&of_grid([5, 3, 1]));
    assert_eq!(small.key(cell([4, 2, 0])), Ok(24));
    assert_eq!(small.key(cell([3, 1, 0])), Ok(7));
    assert_eq!(small.cell(20).unwrap_err().number, 4);
    assert_eq!(small.cell(32).unwrap_err().number, 4);
    let widest = volume(&of_grid([1 << 22, 1 << 21, 1 << 21]));
    assert_eq!(widest.key(cell([0; 3])), Ok(0));
    let wider = volume(&of_grid([1 << 22, 1 << 22, 1 << 21]));
    assert_eq!(wider.key(cell([0; 3])).unwrap_err().number, 3);
    let published = volume(&Volume {
        size: [6446, 6643, 8090],
        chunk: [64; 3],
        offset: [0; 3],
    });
    assert_eq!(published.grid(), Ok(extents([101, 104, 127])));
}
