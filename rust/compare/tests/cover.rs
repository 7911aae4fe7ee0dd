//! Which chunks cover a box, against a look at each cell, and at the edges of
//! the numbers.

use compare::sides::{answer, volume};
use coronagamba::{Bounds, Cell, Volume};
use reference::grid;
use std::time::{Duration, Instant};
use testkit::{places, Met, Rng};

/// A box.
fn within(lower: [i64; 3], upper: [i64; 3]) -> Bounds {
    Bounds {
        begin: lower.into(),
        end: upper.into(),
    }
}

/// The keys of the cells that have a voxel of the box, by each cell's own
/// bounds.
fn by_cells(volume: &Volume, lower: [i64; 3], upper: [i64; 3]) -> Vec<u64> {
    let grid = <[u32; 3]>::from(volume.grid().unwrap());
    let mut keys = Vec::new();
    for n in 0..grid.iter().product() {
        let cell = Cell::from([n % grid[0], n / grid[0] % grid[1], n / grid[0] / grid[1]]);
        let bounds = volume.bounds(cell).unwrap();
        let (begin, end) = (<[i64; 3]>::from(bounds.begin), <[i64; 3]>::from(bounds.end));
        let shares = |axis: usize| {
            (begin[axis]..end[axis]).any(|voxel| (lower[axis]..upper[axis]).contains(&voxel))
        };
        if (0..3).all(shares) {
            keys.push(volume.key(cell).unwrap());
        }
    }
    keys.sort_unstable();
    keys
}

/// All boxes whose corners lie in the volume or a voxel beside it, empty and
/// reversed ones among them.
fn every_box(size: [u32; 3], chunk: [u32; 3], offset: [i32; 3]) {
    let volume = Volume::new(size, chunk, offset);
    let ends = |axis: usize| {
        let from = i64::from(offset[axis]);
        from - 1..from + i64::from(size[axis]) + 2
    };
    let pairs = |axis: usize| -> Vec<(i64, i64)> {
        let all = ends(axis).flat_map(|lower| ends(axis).map(move |upper| (lower, upper)));
        all.collect()
    };
    let [x, y, z] = [pairs(0), pairs(1), pairs(2)];
    for &(x0, x1) in &x {
        for &(y0, y1) in &y {
            for &(z0, z1) in &z {
                let (lower, upper) = ([x0, y0, z0], [x1, y1, z1]);
                let keys = by_cells(&volume, lower, upper);
                let boxed = within(lower, upper);
                let mut room = vec![u64::MAX; keys.len() + 1];
                let count = volume.write_cover(boxed, &mut room);
                assert_eq!(count, Ok(keys.len()), "{volume:?} {boxed:?}");
                assert_eq!(room.pop(), Some(u64::MAX), "{volume:?} {boxed:?}");
                assert_eq!(room, keys, "{volume:?} {boxed:?}");
                let some = volume.cover_iter(boxed).unwrap();
                assert!(some.eq(keys), "{volume:?} {boxed:?}");
            }
        }
    }
}

#[test]
fn every_box_of_small_grids() {
    every_box([5, 3, 1], [1; 3], [0; 3]);
    every_box([5, 4, 3], [2, 3, 1], [-2, 0, 7]);
    every_box([3, 3, 3], [1; 3], [-1; 3]);
    every_box([7, 2, 2], [3, 1, 2], [i32::MAX, i32::MIN, 0]);
    every_box([1, 1, 6], [9, 1, 1], [0, 0, -5]);
}

/// The worked case of the grid 5, 3, 1 by hand: cells 1,0 and 2,0 and 1,1 and
/// 2,1 have the keys 1, 4, 3 and 6.
#[test]
fn a_worked_case() {
    let volume = Volume::new([5, 3, 1], [1; 3], [0; 3]);
    let boxed = within([1, 0, 0], [3, 2, 1]);
    assert_eq!(volume.cover(boxed, 4), Ok(vec![1, 3, 4, 6]));
    assert_eq!(volume.cover(boxed, 3).unwrap_err().number, 13);
}

#[test]
fn the_ends_of_the_numbers() {
    let (least, most) = ([i64::MIN; 3], [i64::MAX; 3]);
    for offset in [i32::MIN, -64, 0, i32::MAX] {
        let volume = Volume::new([100, 1, 1], [64, 1, 1], [offset; 3]);
        let begin = i64::from(offset);
        let keys = |lower, upper| volume.cover(within(lower, upper), 2);
        assert_eq!(keys(least, most), Ok(vec![0, 1]));
        assert_eq!(keys([begin; 3], most), Ok(vec![0, 1]));
        assert_eq!(keys([begin + 1, begin, begin], most), Ok(vec![0, 1]));
        assert_eq!(keys([begin + 64, begin, begin], most), Ok(vec![1]));
        assert_eq!(keys([begin + 99, begin, begin], most), Ok(vec![1]));
        assert_eq!(keys(least, [begin + 64, begin + 1, begin + 1]), Ok(vec![0]));
        assert_eq!(keys([begin + 100, begin, begin], most), Ok(vec![]));
        assert_eq!(keys(least, [begin; 3]), Ok(vec![]));
        assert_eq!(keys(most, least), Ok(vec![]));
        assert_eq!(keys(least, least), Ok(vec![]));
        assert_eq!(keys(most, most), Ok(vec![]));
    }
}

/// Grids of 0 to 64 key bits with boxes of a few cells, exact room and one
/// short.
#[test]
fn grids_of_all_bits() {
    let mut rng = Rng::new(5);
    let (mut met, mut bits) = (Met::new(), [0; 65]);
    for _ in 0..20_000 {
        let sample = places::volume(&mut rng);
        let Ok(size) = grid::grid_size(&sample) else {
            continue;
        };
        let near = places::cell(&mut rng, &sample);
        let lower: [i64; 3] = std::array::from_fn(|axis| {
            let cell = i64::from(near[axis] % size[axis]) * i64::from(sample.chunk[axis]);
            i64::from(sample.offset[axis]) + cell
        });
        let upper = std::array::from_fn(|axis| {
            lower[axis] + i64::from(sample.chunk[axis]) * rng.within(0, 5) as i64 + 1
        });
        let expected = grid::cover(&sample, lower, upper, usize::MAX);
        let (library, boxed) = (volume(&sample), within(lower, upper));
        let room = expected.as_ref().map_or(9, Vec::len);
        let found = library.cover(boxed, room);
        assert_eq!(found, answer(expected.clone()), "{sample:?} {boxed:?}");
        met.note(&expected);
        if let Ok(keys) = expected {
            assert!(!keys.is_empty());
            let short = library.cover(boxed, room - 1);
            assert_eq!(short.unwrap_err().number, 13, "{sample:?} {boxed:?}");
            bits[grid::key_bits(size)] += 1;
        }
    }
    met.assert_exactly(&[0, 3]);
    assert!(bits[0] > 0 && bits[63] > 50 && bits[64] > 50);
    assert!(bits.iter().filter(|count| **count > 0).count() > 60);
}

/// Boxes that are long along one axis and one or two cells wide along the
/// others, in grids of all bits: most key bits have the box on one side.
#[test]
fn long_thin_boxes() {
    let mut rng = Rng::new(7);
    let mut long = [0; 3];
    while long.iter().any(|boxes| *boxes < 100) {
        let sample = places::volume(&mut rng);
        let size = match grid::grid_size(&sample) {
            Ok(size) if grid::key_bits(size) <= 64 => size,
            _ => continue,
        };
        let along = rng.within(0, 2) as usize;
        let lower: [i64; 3] = std::array::from_fn(|axis| {
            let cell = rng.within(0, u64::from(size[axis]) / 2) as i64;
            i64::from(sample.offset[axis]) + cell * i64::from(sample.chunk[axis])
        });
        let upper = std::array::from_fn(|axis| {
            let cells = rng.within(1, if axis == along { 3_000 } else { 2 }) as i64;
            lower[axis] + cells * i64::from(sample.chunk[axis])
        });
        let expected = grid::cover(&sample, lower, upper, usize::MAX).unwrap();
        if expected.len() < 1_000 {
            continue;
        }
        let (library, boxed) = (volume(&sample), within(lower, upper));
        let found = library.cover(boxed, expected.len());
        assert!(found == Ok(expected), "{sample:?} {boxed:?}");
        long[along] += 1;
    }
}

/// Boxes of more keys than are held at a time, in grids of 0 to 64 key bits.
#[test]
fn keys_some_at_a_time() {
    let mut rng = Rng::new(6);
    let (mut parted, mut bits) = (0, [0; 65]);
    while parted < 300 {
        let sample = places::volume(&mut rng);
        let size = match grid::grid_size(&sample) {
            Ok(size) if grid::key_bits(size) <= 64 => size,
            _ => continue,
        };
        let wide = [0; 3].map(|_| rng.within(1, 60) as i64);
        let lower = std::array::from_fn(|axis| {
            let room = (i64::from(size[axis]) - wide[axis]).max(0) as u64;
            let cell = rng.within(0, room) as i64;
            i64::from(sample.offset[axis]) + cell * i64::from(sample.chunk[axis])
        });
        let upper =
            std::array::from_fn(|axis| lower[axis] + wide[axis] * i64::from(sample.chunk[axis]));
        let expected = grid::cover(&sample, lower, upper, usize::MAX).unwrap();
        if expected.len() <= 4096 {
            continue;
        }
        let (library, boxed) = (volume(&sample), within(lower, upper));
        let some: Vec<u64> = library.cover_iter(boxed).unwrap().collect();
        assert!(some == expected, "{sample:?} {boxed:?}");
        parted += 1;
        bits[grid::key_bits(size)] += 1;
    }
    assert!(bits[63] > 0 && bits[64] > 0);
    assert!(bits.iter().filter(|count| **count > 0).count() > 20);
}

/// A box of the whole of a large grid is refused before anything is searched,
/// and a small box in it is found at once.
#[test]
fn time_does_not_grow_with_the_box_or_the_grid() {
    let volume = Volume::new([1 << 21; 3], [1; 3], [0; 3]);
    let whole = within([i64::MIN; 3], [i64::MAX; 3]);
    let last = (1 << 21) - 1;
    let corner = within([last; 3], [i64::MAX; 3]);
    let start = Instant::now();
    for _ in 0..1_000 {
        assert_eq!(volume.cover(whole, 10).unwrap_err().number, 13);
        assert_eq!(volume.cover(corner, 10), Ok(vec![(1 << 63) - 1]));
        assert!(volume.cover_iter(whole).unwrap().take(10).eq(0..10));
    }
    let took = start.elapsed();
    assert!(took < Duration::from_secs(1), "3000 calls took {took:?}");
}
