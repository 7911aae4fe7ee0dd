//! All cells of a grid with their keys, some at a time.

use crate::grid::{Cell, Extents, Volume};
use crate::refusal::Refusal;
use std::iter::FusedIterator;

/// How many keys are held at a time.
const HELD: usize = 4096;

/// All cells of a grid with their keys, row by row, from [`Volume::scan`]. It
/// holds 4096 keys at a time, however many there are.
#[derive(Clone, Debug)]
pub struct Scan {
    volume: Volume,
    grid: Extents,
    /// The row whose keys are held, from `begin` up to `end`, and the next one
    /// to be given.
    y: u32,
    z: u32,
    begin: u32,
    end: u32,
    next: u32,
    keys: Vec<u64>,
}

impl Scan {
    /// The keys, at most `held` at a time, which is not 0.
    fn new(volume: Volume, held: usize) -> Result<Self, Refusal> {
        // A row of no cells is refused exactly where the volume is.
        volume.write_row_keys(0..0, 0, 0, &mut [])?;
        let grid = volume.grid()?;
        Ok(Scan {
            volume,
            grid,
            y: 0,
            z: 0,
            begin: 0,
            end: 0,
            next: 0,
            keys: vec![0; held.min(grid.x as usize)],
        })
    }

    /// Asks for the keys that follow in this row or in the next one; `None`
    /// behind the last row.
    fn advance(&mut self) -> Option<()> {
        if self.end == self.grid.x {
            (self.end, self.y) = (0, self.y + 1);
        }
        if self.y == self.grid.y {
            (self.y, self.z) = (0, self.z + 1);
        }
        (self.begin, self.next) = (self.end, self.end);
        if self.z == self.grid.z {
            return None;
        }
        let most = (self.grid.x - self.begin) as usize;
        self.end += self.keys.len().min(most) as u32;
        let row = self.begin..self.end;
        let count = (self.volume).write_row_keys(row, self.y, self.z, &mut self.keys);
        count.expect("the rows of the grid have keys");
        Some(())
    }

    /// How many cells are still to be given.
    fn left(&self) -> u128 {
        let Extents { x, y, z } = self.grid;
        let [x, y, z] = [x, y, z].map(u128::from);
        let rows = u128::from(self.z) * y + u128::from(self.y);
        x * y * z - rows * x - u128::from(self.next)
    }
}

impl Iterator for Scan {
    type Item = (Cell, u64);

    fn next(&mut self) -> Option<(Cell, u64)> {
        if self.next == self.end {
            self.advance()?;
        }
        let Scan { next: x, y, z, .. } = *self;
        self.next += 1;
        Some((Cell { x, y, z }, self.keys[(x - self.begin) as usize]))
    }

    fn size_hint(&self) -> (usize, Option<usize>) {
        let left = usize::try_from(self.left()).ok();
        (left.unwrap_or(usize::MAX), left)
    }
}

impl FusedIterator for Scan {}

impl Volume {
    /// All cells of the grid with their keys in the order of a scan: x rises
    /// first, then y, then z. Refusal 2 where an extent is zero, or 3.
    ///
    /// ```
    /// use coronagamba::Volume;
    ///
    /// let volume = Volume::new([5, 3, 1], [1, 1, 1], [0, 0, 0]);
    /// let mut scan = volume.scan()?;
    /// assert_eq!(scan.next(), Some(([0, 0, 0].into(), 0)));
    /// assert_eq!(scan.next(), Some(([1, 0, 0].into(), 1)));
    /// assert_eq!(scan.last(), Some(([4, 2, 0].into(), 24)));
    /// # Ok::<(), coronagamba::Refusal>(())
    /// ```
    pub fn scan(&self) -> Result<Scan, Refusal> {
        Scan::new(*self, HELD)
    }
}

#[cfg(test)]
mod tests {
    use super::*;

    /// Each cell in a scan's order with its own call's key.
    fn by_cells(volume: &Volume) -> Vec<(Cell, u64)> {
        let Extents { x, y, z } = volume.grid().unwrap();
        let cells = (0..z).flat_map(|z| (0..y).map(move |y| (y, z)));
        let cells = cells.flat_map(|(y, z)| (0..x).map(move |x| Cell { x, y, z }));
        cells
            .map(|cell| (cell, volume.key(cell).unwrap()))
            .collect()
    }

    #[test]
    fn every_cell_with_its_key() {
        for size in [[5, 3, 1], [1, 1, 9], [1, 7, 2], [9, 1, 4], [17, 6, 3]] {
            let volume = Volume::new(size, [1; 3], [0; 3]);
            let expected = by_cells(&volume);
            for held in [1, 2, 5, 6, 4096] {
                let mut scan = Scan::new(volume, held).unwrap();
                for left in (0..expected.len()).rev() {
                    assert_eq!(scan.next(), Some(expected[expected.len() - 1 - left]));
                    assert_eq!(scan.size_hint(), (left, Some(left)), "{size:?} {held}");
                }
                assert_eq!((scan.next(), scan.next()), (None, None));
                assert_eq!(scan.size_hint(), (0, Some(0)));
            }
        }
    }

    #[test]
    fn a_row_longer_than_is_held() {
        let volume = Volume::new([10_000, 2, 1], [1; 3], [0; 3]);
        assert!(volume.scan().unwrap().eq(by_cells(&volume)));
    }

    #[test]
    fn refusals_come_first() {
        let number = |size| Volume::new(size, [1; 3], [0; 3]).scan().unwrap_err().number;
        assert_eq!(number([5, 0, 1]), 2);
        assert_eq!(number([1 << 22, 1 << 22, 1 << 21]), 3);
    }

    #[test]
    fn more_cells_than_a_number_counts() {
        let volume = Volume::new([1 << 22, 1 << 21, 1 << 21], [1; 3], [0; 3]);
        let mut scan = volume.scan().unwrap();
        assert_eq!(scan.size_hint(), (usize::MAX, None));
        let cell = Cell::from([5_000, 0, 0]);
        assert_eq!(scan.nth(5_000), Some((cell, volume.key(cell).unwrap())));
        let left = usize::MAX - 5_000;
        assert_eq!(scan.size_hint(), (left, Some(left)));
    }
}
