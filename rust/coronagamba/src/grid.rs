//! Grid sizes, keys and cell bounds.

use crate::ffi;
use crate::refusal::{given, written, Refusal};
use std::ops::Range;

/// Three extents.
#[repr(C)]
#[derive(Clone, Copy, Debug, Default, PartialEq, Eq, Hash)]
pub struct Extents {
    /// Along x.
    pub x: u32,
    /// Along y.
    pub y: u32,
    /// Along z.
    pub z: u32,
}

/// Where a volume begins in global coordinates.
#[repr(C)]
#[derive(Clone, Copy, Debug, Default, PartialEq, Eq, Hash)]
pub struct Offset {
    /// Along x.
    pub x: i32,
    /// Along y.
    pub y: i32,
    /// Along z.
    pub z: i32,
}

/// The coordinates of a grid cell.
///
/// ```
/// use coronagamba::Cell;
///
/// let cell = Cell { x: 4, y: 2, z: 0 };
/// assert_eq!(cell, Cell::from([4, 2, 0]));
/// assert_eq!(<[u32; 3]>::from(cell), [4, 2, 0]);
/// ```
#[repr(C)]
#[derive(Clone, Copy, Debug, Default, PartialEq, Eq, Hash)]
pub struct Cell {
    /// Along x.
    pub x: u32,
    /// Along y.
    pub y: u32,
    /// Along z.
    pub z: u32,
}

/// A voxel in global coordinates.
#[repr(C)]
#[derive(Clone, Copy, Debug, Default, PartialEq, Eq, Hash)]
pub struct Point {
    /// Along x.
    pub x: i64,
    /// Along y.
    pub y: i64,
    /// Along z.
    pub z: i64,
}

/// From x, y, z in turn to the named fields and back.
macro_rules! from_numbers {
    ($name:ident, $number:ty) => {
        impl From<[$number; 3]> for $name {
            fn from([x, y, z]: [$number; 3]) -> Self {
                $name { x, y, z }
            }
        }

        impl From<$name> for [$number; 3] {
            fn from($name { x, y, z }: $name) -> Self {
                [x, y, z]
            }
        }
    };
}

from_numbers!(Extents, u32);
from_numbers!(Offset, i32);
from_numbers!(Cell, u32);
from_numbers!(Point, i64);

/// The voxels of a cell, or of any box: from `begin` up to `end`, `end`
/// excluded.
#[derive(Clone, Copy, Debug, Default, PartialEq, Eq, Hash)]
pub struct Bounds {
    /// The first voxel.
    pub begin: Point,
    /// One past the last voxel.
    pub end: Point,
}

/// A volume: its extents, those of a chunk, and where it begins.
///
/// Any numbers may stand here; each call judges them.
///
/// ```
/// use coronagamba::{Extents, Volume};
///
/// let volume = Volume::new([6446, 6643, 8090], [64, 64, 64], [0, 0, 0]);
/// assert_eq!(volume.grid()?, Extents::from([101, 104, 127]));
/// # Ok::<(), coronagamba::Refusal>(())
/// ```
#[repr(C)]
#[derive(Clone, Copy, Debug, Default, PartialEq, Eq, Hash)]
pub struct Volume {
    /// Extents in voxels.
    pub size: Extents,
    /// Extents of a chunk in voxels.
    pub chunk: Extents,
    /// Where the volume begins.
    pub offset: Offset,
}

impl Volume {
    /// A volume of this size, in chunks of this size, that begins here.
    pub fn new(
        size: impl Into<Extents>,
        chunk: impl Into<Extents>,
        offset: impl Into<Offset>,
    ) -> Self {
        Volume {
            size: size.into(),
            chunk: chunk.into(),
            offset: offset.into(),
        }
    }

    /// The grid size, or refusal 2.
    ///
    /// ```
    /// use coronagamba::Volume;
    ///
    /// let volume = Volume::new([100, 1, 1], [64, 1, 1], [-64, 0, 0]);
    /// assert_eq!(volume.grid()?, [2, 1, 1].into());
    /// assert_eq!(Volume::default().grid().unwrap_err().number, 2);
    /// # Ok::<(), coronagamba::Refusal>(())
    /// ```
    pub fn grid(&self) -> Result<Extents, Refusal> {
        // SAFETY: the result is a live array, lent to this call alone.
        given(|grid| unsafe { ffi::coronagamba_grid_of(*self, grid) }).map(Extents::from)
    }

    /// The key of a cell, or refusal 2 or 3.
    ///
    /// ```
    /// use coronagamba::Volume;
    ///
    /// let volume = Volume::new([5, 3, 1], [1, 1, 1], [0, 0, 0]);
    /// assert_eq!(volume.key([4, 2, 0].into())?, 24);
    /// assert_eq!(volume.key([3, 1, 0].into())?, 7);
    /// assert_eq!(volume.key([5, 0, 0].into()).unwrap_err().number, 2);
    /// # Ok::<(), coronagamba::Refusal>(())
    /// ```
    pub fn key(&self, cell: Cell) -> Result<u64, Refusal> {
        // SAFETY: the result is a live number, lent to this call alone.
        given(|key| unsafe { ffi::coronagamba_key_of(*self, cell, key) })
    }

    /// The keys of many cells, in their order. Refusal 2 where an extent is
    /// zero or any cell is outside the grid, or 3.
    ///
    /// ```
    /// use coronagamba::{Cell, Volume};
    ///
    /// let volume = Volume::new([5, 3, 1], [1, 1, 1], [0, 0, 0]);
    /// let cells = [[4, 2, 0], [3, 1, 0], [0, 0, 0]].map(Cell::from);
    /// assert_eq!(volume.keys(&cells)?, [24, 7, 0]);
    /// # Ok::<(), coronagamba::Refusal>(())
    /// ```
    pub fn keys(&self, cells: &[Cell]) -> Result<Vec<u64>, Refusal> {
        let mut keys = vec![0; cells.len()];
        self.write_keys(cells, &mut keys)?;
        Ok(keys)
    }

    /// Writes the keys of many cells, in their order, to the front of `keys`,
    /// and gives how many these are. Refusals as of [`keys`](Volume::keys),
    /// then 13 where `keys` is shorter than `cells`; it is then as it was.
    pub fn write_keys(&self, cells: &[Cell], keys: &mut [u64]) -> Result<usize, Refusal> {
        // SAFETY: a cell is three numbers and no padding, so pointer and count
        // are those of the numbers in one live slice, whose count fits as its
        // bytes do; `keys` is another, lent to this call alone with the result.
        written(|length| unsafe {
            ffi::coronagamba_keys_of(
                *self,
                cells.as_ptr().cast(),
                3 * cells.len(),
                keys.as_mut_ptr(),
                keys.len(),
                length,
            )
        })
    }

    /// The keys of a row of cells, those with these x at one y and z. Refusal 2
    /// where an extent is zero or any of these cells is outside the grid, or 3.
    ///
    /// ```
    /// use coronagamba::Volume;
    ///
    /// let volume = Volume::new([5, 3, 1], [1, 1, 1], [0, 0, 0]);
    /// assert_eq!(volume.row_keys(2..5, 2, 0)?, [12, 13, 24]);
    /// assert_eq!(volume.row_keys(5..2, 2, 0)?, []);
    /// assert_eq!(volume.row_keys(2..6, 2, 0).unwrap_err().number, 2);
    /// # Ok::<(), coronagamba::Refusal>(())
    /// ```
    pub fn row_keys(&self, xs: Range<u32>, y: u32, z: u32) -> Result<Vec<u64>, Refusal> {
        // A row that reaches past the grid is refused without room for any.
        let room = match xs.end <= self.grid()?.x {
            true => xs.len(),
            false => 0,
        };
        let mut keys = vec![0; room];
        self.write_row_keys(xs, y, z, &mut keys)?;
        Ok(keys)
    }

    /// Writes the keys of a row of cells to the front of `keys`, by rising x,
    /// and gives how many these are. Refusals as of
    /// [`row_keys`](Volume::row_keys), then 13 where `keys` is shorter than the
    /// row; it is then as it was.
    ///
    /// ```
    /// use coronagamba::Volume;
    ///
    /// let volume = Volume::new([5, 3, 1], [1, 1, 1], [0, 0, 0]);
    /// let mut keys = [9; 3];
    /// assert_eq!(volume.write_row_keys(3..5, 2, 0, &mut keys)?, 2);
    /// assert_eq!(keys, [13, 24, 9]);
    /// # Ok::<(), coronagamba::Refusal>(())
    /// ```
    pub fn write_row_keys(
        &self,
        xs: Range<u32>,
        y: u32,
        z: u32,
        keys: &mut [u64],
    ) -> Result<usize, Refusal> {
        // SAFETY: pointer and count are those of one live slice, lent to this
        // call alone with the result.
        written(|length| unsafe {
            ffi::coronagamba_row_keys(
                *self,
                xs.start,
                xs.end,
                y,
                z,
                keys.as_mut_ptr(),
                keys.len(),
                length,
            )
        })
    }

    /// The keys of all cells that share a voxel with a box, rising, each once:
    /// none where the box is empty, reversed or outside the volume. Refusal 2
    /// where an extent is zero, 3, or 13 where there are more than `most`;
    /// that is said at once, however many there are.
    ///
    /// ```
    /// use coronagamba::{Bounds, Volume};
    ///
    /// let volume = Volume::new([100, 1, 1], [64, 1, 1], [-64, 0, 0]);
    /// let within = |from, to| Bounds {
    ///     begin: [from, 0, 0].into(),
    ///     end: [to, 1, 1].into(),
    /// };
    /// assert_eq!(volume.cover(within(-1, 1), 10)?, [0, 1]);
    /// assert_eq!(volume.cover(within(0, i64::MAX), 10)?, [1]);
    /// assert_eq!(volume.cover(within(36, 99), 10)?, []);
    /// assert_eq!(volume.cover(within(-1, 1), 1).unwrap_err().number, 13);
    /// # Ok::<(), coronagamba::Refusal>(())
    /// ```
    pub fn cover(&self, within: Bounds, most: usize) -> Result<Vec<u64>, Refusal> {
        // More than `most` are refused without room for any.
        let room = match usize::try_from(self.cells_within(within)) {
            Ok(cells) if cells <= most => cells,
            _ => 0,
        };
        let mut keys = vec![0; room];
        let count = self.write_cover(within, &mut keys)?;
        keys.truncate(count);
        Ok(keys)
    }

    /// How many cells share a voxel with a box, 0 where the volume has a zero
    /// extent: the room to ask the library with, which decides.
    fn cells_within(&self, within: Bounds) -> u128 {
        let Volume {
            size,
            chunk,
            offset,
        } = *self;
        let Bounds { begin, end } = within;
        let axis = |offset: i32, size: u32, chunk: u32, lower: i64, upper: i64| {
            let (offset, size) = (i64::from(offset), i64::from(size));
            let (from, to) = (lower.max(offset), upper.min(offset + size));
            if to <= from || chunk == 0 {
                return 0;
            }
            let cell = |voxel: i64| (voxel - offset) / i64::from(chunk);
            (cell(to - 1) - cell(from) + 1) as u128
        };
        axis(offset.x, size.x, chunk.x, begin.x, end.x)
            * axis(offset.y, size.y, chunk.y, begin.y, end.y)
            * axis(offset.z, size.z, chunk.z, begin.z, end.z)
    }

    /// Writes the keys of all cells that share a voxel with a box to the front
    /// of `keys`, and gives how many these are. Refusals as of
    /// [`cover`](Volume::cover), 13 where `keys` has room for fewer; it is then
    /// as it was.
    ///
    /// ```
    /// use coronagamba::{Bounds, Volume};
    ///
    /// let volume = Volume::new([5, 3, 1], [1, 1, 1], [0, 0, 0]);
    /// let within = Bounds {
    ///     begin: [1, 0, 0].into(),
    ///     end: [3, 2, 1].into(),
    /// };
    /// let mut keys = [9; 5];
    /// assert_eq!(volume.write_cover(within, &mut keys)?, 4);
    /// assert_eq!(keys, [1, 3, 4, 6, 9]);
    /// # Ok::<(), coronagamba::Refusal>(())
    /// ```
    pub fn write_cover(&self, within: Bounds, keys: &mut [u64]) -> Result<usize, Refusal> {
        // SAFETY: pointer and count are those of one live slice, lent to this
        // call alone with the result.
        written(|length| unsafe {
            ffi::coronagamba_cover(
                *self,
                within.begin,
                within.end,
                keys.as_mut_ptr(),
                keys.len(),
                length,
            )
        })
    }

    /// The cell of a key, or refusal 2, 3 or 4.
    ///
    /// ```
    /// use coronagamba::Volume;
    ///
    /// let volume = Volume::new([5, 3, 1], [1, 1, 1], [0, 0, 0]);
    /// assert_eq!(volume.cell(24)?, [4, 2, 0].into());
    /// assert_eq!(volume.cell(20).unwrap_err().number, 4);
    /// assert_eq!(volume.cell(32).unwrap_err().number, 4);
    /// # Ok::<(), coronagamba::Refusal>(())
    /// ```
    pub fn cell(&self, key: u64) -> Result<Cell, Refusal> {
        // SAFETY: the result is a live array, lent to this call alone.
        given(|cell| unsafe { ffi::coronagamba_cell_of(*self, key, cell) }).map(Cell::from)
    }

    /// The voxels of a cell, or refusal 2.
    ///
    /// ```
    /// use coronagamba::Volume;
    ///
    /// let volume = Volume::new([100, 1, 1], [64, 1, 1], [-64, 0, 0]);
    /// let bounds = volume.bounds([1, 0, 0].into())?;
    /// assert_eq!((bounds.begin.x, bounds.end.x), (0, 36));
    /// # Ok::<(), coronagamba::Refusal>(())
    /// ```
    pub fn bounds(&self, cell: Cell) -> Result<Bounds, Refusal> {
        // SAFETY: the results are two live arrays, lent to this call alone.
        let ends =
            given(|(begin, end)| unsafe { ffi::coronagamba_bounds_of(*self, cell, begin, end) });
        ends.map(|(begin, end): ([i64; 3], [i64; 3])| Bounds {
            begin: begin.into(),
            end: end.into(),
        })
    }
}
