//! The keys of the cells that cover a box, some at a time.

use crate::grid::{Bounds, Volume};
use crate::refusal::Refusal;
use std::iter::FusedIterator;

/// How many keys are held at a time.
const HELD: usize = 4096;

/// The keys of all cells that share a voxel with a box, rising, from
/// [`Volume::cover_iter`]. It holds 4096 keys at a time, however many there
/// are.
#[derive(Clone, Debug)]
pub struct Cover {
    volume: Volume,
    /// What is still to be asked for; the piece with the lowest keys is last.
    pieces: Vec<Piece>,
    keys: Vec<u64>,
    /// Those of the keys that are still to be given.
    from: usize,
    to: usize,
}

/// What a box has of the cells that share their high key bits.
#[derive(Clone, Debug)]
struct Piece {
    begin: [i64; 3],
    end: [i64; 3],
    /// The first of these cells.
    first: [i64; 3],
    /// How many low bits of a cell's coordinates are free.
    bits: [u32; 3],
}

impl Cover {
    /// The keys for a box, at most `held` at a time, which is not 0.
    pub(crate) fn new(volume: Volume, within: Bounds, held: usize) -> Result<Self, Refusal> {
        let grid = <[u32; 3]>::from(volume.grid()?);
        match volume.write_cover(within, &mut []) {
            Err(refusal) if refusal.number != 13 => return Err(refusal),
            _ => (),
        }
        let whole = Piece {
            begin: within.begin.into(),
            end: within.end.into(),
            first: [0; 3],
            bits: grid.map(|size| u32::BITS - (size - 1).leading_zeros()),
        };
        Ok(Cover {
            volume,
            pieces: vec![whole],
            keys: vec![0; held],
            from: 0,
            to: 0,
        })
    }

    /// Asks for the next keys; `None` where there are no more. A piece with too
    /// many is parted at its highest key bit, so that the one half has the
    /// lower keys.
    fn advance(&mut self) -> Option<()> {
        let piece = self.pieces.pop()?;
        match self.volume.write_cover(piece.within(), &mut self.keys) {
            Ok(count) => (self.from, self.to) = (0, count),
            // The volume was asked for at the beginning, so this is 13.
            Err(_) => self.pieces.extend(piece.halves(&self.volume)),
        }
        Some(())
    }
}

impl Piece {
    fn within(&self) -> Bounds {
        Bounds {
            begin: self.begin.into(),
            end: self.end.into(),
        }
    }

    /// The halves on both sides of the highest free key bit, the upper one
    /// first. That bit is of the last axis among those with the most bits, of
    /// which there are some: one cell alone has one key.
    fn halves(self, volume: &Volume) -> [Piece; 2] {
        let axis = (0..3).max_by_key(|axis| self.bits[*axis]).unwrap_or(0);
        let (mut low, mut high) = (self.clone(), self);
        for half in [&mut low, &mut high] {
            half.bits[axis] -= 1;
        }
        high.first[axis] += 1 << high.bits[axis];
        // Below twice the extent and a chunk, so it fits.
        let voxels = high.first[axis] * i64::from(<[u32; 3]>::from(volume.chunk)[axis]);
        let middle = i64::from(<[i32; 3]>::from(volume.offset)[axis]) + voxels;
        low.end[axis] = low.end[axis].min(middle);
        high.begin[axis] = high.begin[axis].max(middle);
        [high, low]
    }
}

impl Iterator for Cover {
    type Item = u64;

    fn next(&mut self) -> Option<u64> {
        while self.from == self.to {
            self.advance()?;
        }
        self.from += 1;
        Some(self.keys[self.from - 1])
    }

    fn size_hint(&self) -> (usize, Option<usize>) {
        let known = self.to - self.from;
        let all = self.pieces.is_empty().then_some(known);
        (known, all)
    }
}

impl FusedIterator for Cover {}

impl Volume {
    /// The keys of all cells that share a voxel with a box, rising, each once,
    /// as [`cover`](Volume::cover) lists them, but some at a time: there may be
    /// any number of them. Refusal 2 where an extent is zero, or 3.
    ///
    /// ```
    /// use coronagamba::{Bounds, Volume};
    ///
    /// let volume = Volume::new([1 << 21; 3], [1; 3], [0; 3]);
    /// let within = Bounds {
    ///     begin: [0, 0, 1 << 20].into(),
    ///     end: [i64::MAX; 3].into(),
    /// };
    /// let mut keys = volume.cover_iter(within)?;
    /// assert_eq!(keys.next(), Some(1 << 62));
    /// assert_eq!(keys.next(), Some((1 << 62) + 1));
    /// assert_eq!(keys.nth(9_999), Some((1 << 62) + 10_001));
    /// # Ok::<(), coronagamba::Refusal>(())
    /// ```
    pub fn cover_iter(&self, within: Bounds) -> Result<Cover, Refusal> {
        Cover::new(*self, within, HELD)
    }
}

#[cfg(test)]
mod tests {
    use super::*;

    /// Grids with axes of unlike lengths, cut chunks and offsets.
    fn volumes() -> Vec<Volume> {
        vec![
            Volume::new([5, 3, 1], [1; 3], [0; 3]),
            Volume::new([9, 17, 6], [2, 3, 1], [-7, 0, 5]),
            Volume::new([1, 1, 33], [4; 3], [0; 3]),
            Volume::new([8; 3], [1; 3], [i32::MAX; 3]),
            Volume::new([7, 20, 7], [1, 2, 3], [i32::MIN; 3]),
            Volume::new([u32::MAX, 2, 1], [u32::MAX; 3], [i32::MAX, 0, 0]),
            Volume::new([u32::MAX; 3], [u32::MAX - 1, 1 << 31, 1 << 30], [0; 3]),
        ]
    }

    /// Boxes over all of a volume and over parts of it, one of them reversed.
    fn boxes(volume: &Volume) -> Vec<Bounds> {
        let offset = <[i32; 3]>::from(volume.offset).map(i64::from);
        let size = <[u32; 3]>::from(volume.size).map(i64::from);
        let ends = |axis: usize, from: i64, to: i64| {
            let at = |tenths: i64| offset[axis] + size[axis] * tenths / 10;
            (at(from), at(to))
        };
        let mut boxes = vec![Bounds {
            begin: [i64::MIN; 3].into(),
            end: [i64::MAX; 3].into(),
        }];
        for (from, to) in [(0, 10), (1, 9), (3, 7), (5, 11), (-3, 4), (7, 3)] {
            for narrow in 0..4 {
                let sides = [0, 1, 2].map(|axis| match axis == narrow {
                    true => ends(axis, 2, 6),
                    false => ends(axis, from, to),
                });
                boxes.push(Bounds {
                    begin: sides.map(|side| side.0).into(),
                    end: sides.map(|side| side.1).into(),
                });
            }
        }
        boxes
    }

    /// Held one by one, each key is found by halving down to its cell.
    #[test]
    fn some_at_a_time_and_all_at_once_are_the_same() {
        let mut parted = 0;
        for volume in volumes() {
            for within in boxes(&volume) {
                let all = volume.cover(within, 1 << 12).unwrap();
                for held in [1, 2, 3, 7, 64] {
                    let some = Cover::new(volume, within, held).unwrap();
                    assert_eq!(
                        some.collect::<Vec<_>>(),
                        all,
                        "{volume:?} {within:?} {held}"
                    );
                    parted += usize::from(all.len() > held);
                }
            }
        }
        assert!(parted > 300, "{parted}");
    }

    #[test]
    fn refusals_come_first() {
        let within = Bounds::default();
        let number = |volume: Volume| volume.cover_iter(within).unwrap_err().number;
        assert_eq!(number(Volume::default()), 2);
        assert_eq!(number(Volume::new([1; 3], [1, 0, 1], [0; 3])), 2);
        assert_eq!(number(Volume::new([u32::MAX; 3], [1; 3], [0; 3])), 3);
    }

    #[test]
    fn what_is_left_is_told_when_it_is_known() {
        let volume = Volume::new([4; 3], [1; 3], [0; 3]);
        let within = Bounds {
            begin: [0; 3].into(),
            end: [4; 3].into(),
        };
        let mut keys = volume.cover_iter(within).unwrap();
        assert_eq!((keys.size_hint(), keys.next()), ((0, None), Some(0)));
        assert_eq!(keys.size_hint(), (63, Some(63)));
        assert_eq!(keys.by_ref().count(), 63);
        assert_eq!((keys.next(), keys.next()), (None, None));
        let mut keys = Cover::new(volume, within, 32).unwrap();
        assert_eq!((keys.next(), keys.size_hint()), (Some(0), (31, None)));
    }
}
