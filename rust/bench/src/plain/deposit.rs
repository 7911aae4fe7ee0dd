//! Keys by the processor's own instruction that deposits bits, `pdep` of BMI2,
//! where there is one: three of them a key, and no cell is tested.

use super::places::bits;
use coronagamba::Cell;
use std::arch::x86_64::_pdep_u64;
use std::ops::Range;

/// Where the bits of each axis stand in a key of a grid. Only a processor that
/// has the instruction has these.
#[derive(Clone, Copy)]
pub struct Masks {
    x: u64,
    y: u64,
    z: u64,
}

impl Masks {
    /// The places in the keys of this grid, of at most 64 bits.
    pub fn of(grid: [u32; 3]) -> Option<Masks> {
        if !is_x86_feature_detected!("bmi2") {
            return None;
        }
        let (bits, mut masks, mut place) = (grid.map(bits), [0; 3], 0);
        for bit in 0..32 {
            for axis in 0..3 {
                if bit < bits[axis] {
                    masks[axis] |= 1 << place;
                    place += 1;
                }
            }
        }
        let [x, y, z] = masks;
        Some(Masks { x, y, z })
    }

    /// Writes the keys of cells of the grid.
    pub fn keys(self, cells: &[Cell], keys: &mut [u64]) {
        // SAFETY: the processor has the instruction.
        unsafe { keys_of(self, cells, keys) }
    }

    /// Writes the keys of a row of cells of the grid: y and z are deposited
    /// once.
    pub fn row_keys(self, xs: Range<u32>, y: u32, z: u32, keys: &mut [u64]) {
        // SAFETY: the processor has the instruction.
        unsafe { keys_of_row(self, xs, y, z, keys) }
    }
}

#[target_feature(enable = "bmi2")]
fn keys_of(masks: Masks, cells: &[Cell], keys: &mut [u64]) {
    for (key, cell) in keys.iter_mut().zip(cells) {
        *key = _pdep_u64(cell.x.into(), masks.x)
            | _pdep_u64(cell.y.into(), masks.y)
            | _pdep_u64(cell.z.into(), masks.z);
    }
}

#[target_feature(enable = "bmi2")]
fn keys_of_row(masks: Masks, xs: Range<u32>, y: u32, z: u32, keys: &mut [u64]) {
    let yz = _pdep_u64(y.into(), masks.y) | _pdep_u64(z.into(), masks.z);
    for (key, x) in keys.iter_mut().zip(xs) {
        *key = _pdep_u64(x.into(), masks.x) | yz;
    }
}
