//! What the sample deposit holds: a small volume and its chunks.

use super::layout::Chunk;
use coronagamba::{Cell, Extents, Offset, Refusal, Volume};

/// A grid of 5 by 5 by 4 cells. It begins left of the origin, and its last
/// cells are cut on each axis.
pub const VOLUME: Volume = Volume {
    size: Extents {
        x: 300,
        y: 260,
        z: 200,
    },
    chunk: Extents {
        x: 64,
        y: 64,
        z: 64,
    },
    offset: Offset { x: -64, y: 0, z: 0 },
};

/// A cell whose chunk has no bytes; it is listed all the same.
const EMPTY: Cell = Cell { x: 2, y: 2, z: 3 };

/// The chunks that the deposit stores, in rising id order.
pub fn chunks() -> Result<Vec<Chunk>, Refusal> {
    let mut chunks = Vec::new();
    for cell in cells()?.into_iter().filter(stored) {
        chunks.push(Chunk {
            id: VOLUME.key(cell)?,
            lead: Vec::new(),
            bytes: bytes(cell),
        });
    }
    chunks.sort_by_key(|chunk| chunk.id);
    Ok(chunks)
}

/// All cells of the grid.
fn cells() -> Result<Vec<Cell>, Refusal> {
    let grid = VOLUME.grid()?;
    let columns = (0..grid.x).flat_map(|x| (0..grid.y).map(move |y| (x, y)));
    Ok(columns
        .flat_map(|(x, y)| (0..grid.z).map(move |z| Cell { x, y, z }))
        .collect())
}

/// The column of cells at the far corner has no chunks, so that something can
/// be asked for that is not there.
fn stored(cell: &Cell) -> bool {
    (cell.x, cell.y) != (4, 4)
}

/// A line that names the cell, and up to 48 bytes that are no text.
fn bytes(cell: Cell) -> Vec<u8> {
    if cell == EMPTY {
        return Vec::new();
    }
    let Cell { x, y, z } = cell;
    let line = format!("cell {x},{y},{z} of the sample deposit\n");
    let more = 16 * ((x + y + z) % 4);
    let pattern = (0..more).map(|i| (200 + 37 * i + 5 * x) as u8);
    line.into_bytes().into_iter().chain(pattern).collect()
}
