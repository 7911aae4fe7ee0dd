//! `locate` in plain Rust, for the timing: a block of cells at a time, the grid
//! and the bits worked out once for the card.

use bench::plain::{cards, places};
use coronagamba::Cell;
use std::io::{self, Read, Write};

const BLOCK: usize = 12 * 4096;

/// As many bytes as the input still has, up to the buffer's length.
fn fill(input: &mut impl Read, buffer: &mut [u8]) -> io::Result<usize> {
    let mut length = 0;
    while length < buffer.len() {
        match input.read(&mut buffer[length..])? {
            0 => break,
            more => length += more,
        }
    }
    Ok(length)
}

/// The cell in 12 bytes.
fn cell(bytes: &[u8]) -> Cell {
    let number = |axis: usize| {
        let bytes = &bytes[4 * axis..4 * axis + 4];
        u32::from_le_bytes(bytes.try_into().expect("four bytes"))
    };
    Cell {
        x: number(0),
        y: number(1),
        z: number(2),
    }
}

fn main() -> io::Result<()> {
    let (mut input, mut output) = (io::stdin().lock(), io::stdout().lock());
    let mut head = [0; 2];
    fill(&mut input, &mut head)?;
    let mut bytes = vec![0; usize::from(u16::from_le_bytes(head))];
    let length = fill(&mut input, &mut bytes)?;
    let card = match cards::read(&bytes[..length]) {
        Ok(card) if length == bytes.len() => card,
        Ok(_) => return writeln!(output, "refused 14"),
        Err(number) => return writeln!(output, "refused {number}"),
    };
    let spec = card.sharding;
    let grid = places::grid(&card.volume).expect("the card was judged");
    let bits = grid.map(places::bits);
    let digits = usize::from(spec.shard_bits.div_ceil(4).max(1));
    let (mut block, mut text) = (vec![0; BLOCK], Vec::new());
    loop {
        let length = fill(&mut input, &mut block)?;
        let cells = block[..length].chunks_exact(12);
        let cut = !cells.remainder().is_empty();
        text.clear();
        for cell in cells.map(cell) {
            if !places::inside(grid, cell) {
                text.extend_from_slice(b"refused 2\n");
                continue;
            }
            let key = places::key_in(bits, cell);
            let (shard, minishard) = places::split(&spec, places::hashed(&spec, key));
            writeln!(text, "{key} {shard:0digits$x}.shard {minishard}")?;
        }
        if cut {
            text.extend_from_slice(b"cut\n");
        }
        output.write_all(&text)?;
        if length < BLOCK {
            return Ok(());
        }
    }
}
