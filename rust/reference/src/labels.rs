//! The labels inside a chunk (document 02, order 14), in the compressed
//! segmentation encoding: one voxel read by the published description, a whole
//! chunk by asking for each voxel, and an encoder.

use crate::endian::write_front;

/// The widths a voxel may take, in bits.
pub const WIDTHS: [u32; 7] = [0, 1, 2, 4, 8, 16, 32];

/// How a chunk's labels are laid out.
#[derive(Clone, Copy, Debug, PartialEq, Eq)]
pub struct Layout {
    /// The chunk's extents in voxels.
    pub size: [u32; 3],
    /// A block's extents in voxels.
    pub block: [u32; 3],
    /// How many channels there are.
    pub channels: u32,
    /// Whether a label has 64 bits, or 32.
    pub wide: bool,
}

impl Layout {
    fn is_empty(&self) -> bool {
        self.size.contains(&0) || self.block.contains(&0) || self.channels == 0
    }

    /// How many words a label takes.
    fn words(&self) -> u128 {
        1 + u128::from(self.wide)
    }

    fn label_bytes(&self) -> usize {
        4 * self.words() as usize
    }

    /// How many voxels all channels have together.
    pub fn voxels(&self) -> u128 {
        let extents = self.size.into_iter().chain([self.channels]);
        // Four numbers of 32 bits: their product has no more than 128.
        extents.map(u128::from).product()
    }

    /// The voxels of a channel in the raw form's order.
    fn scan(&self) -> impl Iterator<Item = [u32; 3]> {
        let [nx, ny, nz] = self.size;
        (0..nz).flat_map(move |z| (0..ny).flat_map(move |y| (0..nx).map(move |x| [x, y, z])))
    }

    /// How many blocks there are along each axis.
    fn grid(&self) -> [u128; 3] {
        std::array::from_fn(|axis| u128::from(self.size[axis].div_ceil(self.block[axis])))
    }
}

/// The number of a place inside a box, x fastest.
fn number(place: [u128; 3], extents: [u128; 3]) -> u128 {
    place[0] + extents[0] * (place[1] + extents[1] * place[2])
}

/// Word `at` of the chunk, or 28 where it is not whole there.
fn word(chunk: &[u8], at: u128) -> Result<u32, u8> {
    let words = chunk.chunks_exact(4);
    let at = usize::try_from(at).ok().filter(|at| *at < words.len());
    let bytes = at.map(|at| &chunk[4 * at..4 * at + 4]).ok_or(28)?;
    Ok(u32::from_le_bytes(bytes.try_into().expect("four bytes")))
}

/// The label of a voxel of a channel.
pub fn label(chunk: &[u8], layout: &Layout, voxel: [u32; 3], channel: u32) -> Result<u64, u8> {
    let inside = (0..3).all(|axis| voxel[axis] < layout.size[axis]) && channel < layout.channels;
    if layout.is_empty() || !inside {
        return Err(2);
    }
    let wide = |numbers: [u32; 3]| numbers.map(u128::from);
    let split = |axis: usize| {
        (
            voxel[axis] / layout.block[axis],
            voxel[axis] % layout.block[axis],
        )
    };
    let parts = [split(0), split(1), split(2)];
    let block = number(wide(parts.map(|(block, _)| block)), layout.grid());
    let place = number(wide(parts.map(|(_, place)| place)), wide(layout.block));

    let start = u128::from(word(chunk, u128::from(channel))?);
    // A header is whole or it is not: its second word is looked at first, so
    // that a width is judged only in a whole header.
    let packed = u128::from(word(chunk, start + 2 * block + 1)?);
    let first = word(chunk, start + 2 * block)?;
    let (width, table) = (first >> 24, u128::from(first & 0x00ff_ffff));
    if !WIDTHS.contains(&width) {
        return Err(29);
    }
    let value = match width {
        0 => 0,
        width => {
            let bit = place * u128::from(width);
            let values = word(chunk, start + packed + bit / 32)?;
            let shifted = u64::from(values) >> (bit % 32);
            u128::from(shifted & ((1 << width) - 1))
        }
    };
    let entry = start + table + layout.words() * value;
    let low = u64::from(word(chunk, entry)?);
    if layout.wide {
        return Ok(low | u64::from(word(chunk, entry + 1)?) << 32);
    }
    Ok(low)
}

/// How many bytes the raw form has, or 13 where that does not fit 64 bits.
pub fn unpacked_length(layout: &Layout) -> Result<u64, u8> {
    if layout.is_empty() {
        return Err(2);
    }
    // The product of five numbers may pass 128 bits by a little.
    let bytes = layout.voxels().checked_mul(layout.label_bytes() as u128);
    bytes.and_then(|bytes| u64::try_from(bytes).ok()).ok_or(13)
}

/// The raw form at the front of `out`, and its length: each voxel is asked for.
/// Takes time with the voxels, whatever the output's room.
pub fn unpack(chunk: &[u8], layout: &Layout, out: &mut [u8]) -> Result<usize, u8> {
    if layout.is_empty() {
        return Err(2);
    }
    let mut raw = Vec::new();
    let mut worst = 0;
    for channel in 0..layout.channels {
        for voxel in layout.scan() {
            match label(chunk, layout, voxel, channel) {
                Ok(label) => raw.extend(&label.to_le_bytes()[..layout.label_bytes()]),
                Err(number) => worst = worst.max(number),
            }
        }
    }
    // 29 goes before 28, and is the greater.
    match worst {
        0 => write_front(&raw, out),
        number => Err(number),
    }
}

/// How the encoder lays out what the format leaves open.
#[derive(Clone, Copy, Debug, Default, PartialEq, Eq)]
pub struct Style {
    /// Every block has at least this width, one of the seven.
    pub least_width: u32,
    /// Blocks of a channel with the same table share it.
    pub shared: bool,
    /// The tables of a channel stand behind all its packed values, and not each
    /// before its block's.
    pub tables_last: bool,
}

/// A chunk of these labels, channel by channel in the raw form's order. Their
/// number is that of the layout's voxels.
///
/// # Panics
///
/// Panics where the labels are not as many, or a table's place does not fit 24
/// bits.
pub fn encode(labels: &[u64], layout: &Layout, style: Style) -> Vec<u8> {
    assert_eq!(
        labels.len() as u128,
        layout.voxels(),
        "a label for each voxel"
    );
    let of_channel = labels.len() / layout.channels as usize;
    let mut words = vec![0; layout.channels as usize];
    for (channel, labels) in labels.chunks(of_channel).enumerate() {
        words[channel] = u32::try_from(words.len()).expect("offsets have 32 bits");
        words.extend(encode_channel(labels, layout, style));
    }
    words.into_iter().flat_map(u32::to_le_bytes).collect()
}

/// A block before its parts have places.
struct Block {
    table: Vec<u64>,
    width: u32,
    packed: Vec<u32>,
}

fn encode_channel(labels: &[u64], layout: &Layout, style: Style) -> Vec<u32> {
    let blocks = blocks_of(labels, layout, style);
    let entry = |label: &u64| -> Vec<u32> {
        let halves = [*label as u32, (*label >> 32) as u32];
        halves[..layout.words() as usize].to_vec()
    };
    let mut words = vec![0; 2 * blocks.len()];
    let mut tables: Vec<(Vec<u64>, usize)> = Vec::new();
    let mut place = |table: &[u64], words: &mut Vec<u32>| -> usize {
        let known = tables
            .iter()
            .find(|(known, _)| style.shared && known == table);
        if let Some((_, at)) = known {
            return *at;
        }
        tables.push((table.to_vec(), words.len()));
        words.extend(table.iter().flat_map(entry));
        tables.last().expect("just put").1
    };
    let header = |table: usize, width: u32| -> u32 {
        assert!(table < 1 << 24, "a table's place has 24 bits");
        table as u32 | width << 24
    };
    for (number, block) in blocks.iter().enumerate() {
        if !style.tables_last {
            words[2 * number] = header(place(&block.table, &mut words), block.width);
        }
        words[2 * number + 1] = words.len() as u32;
        words.extend(&block.packed);
    }
    if style.tables_last {
        for (number, block) in blocks.iter().enumerate() {
            words[2 * number] = header(place(&block.table, &mut words), block.width);
        }
    }
    words
}

/// The blocks of a channel in the order of their numbers. A voxel of a block
/// that lies outside the volume has the value 0.
fn blocks_of(labels: &[u64], layout: &Layout, style: Style) -> Vec<Block> {
    let [gx, gy, gz] = layout.grid();
    let [bx, by, bz] = layout.block.map(u128::from);
    let size = layout.size.map(u128::from);
    let label_at = |place: [u128; 3]| {
        let inside = (0..3).all(|axis| place[axis] < size[axis]);
        inside.then(|| labels[number(place, size) as usize])
    };
    let mut blocks = Vec::new();
    for block in 0..gx * gy * gz {
        let corner = [
            block % gx * bx,
            block / gx % gy * by,
            block / (gx * gy) * bz,
        ];
        let places = (0..bx * by * bz).map(|m| [m % bx, m / bx % by, m / (bx * by)]);
        let held: Vec<Option<u64>> = places
            .map(|place| label_at(std::array::from_fn(|axis| corner[axis] + place[axis])))
            .collect();
        let mut table: Vec<u64> = held.iter().flatten().copied().collect();
        table.sort_unstable();
        table.dedup();
        let needed = |width: &u32| 1u128 << *width >= table.len() as u128;
        let width = WIDTHS
            .into_iter()
            .filter(|width| *width >= style.least_width);
        let width = width
            .clone()
            .find(needed)
            .expect("32 bits number any table");
        let mut packed = vec![0; (held.len() * width as usize).div_ceil(32)];
        for (m, label) in held.iter().enumerate() {
            let value = label.map_or(0, |label| {
                table.binary_search(&label).expect("in its table")
            });
            if width > 0 {
                packed[m * width as usize / 32] |= (value as u32) << (m * width as usize % 32);
            }
        }
        blocks.push(Block {
            table,
            width,
            packed,
        });
    }
    blocks
}

#[cfg(test)]
mod tests {
    use super::*;

    const WORKED: Layout = Layout {
        size: [2, 2, 2],
        block: [2, 2, 2],
        channels: 1,
        wide: false,
    };

    fn chunk_of(words: &[u32]) -> Vec<u8> {
        words.iter().flat_map(|word| word.to_le_bytes()).collect()
    }

    /// The chunk that the format's description works by hand.
    #[test]
    fn the_worked_chunk() {
        let chunk = chunk_of(&[1, 0x0100_0003, 2, 0xa5, 7, 9]);
        let asked: Vec<_> = WORKED
            .scan()
            .map(|voxel| label(&chunk, &WORKED, voxel, 0))
            .collect();
        assert_eq!(asked, [9, 7, 9, 7, 7, 9, 7, 9].map(Ok));
        let mut out = [0xee; 33];
        assert_eq!(unpack(&chunk, &WORKED, &mut out), Ok(32));
        assert_eq!(out[..8], [9, 0, 0, 0, 7, 0, 0, 0]);
        assert_eq!(out[32], 0xee);
        assert_eq!(unpack(&chunk, &WORKED, &mut out[..31]), Err(13));
    }

    #[test]
    fn refusals_of_one_voxel() {
        let ask = |words: &[u32]| label(&chunk_of(words), &WORKED, [1, 1, 1], 0);
        assert_eq!(ask(&[]), Err(28));
        assert_eq!(ask(&[1, 0x0100_0003]), Err(28));
        assert_eq!(ask(&[1, 0x0300_0003]), Err(28));
        assert_eq!(ask(&[1, 0x0300_0003, 2]), Err(29));
        assert_eq!(ask(&[1, 0x0100_0003, 2]), Err(28));
        assert_eq!(ask(&[1, 0x0100_0003, 2, 0xa5, 7]), Err(28));
        assert_eq!(ask(&[1, 0x0000_0002, 900, 5]), Ok(5));
        assert_eq!(ask(&[1, 0x0000_0002, 900]), Err(28));
        let outside = label(&[], &WORKED, [2, 0, 0], 0);
        assert_eq!(outside, Err(2));
        assert_eq!(label(&[], &WORKED, [0, 0, 0], 1), Err(2));
    }

    #[test]
    fn lengths_are_exact() {
        assert_eq!(unpacked_length(&WORKED), Ok(32));
        let most = Layout {
            size: [u32::MAX; 3],
            channels: u32::MAX,
            wide: true,
            ..WORKED
        };
        assert_eq!(unpacked_length(&most), Err(13));
        let none = Layout {
            channels: 0,
            ..WORKED
        };
        assert_eq!(unpacked_length(&none), Err(2));
    }

    /// What is encoded is read again, in every width and style.
    #[test]
    fn encoded_labels_are_read_again() {
        let layout = |wide| Layout {
            size: [5, 4, 3],
            block: [2, 3, 2],
            channels: 2,
            wide,
        };
        for wide in [false, true] {
            let layout = layout(wide);
            let most = if wide { u64::MAX } else { u64::from(u32::MAX) };
            for kinds in [1, 2, 3, 5, 60] {
                let count = layout.voxels() as u64;
                let labels: Vec<u64> = (0..count).map(|i| most - i * 7 % kinds).collect();
                for least_width in WIDTHS {
                    for (shared, tables_last) in [(false, false), (true, false), (true, true)] {
                        let style = Style {
                            least_width,
                            shared,
                            tables_last,
                        };
                        let chunk = encode(&labels, &layout, style);
                        let mut out = vec![0; 8 * labels.len()];
                        let length = unpack(&chunk, &layout, &mut out).expect("readable");
                        let bytes = labels.iter().flat_map(|label| {
                            label.to_le_bytes().into_iter().take(layout.label_bytes())
                        });
                        assert!(bytes.eq(out[..length].iter().copied()), "{style:?}");
                    }
                }
            }
        }
    }
}
