//! Refusals of labels inside a chunk: 2, 28 and 29. What a voxel's label is read
//! from is followed step by step: channel offset, block header, packed word,
//! table entry.

use coronagamba::{LabelBits, LabelShape, Refusal};

use super::words::{commas, u32_at, Diagnosis, Place};

/// The most headers, and the most voxels, that are looked at for the first
/// fault of a whole chunk. A chunk of a deposit has far fewer; one that was made
/// to keep a reader busy may say many more.
const MOST_LOOKS: u64 = 1 << 24;

/// Where wrong settings show: with others than the writer's, other words count
/// as headers.
const SETTINGS: &str = "; and at the size, block, channels and bits of the settings";

/// Refusal 2 of a shape: it has no voxels.
pub fn of_label_shape(shape: &LabelShape) -> Diagnosis {
    let (size, block) = (<[u32; 3]>::from(shape.size), <[u32; 3]>::from(shape.block));
    let mut zeros = Vec::new();
    for (name, extents) in [("size", size), ("block", block)] {
        for (axis, extent) in ["x", "y", "z"].into_iter().zip(extents) {
            if extent == 0 {
                zeros.push(format!("{name} along {axis}"));
            }
        }
    }
    if shape.channels == 0 {
        zeros.push("channel count".to_string());
    }
    if zeros.is_empty() {
        return Diagnosis::not_found_again();
    }
    Diagnosis::new(
        format!("0 as {}", zeros.join(" and ")),
        "extents, a block size and a channel count of at least 1",
        "the settings, --size, --block, --channels",
    )
}

/// Refusal 2, 28 or 29 of a voxel's label.
pub fn of_label(
    chunk: &[u8],
    shape: &LabelShape,
    voxel: [u32; 3],
    channel: u32,
    refusal: Refusal,
) -> Diagnosis {
    if refusal.number == 2 {
        let outside = outside(shape, voxel, channel);
        return outside.unwrap_or_else(|| of_label_shape(shape));
    }
    let read = Reading::new(chunk, shape);
    match read.and_then(|read| read.label(voxel, channel).err()) {
        Some(fault) if fault.number == refusal.number => *fault.told,
        _ => Diagnosis::not_found_again(),
    }
}

/// Refusal 28 or 29 of a whole chunk: the first fault of that number, where it
/// is met soon enough. Or 13, of a raw form for which there was no room.
pub fn of_labels(chunk: &[u8], shape: &LabelShape, refusal: Refusal) -> Diagnosis {
    let Some(read) = Reading::new(chunk, shape) else {
        return of_label_shape(shape);
    };
    if refusal.number == 13 {
        return Diagnosis::new(
            format!(
                "{} voxels in {} channels",
                commas(read.size),
                shape.channels
            ),
            "a raw form of at most 18446744073709551615 bytes",
            "the size, channels and bits of the settings",
        );
    }
    let fault = match refusal.number {
        29 => read.first_width(),
        28 => read.first_header().or_else(|| read.first_cut()),
        _ => None,
    };
    match fault {
        Some(fault) if fault.number == refusal.number => *fault.told,
        _ if read.is_long() => Diagnosis::new(
            format!("none among the first {MOST_LOOKS} headers and voxels"),
            "that all labels can be read",
            "single voxels, with 'label'",
        ),
        _ => Diagnosis::not_found_again(),
    }
}

/// A voxel or channel that the chunk does not have.
fn outside(shape: &LabelShape, voxel: [u32; 3], channel: u32) -> Option<Diagnosis> {
    let size = <[u32; 3]>::from(shape.size);
    if let Some(axis) = (0..3).find(|axis| voxel[*axis] >= size[*axis]) {
        let name = ["x", "y", "z"][axis];
        return Some(Diagnosis::new(
            format!("{name} {} in voxel {}", voxel[axis], commas(voxel)),
            format!(
                "{name} below {}: the chunk has {} voxels",
                size[axis],
                commas(size)
            ),
            "the voxel asked for, counted from 0 in the chunk; and the size of the settings",
        ));
    }
    (channel >= shape.channels).then(|| {
        Diagnosis::new(
            format!("channel {channel}"),
            format!("a channel below {}", shape.channels),
            "the channel asked for, counted from 0; and --channels",
        )
    })
}

/// What keeps a label from being read.
struct Fault {
    number: u8,
    told: Box<Diagnosis>,
}

impl Fault {
    fn new(number: u8, told: Diagnosis) -> Self {
        Fault {
            number,
            told: Box::new(told),
        }
    }
}

/// A chunk with a shape that has voxels. Places are counted in words; they may
/// lie far beyond the chunk.
struct Reading<'a> {
    chunk: &'a [u8],
    size: [u32; 3],
    block: [u32; 3],
    /// How many blocks there are along each axis.
    grid: [u32; 3],
    channels: u32,
    /// How many words a label has.
    words: u128,
}

/// A block's header.
struct Header {
    /// The word at which its channel begins.
    channel_at: u128,
    /// Its own first word.
    at: u128,
    width: u32,
    table: u32,
    values: u32,
}

impl<'a> Reading<'a> {
    fn new(chunk: &'a [u8], shape: &LabelShape) -> Option<Self> {
        let (size, block) = (<[u32; 3]>::from(shape.size), <[u32; 3]>::from(shape.block));
        let zero = size.contains(&0) || block.contains(&0) || shape.channels == 0;
        (!zero).then(|| Reading {
            chunk,
            size,
            block,
            grid: std::array::from_fn(|axis| size[axis].div_ceil(block[axis])),
            channels: shape.channels,
            words: match shape.bits {
                LabelBits::B32 => 1,
                LabelBits::B64 => 2,
            },
        })
    }

    /// A word that is whole in the chunk.
    fn word(&self, at: u128) -> Option<u32> {
        u32_at(self.chunk, u64::try_from(at.checked_mul(4)?).ok()?)
    }

    fn whole(&self, at: u128, words: u128) -> bool {
        4 * (at + words) <= self.chunk.len() as u128
    }

    /// How many blocks a channel has.
    fn blocks(&self) -> u128 {
        self.grid.iter().map(|count| u128::from(*count)).product()
    }

    /// A fault of 28: so many words from a place on are not whole in the chunk.
    fn cut(&self, what: String, at: u128, words: u128, look_at: Place) -> Fault {
        let length = self.chunk.len();
        let told = Diagnosis::new(
            format!("{what} at byte {}", 4 * at),
            format!(
                "its {} bytes inside the chunk, which has {length}",
                4 * words
            ),
            look_at.and(SETTINGS),
        );
        Fault::new(28, told)
    }

    /// Where a channel begins.
    fn channel(&self, channel: u32) -> Result<u128, Fault> {
        let at = u128::from(channel);
        self.word(at).map(u128::from).ok_or_else(|| {
            let what = format!("the offset of channel {channel}");
            self.cut(what, at, 1, "the chunk's length".into())
        })
    }

    /// The header of a block, by the block's number in its channel.
    fn header(&self, channel: u32, number: u128) -> Result<Header, Fault> {
        let channel_at = self.channel(channel)?;
        let at = channel_at + 2 * number;
        let (Some(first), Some(values)) = (self.word(at), self.word(at + 1)) else {
            let what = format!("the header of {}", self.named(number, channel));
            let offset = Place::byte(
                4 * u64::from(channel),
                "the chunk",
                &format!("the offset of channel {channel}"),
            );
            return Err(self.cut(what, at, 2, offset));
        };
        let width = first >> 24;
        if ![0, 1, 2, 4, 8, 16, 32].contains(&width) {
            let place = self.inside(at, 3, "the width in the block's header");
            let told = Diagnosis::new(
                format!("width {width} of {}", self.named(number, channel)),
                "width 0, 1, 2, 4, 8, 16 or 32",
                place.and(SETTINGS),
            );
            return Err(Fault::new(29, told));
        }
        Ok(Header {
            channel_at,
            at,
            width,
            table: first & 0xff_ffff,
            values,
        })
    }

    /// A byte of a word that is whole in the chunk, and what stands there.
    fn inside(&self, at: u128, byte: u64, what: &str) -> Place {
        Place::byte(4 * at as u64 + byte, "the chunk", what)
    }

    /// A block in words.
    fn named(&self, number: u128, channel: u32) -> String {
        let [across, down, _] = self.grid.map(u128::from);
        let block = [
            number % across,
            number / across % down,
            number / across / down,
        ];
        format!("block {} of channel {channel}", commas(block))
    }

    /// Reads the label of a voxel inside.
    fn label(&self, voxel: [u32; 3], channel: u32) -> Result<(), Fault> {
        let place = |axis: usize| u128::from(voxel[axis] / self.block[axis]);
        let [across, down, _] = self.grid.map(u128::from);
        let number = place(0) + across * (place(1) + down * place(2));
        let header = self.header(channel, number)?;
        let within = |axis: usize| u128::from(voxel[axis] % self.block[axis]);
        let [wide, high, _] = self.block.map(u128::from);
        let voxel = within(0) + wide * (within(1) + high * within(2));
        self.entry(&header, voxel, &self.named(number, channel))
    }

    /// Reads the label of a voxel by its number in the block, whose name is used
    /// where it cannot be read.
    fn entry(&self, header: &Header, voxel: u128, name: &str) -> Result<(), Fault> {
        let bit = voxel * u128::from(header.width);
        let mut value = 0;
        if header.width > 0 {
            let at = header.channel_at + u128::from(header.values) + bit / 32;
            let Some(word) = self.word(at) else {
                let what = format!("packed word {} of {name}", bit / 32);
                let offset = "the offset of the packed values in the block's header";
                return Err(self.cut(what, at, 1, self.inside(header.at + 1, 0, offset)));
            };
            let values = u64::from(word) >> (bit % 32);
            value = u128::from(values & ((1 << header.width) - 1));
        }
        let at = header.channel_at + u128::from(header.table) + self.words * value;
        if !self.whole(at, self.words) {
            let what = format!("entry {value} of the table of {name}");
            let offset = "the width and the table's offset in the block's header";
            return Err(self.cut(what, at, self.words, self.inside(header.at, 0, offset)));
        }
        Ok(())
    }

    /// How many blocks of a channel have whole headers.
    fn whole_headers(&self, channel_at: u128) -> u128 {
        let behind = (self.chunk.len() as u128 / 4).saturating_sub(channel_at);
        self.blocks().min(behind / 2)
    }

    /// The first channel offset or header that is not whole.
    fn first_header(&self) -> Option<Fault> {
        for channel in 0..self.channels {
            let whole = match self.channel(channel) {
                Ok(channel_at) => self.whole_headers(channel_at),
                Err(fault) => return Some(fault),
            };
            if whole < self.blocks() {
                return self.header(channel, whole).err();
            }
        }
        None
    }

    /// The first header with another width.
    fn first_width(&self) -> Option<Fault> {
        let mut looks = 0;
        for channel in 0..self.channels {
            let channel_at = self.channel(channel).ok()?;
            for number in 0..self.whole_headers(channel_at) {
                match self.header(channel, number) {
                    Err(fault) if fault.number == 29 => return Some(fault),
                    _ => {}
                }
                looks += 1;
                if looks == MOST_LOOKS {
                    return None;
                }
            }
        }
        None
    }

    /// The first packed word or table entry that is not whole, where all headers
    /// are: block by block.
    fn first_cut(&self) -> Option<Fault> {
        let mut looks = 0;
        for channel in 0..self.channels {
            for number in 0..self.blocks() {
                let header = self.header(channel, number).ok()?;
                let name = self.named(number, channel);
                let [wide, high, _] = self.block.map(u128::from);
                let [across, down, deep] = self.inside_of(number);
                for w in 0..deep {
                    for v in 0..down {
                        for u in 0..across {
                            let voxel = u + wide * (v + high * w);
                            if let Err(fault) = self.entry(&header, voxel, &name) {
                                return Some(fault);
                            }
                            looks += 1;
                            if looks == MOST_LOOKS {
                                return None;
                            }
                        }
                    }
                }
            }
        }
        None
    }

    /// How many voxels of a block are inside the chunk, along each axis.
    fn inside_of(&self, number: u128) -> [u128; 3] {
        let [across, down, _] = self.grid.map(u128::from);
        let block = [
            number % across,
            number / across % down,
            number / across / down,
        ];
        std::array::from_fn(|axis| {
            let (size, step) = (u128::from(self.size[axis]), u128::from(self.block[axis]));
            step.min(size - block[axis] * step)
        })
    }

    /// Whether there is more than is looked at.
    fn is_long(&self) -> bool {
        let voxels = self.size.map(f64::from).iter().product::<f64>();
        let headers = self.chunk.len() as f64 / 8.0 * f64::from(self.channels);
        voxels * f64::from(self.channels) >= MOST_LOOKS as f64 || headers >= MOST_LOOKS as f64
    }
}

#[cfg(test)]
mod tests {
    use super::*;
    use coronagamba::Labels;
    use std::collections::BTreeSet;
    use testkit::Rng;

    fn bytes(words: &[u32]) -> Vec<u8> {
        words.iter().flat_map(|word| word.to_le_bytes()).collect()
    }

    /// Two blocks along x of width 1, values at words 4 and 5 and one table at
    /// word 6 of their channel.
    const WORDS: [u32; 9] = [1, 0x0100_0006, 4, 0x0100_0006, 5, 0xa5, 0x5a, 7, 9];

    fn shape() -> LabelShape {
        LabelShape::new([4, 2, 2], [2; 3], 1, LabelBits::B32)
    }

    /// The library's refusal of the whole chunk and of a voxel, explained.
    fn told(words: &[u32], voxel: [u32; 3]) -> [Diagnosis; 2] {
        let (chunk, shape) = (bytes(words), shape());
        let labels = Labels::open(shape, &chunk);
        let [x, y, z] = voxel;
        let whole = labels.unpack(&mut [0; 64]).unwrap_err();
        let single = labels.label(x, y, z, 0).unwrap_err();
        [
            of_labels(&chunk, &shape, whole),
            of_label(&chunk, &shape, voxel, 0, single),
        ]
    }

    fn changed(place: usize, word: u32) -> Vec<u32> {
        let mut words = WORDS.to_vec();
        words[place] = word;
        words
    }

    #[test]
    fn each_step_is_named() {
        let settings = "; and at the size, block, channels and bits of the settings";
        for (words, found, look_at, byte) in [
            (
                changed(0, 9),
                [
                    "the header of block 0,0,0 of channel 0 at byte 36",
                    "the header of block 1,0,0 of channel 0 at byte 44",
                ],
                "byte 0 of the chunk (the offset of channel 0)",
                Some(0),
            ),
            (
                changed(3, 0x0300_0006),
                ["width 3 of block 1,0,0 of channel 0"; 2],
                "byte 15 of the chunk (the width in the block's header)",
                Some(15),
            ),
            (
                changed(4, 8),
                ["packed word 0 of block 1,0,0 of channel 0 at byte 36"; 2],
                "byte 16 of the chunk (the offset of the packed values in the block's header)",
                Some(16),
            ),
            (
                changed(3, 0x0100_0007),
                ["entry 1 of the table of block 1,0,0 of channel 0 at byte 36"; 2],
                "byte 12 of the chunk (the width and the table's offset in the block's header)",
                Some(12),
            ),
            (
                Vec::new(),
                ["the offset of channel 0 at byte 0"; 2],
                "the chunk's length",
                None,
            ),
        ] {
            // Voxel 3,0,0 has value 1 in the second block.
            let told = told(&words, [3, 0, 0]);
            for (told, found) in told.into_iter().zip(found) {
                assert_eq!((told.found.as_str(), told.byte), (found, byte));
                assert_eq!(told.look_at, format!("{look_at}{settings}"));
            }
        }
    }

    #[test]
    fn voxels_and_channels_outside() {
        let (chunk, shape) = (bytes(&WORDS), shape());
        let labels = Labels::open(shape, &chunk);
        let refusal = labels.label(1, 2, 0, 0).unwrap_err();
        let told = of_label(&chunk, &shape, [1, 2, 0], 0, refusal);
        assert_eq!(told.found, "y 2 in voxel 1,2,0");
        assert_eq!(told.expected, "y below 2: the chunk has 4,2,2 voxels");
        let refusal = labels.label(0, 0, 0, 1).unwrap_err();
        let told = of_label(&chunk, &shape, [0; 3], 1, refusal);
        assert_eq!(told.found, "channel 1");
        assert_eq!(told.expected, "a channel below 1");
    }

    /// A chunk of some words, many of which lead somewhere, under some shape.
    fn random(rng: &mut Rng) -> (LabelShape, Vec<u8>) {
        let extent = |rng: &mut Rng| rng.within(1, 5) as u32;
        let three = |rng: &mut Rng| [extent(rng), extent(rng), extent(rng)];
        let bits = *rng.pick(&[LabelBits::B32, LabelBits::B64]);
        let shape = LabelShape::new(three(rng), three(rng), rng.within(1, 3) as u32, bits);
        let count = rng.within(0, 60);
        let word = |rng: &mut Rng| {
            let width = *rng.pick(&[0, 1, 2, 4, 8, 16, 32, 0, 1, 2, 3, 33]);
            let place = rng.below(count + 1) as u32;
            let any = rng.edge_u32();
            *rng.pick(&[place, width << 24 | place, any, place])
        };
        let words: Vec<u32> = (0..count).map(|_| word(rng)).collect();
        let mut chunk = bytes(&words);
        chunk.truncate(chunk.len() - rng.below(4).min(chunk.len() as u64) as usize);
        (shape, chunk)
    }

    /// Whatever the library refuses, this reading finds it too, and no other
    /// number.
    #[test]
    fn both_readings_agree() {
        let mut rng = Rng::new(14);
        let (mut whole, mut single) = (BTreeSet::new(), BTreeSet::new());
        for _ in 0..20_000 {
            let (shape, chunk) = random(&mut rng);
            let labels = Labels::open(shape, &chunk);
            let mut out = vec![0; shape.unpacked_length().unwrap() as usize];
            if let Err(refusal) = labels.unpack(&mut out) {
                let told = of_labels(&chunk, &shape, refusal);
                assert_ne!(told, Diagnosis::not_found_again());
                whole.insert(refusal.number);
            }
            let size = <[u32; 3]>::from(shape.size);
            let voxel = size.map(|extent| rng.below(u64::from(extent)) as u32);
            let channel = rng.below(u64::from(shape.channels)) as u32;
            let [x, y, z] = voxel;
            if let Err(refusal) = labels.label(x, y, z, channel) {
                let told = of_label(&chunk, &shape, voxel, channel, refusal);
                assert_ne!(told, Diagnosis::not_found_again());
                single.insert(refusal.number);
            }
        }
        assert_eq!(whole, BTreeSet::from([28, 29]));
        assert_eq!(single, whole);
    }

    /// What was made to keep a reader busy is given up.
    #[test]
    fn a_long_search_ends() {
        let size = [u32::MAX, u32::MAX, 1];
        let shape = LabelShape::new(size, size, 1, LabelBits::B32);
        // One block of width 32 whose values are 0 as far as they go.
        let mut chunk = bytes(&[1, 32 << 24, 2]);
        chunk.resize(4 << 25, 0);
        let refusal = Refusal {
            number: 28,
            minishard: None,
            position: None,
        };
        let told = of_labels(&chunk, &shape, refusal);
        assert_eq!(
            told.found,
            "none among the first 16777216 headers and voxels"
        );
    }
}
