//! The labels inside a chunk of the compressed segmentation encoding.

use crate::ffi;
use crate::grid::Extents;
use crate::refusal::{given, written, Refusal};
use std::slice;

/// How many bits a label has.
#[derive(Clone, Copy, Debug, PartialEq, Eq, Hash)]
pub enum LabelBits {
    /// 32 bits.
    B32,
    /// 64 bits.
    B64,
}

impl LabelBits {
    /// How many bytes a label has in the raw form.
    pub const fn bytes(self) -> usize {
        match self {
            LabelBits::B32 => 4,
            LabelBits::B64 => 8,
        }
    }

    /// The width as the C interface takes it.
    fn number(self) -> u64 {
        match self {
            LabelBits::B32 => 32,
            LabelBits::B64 => 64,
        }
    }
}

/// How the labels of a chunk are laid out, which the chunk itself does not say.
///
/// Any numbers may stand here; each call judges them.
///
/// ```
/// use coronagamba::{LabelBits, LabelShape};
///
/// let shape = LabelShape::new([64, 64, 60], [8, 8, 8], 1, LabelBits::B64);
/// assert_eq!(shape.unpacked_length()?, 64 * 64 * 60 * 8);
/// # Ok::<(), coronagamba::Refusal>(())
/// ```
#[derive(Clone, Copy, Debug, PartialEq, Eq, Hash)]
pub struct LabelShape {
    /// The chunk's extents in voxels. At the upper faces of a volume they are
    /// what is left of it, as [`Volume::bounds`](crate::Volume::bounds) tells.
    pub size: Extents,
    /// Those of a block, `compressed_segmentation_block_size` in an info file.
    pub block: Extents,
    /// How many channels there are, `num_channels` in an info file.
    pub channels: u32,
    /// How many bits a label has, `data_type` in an info file.
    pub bits: LabelBits,
}

impl LabelShape {
    /// Labels of this many bits over these extents, in blocks of this size.
    pub fn new(
        size: impl Into<Extents>,
        block: impl Into<Extents>,
        channels: u32,
        bits: LabelBits,
    ) -> Self {
        LabelShape {
            size: size.into(),
            block: block.into(),
            channels,
            bits,
        }
    }

    /// How many bytes the raw form has, whatever the chunk holds. Refusal 2
    /// where an extent, a block size or the channel count is 0, 13 where the
    /// number does not fit 64 bits.
    ///
    /// A few bytes may say very many labels: who takes chunks from strangers
    /// looks at this number before there is memory for it.
    ///
    /// ```
    /// use coronagamba::{LabelBits, LabelShape};
    ///
    /// let shape = |size| LabelShape::new(size, [8; 3], 2, LabelBits::B32);
    /// assert_eq!(shape([9, 8, 7]).unpacked_length()?, 9 * 8 * 7 * 2 * 4);
    /// assert_eq!(shape([9, 0, 7]).unpacked_length().unwrap_err().number, 2);
    /// assert_eq!(shape([u32::MAX; 3]).unpacked_length().unwrap_err().number, 13);
    /// # Ok::<(), coronagamba::Refusal>(())
    /// ```
    pub fn unpacked_length(&self) -> Result<u64, Refusal> {
        // SAFETY: the result is a live number, lent to this call alone.
        given(|length| unsafe {
            ffi::coronagamba_unpacked_length(
                self.size,
                self.block,
                self.channels,
                self.bits.number(),
                length,
            )
        })
    }
}

/// All labels of a chunk as numbers, by rising x, then y, z and channel, from
/// [`Labels::unpacked_numbers`].
#[derive(Clone, Debug, PartialEq, Eq, Hash)]
pub enum LabelNumbers {
    /// Labels of 32 bits.
    B32(Vec<u32>),
    /// Labels of 64 bits.
    B64(Vec<u64>),
}

/// A chunk of labels in the compressed segmentation encoding, with their shape,
/// to be asked many times. Opening it judges nothing.
///
/// The example is a chunk of one channel and one block of 2 by 2 by 2 voxels,
/// with labels of 32 bits. Its words are the offset of the channel; the block's
/// header, which has width 1, its table at word 3 and its values at word 2, both
/// counted from the channel's beginning; the values, a bit for each voxel; and
/// the table of two labels.
///
/// ```
/// use coronagamba::{LabelBits, LabelShape, Labels};
///
/// let words = [1, 0x0100_0003, 2, 0b1010_0101, 7, 9u32];
/// let chunk: Vec<u8> = words.iter().flat_map(|word| word.to_le_bytes()).collect();
/// let shape = LabelShape::new([2; 3], [2; 3], 1, LabelBits::B32);
///
/// let labels = Labels::open(shape, &chunk);
/// assert_eq!(labels.label(0, 0, 0, 0)?, 9);
/// assert_eq!(labels.label(1, 0, 0, 0)?, 7);
/// assert_eq!(labels.label(0, 1, 1, 0)?, 7);
/// assert_eq!(labels.label(0, 0, 2, 0).unwrap_err().number, 2);
/// # Ok::<(), coronagamba::Refusal>(())
/// ```
#[derive(Clone, Copy, Debug)]
pub struct Labels<'a> {
    shape: LabelShape,
    chunk: &'a [u8],
}

impl<'a> Labels<'a> {
    /// The labels of this shape in these bytes.
    pub fn open(shape: LabelShape, chunk: &'a [u8]) -> Self {
        Labels { shape, chunk }
    }

    /// How the labels are laid out.
    pub fn shape(&self) -> LabelShape {
        self.shape
    }

    /// The chunk's bytes.
    pub fn bytes(&self) -> &'a [u8] {
        self.chunk
    }

    /// The label of a voxel of a channel, both counted from 0 in the chunk; of
    /// 32 bits it is a number below 2^32. Refusal 2 where an extent, a block
    /// size or the channel count is 0, or the voxel or channel is outside; 29
    /// where its block's header has no width of the encoding; 28 where
    /// something that is to be read for it is not whole in the chunk. It takes
    /// the same time wherever the voxel is.
    ///
    /// ```
    /// use coronagamba::{LabelBits, LabelShape, Labels, Refusal};
    ///
    /// // Width 0: no packed values, and every label is the table's first.
    /// let words = [1, 2, 0, 5, 6u32];
    /// let chunk: Vec<u8> = words.iter().flat_map(|word| word.to_le_bytes()).collect();
    /// let shape = LabelShape::new([3; 3], [4; 3], 1, LabelBits::B64);
    /// assert_eq!(Labels::open(shape, &chunk).label(2, 2, 2, 0)?, 5 + (6 << 32));
    /// let cut = Labels::open(shape, &chunk[..19]).label(2, 2, 2, 0);
    /// assert_eq!(cut.unwrap_err().number, Refusal::LABELS_CUT_OFF);
    /// # Ok::<(), Refusal>(())
    /// ```
    pub fn label(&self, x: u32, y: u32, z: u32, channel: u32) -> Result<u64, Refusal> {
        let LabelShape {
            size,
            block,
            channels,
            bits,
        } = self.shape;
        // SAFETY: pointer and count are those of one live slice; the result is
        // a live number, lent to this call alone.
        given(|label| unsafe {
            ffi::coronagamba_label(
                self.chunk.as_ptr(),
                self.chunk.len(),
                size,
                block,
                channels,
                bits.number(),
                x,
                y,
                z,
                channel,
                label,
            )
        })
    }

    /// How many bytes the raw form has, as
    /// [`LabelShape::unpacked_length`] tells it. The chunk is not looked at.
    pub fn unpacked_length(&self) -> Result<u64, Refusal> {
        self.shape.unpacked_length()
    }

    /// Writes the raw form to the front of `out` and gives its length: the
    /// labels, little-endian, by rising x, then y, z and channel. Refusal 2
    /// where an extent, a block size or the channel count is 0; 29, else 28,
    /// where [`label`](Labels::label) would give it for any voxel; 13 where
    /// `out` is too short. Nothing past that length is touched, and nothing at
    /// all where it refuses.
    ///
    /// With the room that [`unpacked_length`](Labels::unpacked_length) tells,
    /// the time goes by the bytes of chunk and raw form together, whatever the
    /// shape says. Without it, telling 29 and 28 from 13 takes days on a
    /// hostile chunk of 1 MiB.
    ///
    /// ```
    /// use coronagamba::{LabelBits, LabelShape, Labels};
    ///
    /// let words = [1, 0x0100_0003, 2, 0b1010_0101, 7, 9u32];
    /// let chunk: Vec<u8> = words.iter().flat_map(|word| word.to_le_bytes()).collect();
    /// let labels = Labels::open(LabelShape::new([2; 3], [2; 3], 1, LabelBits::B32), &chunk);
    /// let mut out = [0xff; 34];
    /// assert_eq!(labels.unpack(&mut out[..31]).unwrap_err().number, 13);
    /// assert_eq!(out, [0xff; 34]);
    /// assert_eq!(labels.unpack(&mut out)?, 32);
    /// assert_eq!(out[..8], [9, 0, 0, 0, 7, 0, 0, 0]);
    /// assert_eq!(out[32..], [0xff; 2]);
    /// # Ok::<(), coronagamba::Refusal>(())
    /// ```
    pub fn unpack(&self, out: &mut [u8]) -> Result<usize, Refusal> {
        let LabelShape {
            size,
            block,
            channels,
            bits,
        } = self.shape;
        // SAFETY: each pointer and count are those of one live slice; `out`
        // and the result are lent to this call alone.
        written(|length| unsafe {
            ffi::coronagamba_unpack(
                self.chunk.as_ptr(),
                self.chunk.len(),
                size,
                block,
                channels,
                bits.number(),
                out.as_mut_ptr(),
                out.len(),
                length,
            )
        })
    }

    /// The raw form, refused as [`unpack`](Labels::unpack) is; 13 where it has
    /// more bytes than a `Vec` may have.
    ///
    /// It is a new `Vec`, and where there is no memory for it the program ends,
    /// as with any `Vec`. A program that must go on asks for
    /// [`unpacked_length`](Labels::unpacked_length), reserves that much in its
    /// own way and calls [`unpack`](Labels::unpack).
    pub fn unpacked(&self) -> Result<Vec<u8>, Refusal> {
        let mut raw = vec![0; self.room()?];
        self.unpack(&mut raw)?;
        Ok(raw)
    }

    /// All labels as numbers of their width, refused as
    /// [`unpacked`](Labels::unpacked) is.
    ///
    /// ```
    /// use coronagamba::{LabelBits, LabelNumbers, LabelShape, Labels};
    ///
    /// let words = [1, 0x0100_0003, 2, 0b1010_0101, 7, 9u32];
    /// let chunk: Vec<u8> = words.iter().flat_map(|word| word.to_le_bytes()).collect();
    /// let labels = Labels::open(LabelShape::new([2; 3], [2; 3], 1, LabelBits::B32), &chunk);
    /// let expected = vec![9, 7, 9, 7, 7, 9, 7, 9];
    /// assert_eq!(labels.unpacked_numbers()?, LabelNumbers::B32(expected));
    /// # Ok::<(), coronagamba::Refusal>(())
    /// ```
    pub fn unpacked_numbers(&self) -> Result<LabelNumbers, Refusal> {
        match self.shape.bits {
            LabelBits::B32 => {
                let mut numbers = vec![0u32; self.room()? / 4];
                self.unpack(bytes_of_u32s(&mut numbers))?;
                for number in &mut numbers {
                    *number = u32::from_le(*number);
                }
                Ok(LabelNumbers::B32(numbers))
            }
            LabelBits::B64 => {
                let mut numbers = vec![0u64; self.room()? / 8];
                self.unpack(bytes_of_u64s(&mut numbers))?;
                for number in &mut numbers {
                    *number = u64::from_le(*number);
                }
                Ok(LabelNumbers::B64(numbers))
            }
        }
    }

    /// How much room the raw form needs, or none where no `Vec` can have it:
    /// unpacking then says which refusal comes first.
    fn room(&self) -> Result<usize, Refusal> {
        match self.unpacked_length() {
            Ok(length) => Ok(isize::try_from(length).map_or(0, isize::unsigned_abs)),
            Err(refusal) if refusal.number == Refusal::NO_ROOM => Ok(0),
            Err(refusal) => Err(refusal),
        }
    }
}

/// The bytes of some numbers.
fn bytes_of_u32s(numbers: &mut [u32]) -> &mut [u8] {
    let count = size_of_val(numbers);
    // SAFETY: pointer and count are those of the bytes of one live slice, lent
    // as long as these; any bytes make a number.
    unsafe { slice::from_raw_parts_mut(numbers.as_mut_ptr().cast(), count) }
}

/// The same of wider ones.
fn bytes_of_u64s(numbers: &mut [u64]) -> &mut [u8] {
    let count = size_of_val(numbers);
    // SAFETY: pointer and count are those of the bytes of one live slice, lent
    // as long as these; any bytes make a number.
    unsafe { slice::from_raw_parts_mut(numbers.as_mut_ptr().cast(), count) }
}
