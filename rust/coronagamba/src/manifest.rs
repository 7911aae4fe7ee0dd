//! The multi-resolution mesh manifest.

use crate::ffi;
use crate::numbers::FIELD_REAL;
use crate::refusal::{answer, given, written, Refusal};
use std::iter::FusedIterator;

/// The shape of the finest nodes and the origin of the grid.
#[derive(Clone, Copy, Debug, Default, PartialEq)]
pub struct Header {
    /// Extents of a node of level 0, along x, y, z.
    pub shape: [f32; 3],
    /// Where the octree begins.
    pub origin: [f32; 3],
}

/// A 4-byte item of a manifest, by its kind.
#[derive(Clone, Copy, Debug, PartialEq)]
pub enum Field {
    /// A real.
    Real(f32),
    /// A whole number.
    Whole(u32),
}

impl Field {
    /// The number, where it is a real.
    pub fn real(self) -> Option<f32> {
        match self {
            Field::Real(real) => Some(real),
            Field::Whole(_) => None,
        }
    }

    /// The number, where it is a whole one.
    pub fn whole(self) -> Option<u32> {
        match self {
            Field::Real(_) => None,
            Field::Whole(number) => Some(number),
        }
    }
}

/// A level of a manifest.
#[derive(Clone, Copy, Debug, Default, PartialEq)]
pub struct Level {
    /// Its scale.
    pub scale: f32,
    /// Its vertex offset along x, y, z.
    pub vertex_offset: [f32; 3],
    /// How many nodes it has.
    pub nodes: u32,
}

/// A node of a level.
#[derive(Clone, Copy, Debug, Default, PartialEq, Eq, Hash)]
pub struct Node {
    /// Its x, y, z position.
    pub position: [u32; 3],
    /// The size of its fragment in bytes.
    pub size: u32,
    /// Where its fragment starts: the sum of all earlier sizes.
    pub start: u64,
}

impl Node {
    /// A node from the numbers of [`Manifest::write_nodes_of`]; positions and
    /// sizes fit, as they stand in 4 bytes of the file.
    fn from_numbers([x, y, z, start, size]: [u64; 5]) -> Self {
        Node {
            position: [x, y, z].map(|number| number as u32),
            size: size as u32,
            start,
        }
    }
}

/// A node that [`Nodes`] comes to.
#[derive(Clone, Copy, Debug, Default, PartialEq, Eq, Hash)]
pub struct Visit {
    /// Its level, counted from 0.
    pub level: u32,
    /// Its number in the level, counted from 0.
    pub index: u32,
    /// The node.
    pub node: Node,
}

/// The corners of a node.
#[derive(Clone, Copy, Debug, Default, PartialEq)]
pub struct Corners {
    /// The corner next to the origin.
    pub near: [f32; 3],
    /// The opposite corner.
    pub far: [f32; 3],
}

/// A manifest's bytes. Opening judges nothing; each call checks them.
///
/// The example has a shape of 8 and an origin of 10 on each axis, and three
/// levels with a node in the last, at position 3, 3, 3.
///
/// ```
/// use coronagamba::Manifest;
///
/// let (shape, origin) = (8f32.to_bits(), 10f32.to_bits());
/// let mut items = vec![shape, shape, shape, origin, origin, origin, 3];
/// items.extend([0; 3 + 9]); // level scales and vertex offsets, all 0.0
/// items.extend([0, 0, 1]); // node counts
/// items.extend([3, 3, 3, 700]); // the node: x, y, z and the fragment's size
/// let bytes: Vec<u8> = items.iter().flat_map(|item| item.to_le_bytes()).collect();
///
/// let manifest = Manifest::open(&bytes);
/// manifest.check()?;
/// assert_eq!(manifest.header()?.origin, [10.0; 3]);
/// let corners = manifest.corners(2, 0)?;
/// assert_eq!((corners.near, corners.far), ([106.0; 3], [138.0; 3]));
/// assert_eq!(manifest.node(2, 1).unwrap_err().number, 18);
/// # Ok::<(), coronagamba::Refusal>(())
/// ```
#[derive(Clone, Copy, Debug)]
pub struct Manifest<'a> {
    bytes: &'a [u8],
}

impl<'a> Manifest<'a> {
    /// The manifest in these bytes.
    pub fn open(bytes: &'a [u8]) -> Self {
        Manifest { bytes }
    }

    /// The manifest's bytes.
    pub fn bytes(&self) -> &'a [u8] {
        self.bytes
    }

    /// Passes exactly the sound manifests, else refusal 15, 16 or 17.
    ///
    /// ```
    /// use coronagamba::Manifest;
    ///
    /// // No levels: shape 1, 1, 1, origin 0, 0, 0, level count 0.
    /// let one = 1f32.to_le_bytes();
    /// let bytes = [&one[..], &one, &one, &[0; 16]].concat();
    /// assert_eq!(bytes.len(), 28);
    /// assert_eq!(Manifest::open(&bytes).check(), Ok(()));
    /// assert_eq!(Manifest::open(&bytes[1..]).check().unwrap_err().number, 15);
    /// assert_eq!(Manifest::open(&[0; 28]).check().unwrap_err().number, 16);
    /// ```
    pub fn check(&self) -> Result<(), Refusal> {
        // SAFETY: pointer and count are those of one live slice.
        answer(unsafe { ffi::coronagamba_manifest_check(self.bytes.as_ptr(), self.bytes.len()) })
    }

    /// The shape and origin, or refusal 15, 16 or 17.
    pub fn header(&self) -> Result<Header, Refusal> {
        // SAFETY: pointer and count are those of one live slice; the result is
        // a live array, lent to this call alone.
        let bits = given(|bits| unsafe {
            ffi::coronagamba_manifest_header(self.bytes.as_ptr(), self.bytes.len(), bits)
        });
        bits.map(|bits: [u32; 6]| {
            let [x, y, z, u, v, w] = bits.map(f32::from_bits);
            Header {
                shape: [x, y, z],
                origin: [u, v, w],
            }
        })
    }

    /// The field of this number, counted from 0 in file order, or refusal 15
    /// to 18.
    ///
    /// ```
    /// use coronagamba::manifest::{Field, Manifest};
    ///
    /// let one = 1f32.to_le_bytes();
    /// let bytes = [&one[..], &one, &one, &[0; 16]].concat();
    /// let manifest = Manifest::open(&bytes);
    /// assert_eq!(manifest.field(0)?, Field::Real(1.0));
    /// assert_eq!(manifest.field(6)?, Field::Whole(0));
    /// assert_eq!(manifest.field(7).unwrap_err().number, 18);
    /// # Ok::<(), coronagamba::Refusal>(())
    /// ```
    pub fn field(&self, number: u64) -> Result<Field, Refusal> {
        // SAFETY: pointer and count are those of one live slice; the results
        // are two live numbers, lent to this call alone.
        let field = given(|(kind, value)| unsafe {
            ffi::coronagamba_manifest_field(
                self.bytes.as_ptr(),
                self.bytes.len(),
                narrowed(number),
                kind,
                value,
            )
        });
        field.map(|(kind, value)| {
            if kind == FIELD_REAL {
                Field::Real(f32::from_bits(value))
            } else {
                Field::Whole(value)
            }
        })
    }

    /// The levels, that of the finest nodes first, or refusal 15, 16 or 17.
    /// Each number is asked for as a field, and each of these calls checks the
    /// bytes.
    ///
    /// ```
    /// use coronagamba::Manifest;
    ///
    /// let real = f32::to_bits;
    /// let mut items = vec![real(1.0); 6]; // shape and origin
    /// items.push(1); // level count
    /// items.extend([real(2.5), real(0.0), real(0.5), real(-1.0)]); // scale, vertex offset
    /// items.extend([1, 0, 0, 0, 9]); // node count, and the node
    /// let bytes: Vec<u8> = items.iter().flat_map(|item| item.to_le_bytes()).collect();
    ///
    /// let levels = Manifest::open(&bytes).levels()?;
    /// assert_eq!(levels.len(), 1);
    /// assert_eq!(levels[0].scale, 2.5);
    /// assert_eq!(levels[0].vertex_offset, [0.0, 0.5, -1.0]);
    /// assert_eq!(levels[0].nodes, 1);
    /// # Ok::<(), coronagamba::Refusal>(())
    /// ```
    pub fn levels(&self) -> Result<Vec<Level>, Refusal> {
        let count = u64::from(self.whole(6)?);
        (0..count).map(|level| self.level(level, count)).collect()
    }

    /// A level of a manifest with that many, its fields counted as in the
    /// scope's order: 7 items, level scales, vertex offsets, node counts.
    fn level(&self, level: u64, count: u64) -> Result<Level, Refusal> {
        let offset = 7 + count + 3 * level;
        Ok(Level {
            scale: self.real(7 + level)?,
            vertex_offset: [
                self.real(offset)?,
                self.real(offset + 1)?,
                self.real(offset + 2)?,
            ],
            nodes: self.whole(7 + 4 * count + level)?,
        })
    }

    /// The field of this number, which the layout says is a real.
    fn real(&self, number: u64) -> Result<f32, Refusal> {
        let field = self.field(number)?;
        Ok(field.real().expect("the layout has a real here"))
    }

    /// The field of this number, which the layout says is a whole number.
    fn whole(&self, number: u64) -> Result<u32, Refusal> {
        let field = self.field(number)?;
        Ok(field.whole().expect("the layout has a whole number here"))
    }

    /// A node's position, fragment size and fragment start, or refusal 15 to
    /// 18.
    ///
    /// ```
    /// use coronagamba::Manifest;
    ///
    /// let real = f32::to_bits;
    /// let mut items = vec![real(1.0); 6]; // shape and origin
    /// items.extend([1, 0, 0, 0, 0, 2]); // level count, scale, vertex offset, node count
    /// items.extend([0, 1, 0, 0, 0, 0, 500, 80]); // two nodes: all x, y, z, all sizes
    /// let bytes: Vec<u8> = items.iter().flat_map(|item| item.to_le_bytes()).collect();
    ///
    /// let node = Manifest::open(&bytes).node(0, 1)?;
    /// assert_eq!((node.position, node.start, node.size), ([1, 0, 0], 500, 80));
    /// # Ok::<(), coronagamba::Refusal>(())
    /// ```
    pub fn node(&self, level: u64, node: u64) -> Result<Node, Refusal> {
        // SAFETY: pointer and count are those of one live slice; the results
        // are fields of a live node, lent to this call alone.
        given(|found: &mut Node| unsafe {
            ffi::coronagamba_manifest_node(
                self.bytes.as_ptr(),
                self.bytes.len(),
                narrowed(level),
                narrowed(node),
                &mut found.position,
                &mut found.start,
                &mut found.size,
            )
        })
    }

    /// Writes the nodes of a level, in their order, to the front of `out` and
    /// gives how many numbers these are, five for each node: x, y, z, where its
    /// fragment starts, and its fragment's size. Refusal 15 to 18, then 13 where
    /// `out` is too short; it is then as it was.
    pub fn write_nodes_of(&self, level: u64, out: &mut [u64]) -> Result<usize, Refusal> {
        // SAFETY: each pointer and count are those of one live slice; `out`
        // and the result are lent to this call alone.
        written(|length| unsafe {
            ffi::coronagamba_manifest_nodes(
                self.bytes.as_ptr(),
                self.bytes.len(),
                narrowed(level),
                out.as_mut_ptr(),
                out.len(),
                length,
            )
        })
    }

    /// The nodes of a level, in their order, or refusal 15 to 18. The bytes are
    /// checked twice, where [`node`](Manifest::node) checks them for each node.
    ///
    /// ```
    /// use coronagamba::Manifest;
    ///
    /// let real = f32::to_bits;
    /// let mut items = vec![real(1.0); 6]; // shape and origin
    /// items.extend([1, 0, 0, 0, 0, 2]); // level count, scale, vertex offset, node count
    /// items.extend([0, 1, 0, 0, 0, 0, 500, 80]); // two nodes: all x, y, z, all sizes
    /// let bytes: Vec<u8> = items.iter().flat_map(|item| item.to_le_bytes()).collect();
    ///
    /// let manifest = Manifest::open(&bytes);
    /// let nodes = manifest.nodes_of(0)?;
    /// assert_eq!(nodes.len(), 2);
    /// assert_eq!((nodes[1].position, nodes[1].start, nodes[1].size), ([1, 0, 0], 500, 80));
    /// assert_eq!(manifest.nodes_of(1).unwrap_err().number, 18);
    /// # Ok::<(), coronagamba::Refusal>(())
    /// ```
    pub fn nodes_of(&self, level: u64) -> Result<Vec<Node>, Refusal> {
        let mut numbers = self.room()?;
        let length = self.write_nodes_of(level, numbers.as_flattened_mut())?;
        numbers.truncate(length / 5);
        Ok(numbers.into_iter().map(Node::from_numbers).collect())
    }

    /// Room for the nodes of any level, each of which has 16 of the bytes, or
    /// refusal 15, 16 or 17: sound bytes are few enough to make room for.
    fn room(&self) -> Result<Vec<[u64; 5]>, Refusal> {
        self.check()?;
        Ok(vec![[0; 5]; self.bytes.len() / 16])
    }

    /// All nodes, level by level, or refusal 15, 16 or 17. The bytes are
    /// checked here and for each level, where [`node`](Manifest::node) checks
    /// them for each node.
    ///
    /// ```
    /// use coronagamba::Manifest;
    ///
    /// let real = f32::to_bits;
    /// let mut items = vec![real(1.0); 6]; // shape and origin
    /// items.extend([2, 0, 0, 0, 0, 0, 0, 0, 0]); // level count, scales, vertex offsets
    /// items.extend([2, 1]); // node counts
    /// items.extend([0, 1, 0, 0, 0, 0, 500, 80]); // two nodes: all x, y, z, all sizes
    /// items.extend([0, 0, 0, 90]); // one node
    /// let bytes: Vec<u8> = items.iter().flat_map(|item| item.to_le_bytes()).collect();
    ///
    /// let mut fragments = Vec::new();
    /// for visit in Manifest::open(&bytes).nodes()? {
    ///     fragments.push((visit.level, visit.index, visit.node.start, visit.node.size));
    /// }
    /// assert_eq!(fragments, [(0, 0, 0, 500), (0, 1, 500, 80), (1, 0, 580, 90)]);
    /// # Ok::<(), coronagamba::Refusal>(())
    /// ```
    pub fn nodes(&self) -> Result<Nodes<'a>, Refusal> {
        Ok(Nodes {
            manifest: *self,
            numbers: self.room()?,
            begun: 0,
            count: 0,
            index: 0,
        })
    }

    /// A node's corners, or refusal 15 to 18; 18 also where a position is 2^24
    /// or more or a corner is not finite.
    pub fn corners(&self, level: u64, node: u64) -> Result<Corners, Refusal> {
        // SAFETY: pointer and count are those of one live slice; the results
        // are two live arrays, lent to this call alone.
        let bits = given(|(near, far)| unsafe {
            ffi::coronagamba_manifest_corners(
                self.bytes.as_ptr(),
                self.bytes.len(),
                narrowed(level),
                narrowed(node),
                near,
                far,
            )
        });
        bits.map(|(near, far): ([u32; 3], [u32; 3])| Corners {
            near: near.map(f32::from_bits),
            far: far.map(f32::from_bits),
        })
    }
}

/// The nodes of a manifest, level by level, from [`Manifest::nodes`]. It holds
/// the numbers of one level at a time, in room for as many nodes as the bytes
/// could have, two and a half times their length.
#[derive(Clone, Debug)]
pub struct Nodes<'a> {
    manifest: Manifest<'a>,
    /// The nodes of the level that was begun last, and room behind them.
    numbers: Vec<[u64; 5]>,
    /// How many levels were begun.
    begun: u32,
    /// How many nodes that level has.
    count: usize,
    /// How many of them were handed out.
    index: usize,
}

impl Nodes<'_> {
    /// Begins the next level; `None` where there are no more.
    fn advance(&mut self) -> Option<()> {
        let out = self.numbers.as_flattened_mut();
        let length = match self.manifest.write_nodes_of(self.begun.into(), out) {
            Err(refusal) if refusal.number == 18 => return None,
            length => length.expect("a level of a sound manifest fits"),
        };
        self.begun += 1;
        self.count = length / 5;
        self.index = 0;
        Some(())
    }
}

impl Iterator for Nodes<'_> {
    type Item = Visit;

    fn next(&mut self) -> Option<Visit> {
        while self.index == self.count {
            self.advance()?;
        }
        let visit = Visit {
            level: self.begun - 1,
            index: self.index as u32,
            node: Node::from_numbers(self.numbers[self.index]),
        };
        self.index += 1;
        Some(visit)
    }
}

impl FusedIterator for Nodes<'_> {}

/// A number as the library takes it. No manifest of at most 16 MiB has a
/// level, node or field of the greatest one, so what does not fit is refused
/// as it should be.
pub(crate) fn narrowed(number: u64) -> u32 {
    u32::try_from(number).unwrap_or(u32::MAX)
}
