//! Questions in front of an input: how they are decoded, and written for
//! samples.
//!
//! What a question is made of is mostly preceded by a byte that says how it is
//! meant: as it stands, or as a choice among what the other numbers or the file
//! allow, so that any bytes ask deep questions as well. With that byte, a
//! specification takes 5 bytes, one of any kind 6, a volume 37, a cell 13, a
//! corner of a box 25, a layout of labels 30, a number 9 and the length of an
//! output 3. A wish to drop unlisted bytes is a byte, odd where it is one.

use reference::grid::{grid_size, key_bits, key_of, Cell, Volume};
use reference::labels::Layout;
use reference::sharding::{Sharding, MESH, MOST_MINISHARD_BITS, VOLUME};
use testkit::{manifests, shards, Rng};

/// The longest answer for which a whole output is lent: twice the longest
/// shard index, so that settled forms of every specification are.
pub const LONGEST_ANSWER: usize = 32 << MOST_MINISHARD_BITS;

/// The front of any bytes, taken number by number.
pub struct Reader<'a> {
    rest: &'a [u8],
}

impl<'a> Reader<'a> {
    pub fn new(bytes: &'a [u8]) -> Self {
        Reader { rest: bytes }
    }

    /// The next bytes; those that are not there count as 0.
    fn take<const N: usize>(&mut self) -> [u8; N] {
        let (front, rest) = self.rest.split_at(N.min(self.rest.len()));
        self.rest = rest;
        std::array::from_fn(|i| front.get(i).copied().unwrap_or(0))
    }

    pub fn byte(&mut self) -> u8 {
        let [byte] = self.take();
        byte
    }

    pub fn number(&mut self) -> u64 {
        u64::from_le_bytes(self.take())
    }

    fn words(&mut self) -> [u32; 3] {
        std::array::from_fn(|_| u32::from_le_bytes(self.take()))
    }

    /// Four numbers of 32 bits.
    pub fn four(&mut self) -> [u32; 4] {
        std::array::from_fn(|_| u32::from_le_bytes(self.take()))
    }

    /// A layout of labels as it stands, or brought to a few voxels.
    pub fn layout(&mut self) -> Layout {
        let kind = self.byte();
        let brought = |number: u32, limit: u32| match kind % 2 {
            1 => 1 + number % limit,
            _ => number,
        };
        Layout {
            size: self.words().map(|extent| brought(extent, 9)),
            block: self.words().map(|extent| brought(extent, 5)),
            channels: brought(u32::from_le_bytes(self.take()), 3),
            wide: self.byte() % 2 == 1,
        }
    }

    /// A specification of a volume, as it stands or brought into its limits.
    pub fn sharding(&mut self) -> Sharding {
        let brought = self.byte() % 2 == 1;
        self.fields(brought)
    }

    /// A specification of any kind, likewise.
    pub fn sharding_of_kinds(&mut self) -> Sharding {
        let brought = self.byte() % 2 == 1;
        let sharding = self.fields(brought);
        let kind = within(brought, self.byte(), MESH);
        Sharding { kind, ..sharding }
    }

    /// The fields of a volume's specification.
    fn fields(&mut self, brought: bool) -> Sharding {
        let [preshift, hash, minishard_bits, shard_bits] = self.take();
        Sharding {
            preshift: within(brought, preshift, 63),
            hash: within(brought, hash, 1),
            minishard_bits: within(brought, minishard_bits, MOST_MINISHARD_BITS),
            shard_bits: within(brought, shard_bits, 32),
            kind: VOLUME,
        }
    }

    /// A volume as it stands, or with no extent of 0.
    pub fn volume(&mut self) -> Volume {
        let least = u32::from(self.byte() % 2);
        Volume {
            size: self.words().map(|extent| extent.max(least)),
            chunk: self.words().map(|extent| extent.max(least)),
            offset: self.words().map(|number| number as i32),
        }
    }

    pub fn spot(&mut self) -> Spot {
        Spot {
            kind: self.byte(),
            cell: self.words(),
        }
    }

    /// All spots that are left.
    pub fn spots(mut self) -> impl Iterator<Item = Spot> + use<'a> {
        std::iter::from_fn(move || (!self.rest.is_empty()).then(|| self.spot()))
    }

    pub fn corner(&mut self) -> Corner {
        Corner {
            kind: self.byte(),
            voxel: std::array::from_fn(|_| self.number() as i64),
        }
    }

    pub fn choice(&mut self) -> Choice {
        Choice {
            kind: self.byte(),
            number: self.number(),
        }
    }

    pub fn room(&mut self) -> Room {
        Room {
            kind: self.byte(),
            number: u16::from_le_bytes(self.take()),
        }
    }

    /// Whether unlisted bytes are to be dropped.
    pub fn dropping(&mut self) -> bool {
        self.byte() % 2 == 1
    }

    /// Whether nothing is left.
    pub fn is_empty(&self) -> bool {
        self.rest.is_empty()
    }

    /// What is left.
    pub fn rest(self) -> &'a [u8] {
        self.rest
    }
}

/// A field as it stands, or brought into its limits.
fn within(brought: bool, field: u8, limit: u8) -> u8 {
    if brought {
        field % (limit + 1)
    } else {
        field
    }
}

/// A sample while it is written.
#[derive(Default)]
pub struct Writer {
    bytes: Vec<u8>,
}

impl Writer {
    pub fn new() -> Self {
        Writer::default()
    }

    pub fn byte(mut self, byte: u8) -> Self {
        self.bytes.push(byte);
        self
    }

    pub fn number(self, number: u64) -> Self {
        self.rest(&number.to_le_bytes())
    }

    fn words(self, words: [u32; 3]) -> Self {
        self.rest(&words.map(u32::to_le_bytes).concat())
    }

    pub fn sharding(self, sharding: &Sharding) -> Self {
        self.byte(0)
            .byte(sharding.preshift)
            .byte(sharding.hash)
            .byte(sharding.minishard_bits)
            .byte(sharding.shard_bits)
    }

    pub fn sharding_of_kinds(self, sharding: &Sharding) -> Self {
        self.sharding(sharding).byte(sharding.kind)
    }

    pub fn volume(self, volume: &Volume) -> Self {
        self.byte(0)
            .words(volume.size)
            .words(volume.chunk)
            .words(volume.offset.map(|number| number as u32))
    }

    pub fn four(self, numbers: [u32; 4]) -> Self {
        self.rest(&numbers.map(u32::to_le_bytes).concat())
    }

    pub fn layout(self, layout: &Layout) -> Self {
        self.byte(0)
            .words(layout.size)
            .words(layout.block)
            .rest(&layout.channels.to_le_bytes())
            .byte(layout.wide.into())
    }

    pub fn spot(self, spot: Spot) -> Self {
        self.byte(spot.kind).words(spot.cell)
    }

    pub fn corner(self, Corner { kind, voxel }: Corner) -> Self {
        let begun = self.byte(kind);
        voxel
            .into_iter()
            .fold(begun, |writer, number| writer.number(number as u64))
    }

    pub fn choice(self, choice: Choice) -> Self {
        self.byte(choice.kind).number(choice.number)
    }

    pub fn room(self, room: Room) -> Self {
        self.byte(room.kind).rest(&room.number.to_le_bytes())
    }

    pub fn rest(mut self, bytes: &[u8]) -> Self {
        self.bytes.extend(bytes);
        self
    }

    pub fn finish(self) -> Vec<u8> {
        self.bytes
    }
}

/// A cell, to be chosen on each axis.
pub struct Spot {
    kind: u8,
    cell: Cell,
}

impl Spot {
    /// This cell, brought into the grid on each axis, or the last one there.
    pub fn inside(rng: &mut Rng, cell: Cell) -> Self {
        let kind = *rng.pick(&[0b010101, 0b010110, 0b011001, 0b100101]);
        Spot { kind, cell }
    }

    /// This cell as it stands, or mostly inside the grid.
    pub fn draw(rng: &mut Rng, cell: Cell) -> Self {
        let mut kind = 0;
        if rng.once_in(2) {
            for _ in 0..3 {
                kind = kind << 2 | rng.pick(&[0, 1, 1, 1, 1, 1, 2, 2, 2, 3]);
            }
        }
        Spot { kind, cell }
    }

    /// On each axis the number as it stands, one inside the grid, the last
    /// one, or the first beyond it.
    pub fn cell(&self, volume: &Volume) -> Cell {
        let Ok(grid) = grid_size(volume) else {
            return self.cell;
        };
        std::array::from_fn(|axis| match self.kind >> (2 * axis) & 3 {
            0 => self.cell[axis],
            1 => self.cell[axis] % grid[axis],
            2 => grid[axis] - 1,
            _ => grid[axis],
        })
    }
}

/// A corner of a box, to be chosen on each axis.
#[derive(Clone, Copy)]
pub struct Corner {
    kind: u8,
    voxel: [i64; 3],
}

impl Corner {
    /// These voxels, as they stand.
    pub fn plain(voxel: [i64; 3]) -> Self {
        Corner { kind: 0, voxel }
    }

    /// Any numbers, or places in or near the volume.
    pub fn draw(rng: &mut Rng) -> Self {
        let mut kind = 0;
        for _ in 0..3 {
            kind = kind << 2 | rng.pick(&[0, 1, 1, 1, 2, 2, 3]);
        }
        Corner {
            kind,
            voxel: std::array::from_fn(|_| rng.edge_u64() as i64),
        }
    }

    /// The far corner of a box that has this one: a few cells further on each
    /// axis, or a few voxels.
    pub fn beyond(&self, rng: &mut Rng, volume: &Volume) -> Self {
        let near = self.voxel(volume);
        Corner::plain(std::array::from_fn(|axis| {
            let chunk = u64::from(volume.chunk[axis]);
            let by = match rng.below(3) {
                0 => rng.below(4),
                1 => chunk * rng.below(6),
                _ => rng.below(8 * chunk + 1),
            };
            near[axis].saturating_add(by as i64)
        }))
    }

    /// On each axis the number as it stands, a place in the volume or one
    /// voxel beside it, such a place in its first cells, or one a few voxels
    /// from where a cell begins.
    pub fn voxel(&self, volume: &Volume) -> [i64; 3] {
        std::array::from_fn(|axis| {
            let number = self.voxel[axis];
            let offset = i64::from(volume.offset[axis]);
            let (size, chunk) = (volume.size[axis], volume.chunk[axis].max(1));
            let within = |limit: u64| (number as u64 % limit) as i64;
            let few = u64::from(chunk).saturating_mul(5).min(size.into());
            match self.kind >> (2 * axis) & 3 {
                0 => number,
                1 => offset - 1 + within(u64::from(size) + 3),
                2 => offset - 1 + within(few + 3),
                _ => {
                    let cell = within(u64::from(size / chunk) + 1);
                    offset + cell * i64::from(chunk) + number.rem_euclid(5) - 2
                }
            }
        })
    }
}

/// A number, to be chosen among those that fit the rest of the question.
#[derive(Clone, Copy)]
pub struct Choice {
    kind: u8,
    number: u64,
}

impl Choice {
    /// This number as it stands.
    pub fn plain(number: u64) -> Self {
        Choice { kind: 0, number }
    }

    /// This number as it stands, mostly.
    pub fn draw_near(rng: &mut Rng, number: u64) -> Self {
        if rng.once_in(8) {
            Choice::draw(rng, number)
        } else {
            Choice::plain(number)
        }
    }

    /// This number as it stands, half of the time, else another choice.
    pub fn draw(rng: &mut Rng, number: u64) -> Self {
        if rng.once_in(2) {
            return Choice::plain(number);
        }
        Choice {
            kind: *rng.pick(&[0, 1, 1, 2, 3, 3]),
            number: rng.edge_u64(),
        }
    }

    /// This number as it stands, now and then, else another choice.
    pub fn draw_other(rng: &mut Rng, number: u64) -> Self {
        Choice {
            kind: *rng.pick(&[0, 1, 1, 2, 2, 2, 2, 3, 3]),
            number,
        }
    }

    /// The number as it stands, one below the limit, the limit or a little
    /// more, or the one that is made elsewhere.
    fn below(&self, limit: u64, made: impl FnOnce() -> Option<u64>) -> u64 {
        match self.kind % 4 {
            1 => self.number % limit.max(1),
            2 => limit.saturating_add(self.number % 4),
            3 => made().unwrap_or(self.number),
            _ => self.number,
        }
    }

    /// A key: as it stands, one of the grid's bits, just beyond them, or that
    /// of a cell.
    pub fn key(&self, volume: &Volume) -> u64 {
        let Ok(grid) = grid_size(volume) else {
            return self.number;
        };
        let bits = key_bits(grid) as u32;
        let limit = 1u64.checked_shl(bits).unwrap_or(u64::MAX);
        self.below(limit, || {
            let coordinate = |axis: usize| (self.number >> (21 * axis)) as u32 % grid[axis];
            key_of(volume, std::array::from_fn(coordinate)).ok()
        })
    }

    /// Where a row of cells ends that begins here: as it stands, some cells
    /// further, at most at the grid's end, or at that end or one past it.
    pub fn row_end(&self, volume: &Volume, from: u32) -> u32 {
        let end = grid_size(volume).map_or(0, |[x, ..]| x);
        let further = from.saturating_add((self.number % 300) as u32);
        match self.kind % 4 {
            0 => self.number as u32,
            1 => further,
            2 => further.min(end),
            _ => end.saturating_add((self.number % 2) as u32),
        }
    }

    /// A shard number: as it stands, one of the specification's, just beyond
    /// them, or that of an id that the file lists.
    pub fn shard(&self, sharding: &Sharding, file: &[u8]) -> u64 {
        if sharding.allowed().is_err() {
            return self.number;
        }
        self.below(sharding.shard_count(), || {
            let id = shards::listed_id(sharding, file, self.number)?;
            Some(sharding.place(id).shard)
        })
    }

    /// A minishard number, likewise.
    pub fn minishard(&self, sharding: &Sharding, file: &[u8]) -> u64 {
        if sharding.allowed().is_err() {
            return self.number;
        }
        self.below(sharding.minishard_count(), || {
            let id = shards::listed_id(sharding, file, self.number)?;
            Some(sharding.place(id).minishard)
        })
    }

    /// An id: as it stands, one that the file lists, or the next one to it.
    pub fn id(&self, sharding: &Sharding, file: &[u8]) -> u64 {
        let step = match self.kind % 4 {
            0 => return self.number,
            2 if self.number.count_ones().is_multiple_of(2) => 1,
            2 => u64::MAX,
            _ => 0,
        };
        let listed = shards::listed_id(sharding, file, self.number);
        listed.map_or(self.number, |id| id.wrapping_add(step))
    }

    /// An id: as it stands, or one that this other one is near.
    pub fn near(&self, other: u64) -> u64 {
        match self.kind % 4 {
            0 => self.number,
            1 => other.wrapping_add(self.number % 70),
            2 => other,
            _ => other.wrapping_sub(self.number % 70),
        }
    }

    /// A number of this many: as it stands, one of them, or just beyond them.
    pub fn of(&self, count: u64) -> u64 {
        self.below(count, || count.checked_sub(1))
    }

    /// Where a file of this length is cut in two: where its shard index ends, a
    /// few bytes from there, or anywhere.
    pub fn seam(&self, sharding: &Sharding, length: usize) -> usize {
        let end = match sharding.allowed() {
            Ok(()) => sharding.index_end(),
            Err(_) => 16,
        };
        let at = match self.kind % 4 {
            2 => (end + self.number % 5).saturating_sub(2),
            3 => self.number % (length as u64 + 1),
            _ => end,
        };
        at.min(length as u64) as usize
    }

    /// Where a range of a joined file begins or ends: a number as it stands, one
    /// in the file or just past it, or one a few bytes from the seam or from the
    /// end.
    pub fn bound(&self, seam: u64, all: u64) -> u64 {
        match self.kind % 4 {
            1 => self.number % (all + 2),
            2 => (seam + self.number % 5).saturating_sub(2),
            3 => (all + self.number % 5).saturating_sub(2),
            _ => self.number,
        }
    }

    /// A level of the manifest.
    pub fn level(&self, bytes: &[u8]) -> u64 {
        self.of(u64::from(manifests::levels_said(bytes)))
    }

    /// A node of a level of the manifest.
    pub fn node(&self, bytes: &[u8], level: u64) -> u64 {
        self.of(u64::from(manifests::nodes_said(bytes, level)))
    }
}

/// How long an output to lend is.
#[derive(Clone, Copy)]
pub struct Room {
    kind: u8,
    number: u16,
}

impl Room {
    /// Any length, mostly around the needed one.
    pub fn draw(rng: &mut Rng) -> Self {
        Room {
            kind: rng.below(4) as u8,
            number: rng.edge(7) as u16,
        }
    }

    /// The needed length or a little more.
    pub fn more(rng: &mut Rng) -> Self {
        Room {
            kind: *rng.pick(&[1, 3]),
            number: rng.edge(7) as u16,
        }
    }

    /// A length for an answer of this length: any, just this one, a little
    /// less, or more. Where the answer is very long, it is too short.
    pub fn length(&self, needed: usize) -> usize {
        let number = usize::from(self.number);
        match self.kind % 4 {
            _ if needed > LONGEST_ANSWER => number,
            1 => needed,
            2 => needed.saturating_sub(1 + number % 8),
            3 => needed + number % 64,
            _ => number,
        }
    }
}

#[cfg(test)]
mod tests {
    use super::*;
    use testkit::places;

    #[test]
    fn missing_bytes_count_as_0() {
        let mut reader = Reader::new(&[5, 1]);
        assert_eq!(reader.number(), 0x0105);
        assert_eq!((reader.byte(), reader.number()), (0, 0));
        assert_eq!(reader.rest(), []);
        assert_eq!(Reader::new(&[]).sharding().allowed(), Ok(()));
    }

    #[test]
    fn what_is_written_is_read() {
        let mut rng = Rng::new(1);
        for _ in 0..10_000 {
            let (sharding, volume) = (places::wild_sharding(&mut rng), places::volume(&mut rng));
            let mesh = Sharding {
                kind: places::kind(&mut rng),
                ..sharding
            };
            let (cell, number) = (places::cell(&mut rng, &volume), rng.edge_u64());
            let voxel = [number as i64, rng.edge_u64() as i64, i64::MIN];
            let bytes = Writer::new()
                .sharding(&sharding)
                .sharding_of_kinds(&mesh)
                .volume(&volume)
                .spot(Spot { kind: 0, cell })
                .corner(Corner::plain(voxel))
                .choice(Choice::plain(number))
                .room(Room {
                    kind: 1,
                    number: 77,
                })
                .rest(b"file")
                .finish();
            assert_eq!(bytes.len(), 5 + 6 + 37 + 13 + 25 + 9 + 3 + 4);
            let mut reader = Reader::new(&bytes);
            assert_eq!(reader.sharding(), sharding);
            assert_eq!(reader.sharding_of_kinds(), mesh);
            assert_eq!(reader.volume(), volume);
            assert_eq!(reader.spot().cell(&volume), cell);
            assert_eq!(reader.corner().voxel(&volume), voxel);
            assert_eq!(reader.choice().key(&volume), number);
            assert_eq!(reader.room().length(9), 9);
            assert_eq!(reader.rest(), b"file");
        }
    }

    #[test]
    fn specifications_and_volumes_brought_into_limits() {
        let mut rng = Rng::new(2);
        for _ in 0..10_000 {
            let mut bytes = rng.bytes(6);
            bytes[0] = 1;
            assert_eq!(Reader::new(&bytes).sharding().allowed(), Ok(()));
            let of_kinds = Reader::new(&bytes).sharding_of_kinds();
            assert_eq!(of_kinds.allowed(), Ok(()));
            assert_eq!(of_kinds.kind, bytes[5] % 2);
        }
        assert!(grid_size(&Reader::new(&[1]).volume()).is_ok());
    }

    /// Grid 5, 3, 1 has five key bits; its keys are those of the scope's cases.
    const SMALL: Volume = Volume {
        size: [5, 3, 1],
        chunk: [1; 3],
        offset: [0; 3],
    };

    #[test]
    fn cells_and_keys_are_chosen() {
        let spot = |kind| Spot {
            kind,
            cell: [14, 14, 14],
        };
        assert_eq!(spot(0).cell(&SMALL), [14, 14, 14]);
        assert_eq!(spot(0b010101).cell(&SMALL), [4, 2, 0]);
        assert_eq!(spot(0b101010).cell(&SMALL), [4, 2, 0]);
        assert_eq!(spot(0b111111).cell(&SMALL), [5, 3, 1]);
        let key = |kind, number| Choice { kind, number }.key(&SMALL);
        assert_eq!(key(0, 70), 70);
        assert_eq!(key(1, 70), 6);
        assert_eq!(key(2, 70), 34);
        assert_eq!(key(3, 9 | 5 << 21), 24);
    }

    #[test]
    fn ends_of_rows_are_chosen() {
        let end = |kind, number| Choice { kind, number }.row_end(&SMALL, 3);
        let ends = [
            (0, 70),
            (0, 1 << 32 | 9),
            (1, 304),
            (2, 304),
            (3, 6),
            (3, 7),
        ];
        assert_eq!(
            ends.map(|(kind, number)| end(kind, number)),
            [70, 9, 7, 5, 5, 6]
        );
    }

    #[test]
    fn ids_shards_and_minishards_are_chosen() {
        let sharding = Sharding {
            preshift: 0,
            hash: 0,
            minishard_bits: 1,
            shard_bits: 2,
            kind: 0,
        };
        // Minishard 1 lists ids 13 and 21, which belong to shard 2.
        let rows = [0, 0, 0, 48, 13, 8, 0, 0, 0, 0u64];
        let file: Vec<u8> = rows.into_iter().flat_map(u64::to_le_bytes).collect();
        let choice = |kind, number| Choice { kind, number };
        let ids = [(0, 6), (1, 6), (1, 7), (3, 7), (2, 3), (2, 1)];
        let ids = ids.map(|(kind, number)| choice(kind, number).id(&sharding, &file));
        assert_eq!(ids, [6, 13, 21, 21, 22, 20]);
        let shards = [(0, 9), (1, 9), (2, 9), (3, 9)];
        let shards = shards.map(|(kind, number)| choice(kind, number).shard(&sharding, &file));
        assert_eq!(shards, [9, 1, 5, 2]);
        let minishards = [(0, 9), (1, 9), (2, 9), (3, 9)];
        let minishards =
            minishards.map(|(kind, number)| choice(kind, number).minishard(&sharding, &file));
        assert_eq!(minishards, [9, 1, 3, 1]);
    }

    #[test]
    fn seams_and_ends_of_ranges_are_chosen() {
        let sharding = Sharding {
            preshift: 0,
            hash: 0,
            minishard_bits: 1,
            shard_bits: 0,
            kind: 0,
        };
        let seam = |kind, number, length| Choice { kind, number }.seam(&sharding, length);
        let seams = [(0, 9, 90), (1, 9, 90), (2, 9, 90), (2, 0, 90), (3, 92, 90)];
        let seams = seams.map(|(kind, number, length)| seam(kind, number, length));
        assert_eq!(seams, [32, 32, 34, 30, 1]);
        assert_eq!(seam(0, 0, 31), 31);
        let bound = |kind, number| Choice { kind, number }.bound(32, 90);
        let bounds = [(0, 500), (1, 91), (1, 92), (2, 0), (2, 4), (3, 2), (3, 3)];
        let bounds = bounds.map(|(kind, number)| bound(kind, number));
        assert_eq!(bounds, [500, 91, 0, 30, 34, 90, 91]);
    }

    #[test]
    fn rooms_are_around_the_need_and_never_large() {
        let room = |kind, number| Room { kind, number };
        assert_eq!(room(0, 500).length(20), 500);
        assert_eq!(room(1, 500).length(20), 20);
        assert_eq!(room(2, 0).length(20), 19);
        assert_eq!(room(2, 500).length(2), 0);
        assert_eq!(room(3, 65).length(20), 21);
        for kind in 0..=u8::MAX {
            for needed in [0, 1, LONGEST_ANSWER, LONGEST_ANSWER + 1, 1 << 30] {
                let length = room(kind, u16::MAX).length(needed);
                assert!(length <= LONGEST_ANSWER + 63, "{kind} {needed}");
            }
        }
    }
}
