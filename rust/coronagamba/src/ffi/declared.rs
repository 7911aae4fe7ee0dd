//! The functions of the C archive.
//!
//! Made by ./interface: change crates/coronagamba or rust/interface, then run it.

use crate::{CSharding, Cell, Extents, Offset, Point, Volume};
use std::mem::{align_of, offset_of, size_of};

// The crate's structs have the fields and the layout that C gives them.
const _: fn(CSharding) = |given| {
    let CSharding {
        preshift,
        hash,
        minishard_bits,
        shard_bits,
        kind,
    } = given;
    let _: (u32, u32, u32, u32, u32) = (preshift, hash, minishard_bits, shard_bits, kind);
};
const _: () = {
    assert!(offset_of!(CSharding, preshift) == 0);
    assert!(offset_of!(CSharding, hash) == 4);
    assert!(offset_of!(CSharding, minishard_bits) == 8);
    assert!(offset_of!(CSharding, shard_bits) == 12);
    assert!(offset_of!(CSharding, kind) == 16);
    assert!(size_of::<CSharding>() == 20);
    assert!(align_of::<CSharding>() == 4);
};
const _: fn(Extents) = |given| {
    let Extents { x, y, z } = given;
    let _: (u32, u32, u32) = (x, y, z);
};
const _: () = {
    assert!(offset_of!(Extents, x) == 0);
    assert!(offset_of!(Extents, y) == 4);
    assert!(offset_of!(Extents, z) == 8);
    assert!(size_of::<Extents>() == 12);
    assert!(align_of::<Extents>() == 4);
};
const _: fn(Offset) = |given| {
    let Offset { x, y, z } = given;
    let _: (i32, i32, i32) = (x, y, z);
};
const _: () = {
    assert!(offset_of!(Offset, x) == 0);
    assert!(offset_of!(Offset, y) == 4);
    assert!(offset_of!(Offset, z) == 8);
    assert!(size_of::<Offset>() == 12);
    assert!(align_of::<Offset>() == 4);
};
const _: fn(Volume) = |given| {
    let Volume {
        size,
        chunk,
        offset,
    } = given;
    let _: (Extents, Extents, Offset) = (size, chunk, offset);
};
const _: () = {
    assert!(offset_of!(Volume, size) == 0);
    assert!(offset_of!(Volume, chunk) == 12);
    assert!(offset_of!(Volume, offset) == 24);
    assert!(size_of::<Volume>() == 36);
    assert!(align_of::<Volume>() == 4);
};
const _: fn(Cell) = |given| {
    let Cell { x, y, z } = given;
    let _: (u32, u32, u32) = (x, y, z);
};
const _: () = {
    assert!(offset_of!(Cell, x) == 0);
    assert!(offset_of!(Cell, y) == 4);
    assert!(offset_of!(Cell, z) == 8);
    assert!(size_of::<Cell>() == 12);
    assert!(align_of::<Cell>() == 4);
};
const _: fn(Point) = |given| {
    let Point { x, y, z } = given;
    let _: (i64, i64, i64) = (x, y, z);
};
const _: () = {
    assert!(offset_of!(Point, x) == 0);
    assert!(offset_of!(Point, y) == 8);
    assert!(offset_of!(Point, z) == 16);
    assert!(size_of::<Point>() == 24);
    assert!(align_of::<Point>() == 8);
};

extern "C" {
    /// The version of the library that is linked or loaded: patch + 2^16 * minor + 2^32 * major. It
    /// is CORONAGAMBA_VERSION where the header belongs to that library.
    ///
    /// Refusals: none
    pub fn coronagamba_version() -> u64;

    /// How many cells the volume has. Writes the numbers along x, y and z to `grid`.
    ///
    /// Refusals: 2 where an extent is 0
    pub fn coronagamba_grid_of(volume: Volume, grid: *mut [u32; 3]) -> u64;

    /// The key of a cell: its compressed Morton code. Writes it to `key`.
    ///
    /// Refusals: 2, 3
    pub fn coronagamba_key_of(volume: Volume, cell: Cell, key: *mut u64) -> u64;

    /// The keys of many cells, in their order. `cells` holds x, y and z of each cell in turn, three
    /// numbers for a cell; one or two left over are no cell. Writes the keys to the front of
    /// `keys`, and their number to `length`. The volume is judged also where there is no cell.
    ///
    /// Refusals: 2 where an extent is 0 or any cell is outside the grid, 3, 13 where `keys` has
    /// room for fewer
    pub fn coronagamba_keys_of(
        volume: Volume,
        cells: *const u32,
        count: usize,
        keys: *mut u64,
        keys_count: usize,
        length: *mut u64,
    ) -> u64;

    /// The keys of a row of cells: x rises from `from` up to `to`, that end excluded, at one `y`
    /// and `z`. A row whose end is not past its begin has no cell. Writes the keys to the front of
    /// `keys`, and their number to `length`. The volume is judged also where there is no cell.
    ///
    /// Refusals: 2 where an extent is 0 or any cell is outside the grid, 3, 13 where `keys` has
    /// room for fewer
    pub fn coronagamba_row_keys(
        volume: Volume,
        from: u32,
        to: u32,
        y: u32,
        z: u32,
        keys: *mut u64,
        count: usize,
        length: *mut u64,
    ) -> u64;

    /// The chunks that cover a box: the keys of all cells that share a voxel with it, rising, each
    /// once. The box begins at `lower` and ends at `upper`, that end excluded along each axis, in
    /// voxels, the volume's offset included. An empty or reversed box, and one outside the volume,
    /// has none. Writes the keys to the front of `keys`, and their number to `length`. Takes time
    /// by the keys that it writes and their bits, whatever the box and the grid.
    ///
    /// Refusals: 2 where an extent is 0, 3, 13 where `keys` has room for fewer
    pub fn coronagamba_cover(
        volume: Volume,
        lower: Point,
        upper: Point,
        keys: *mut u64,
        count: usize,
        length: *mut u64,
    ) -> u64;

    /// The cell of a key. Writes its x, y and z to `cell`.
    ///
    /// Refusals: 2 where an extent is 0, 3, 4
    pub fn coronagamba_cell_of(volume: Volume, key: u64, cell: *mut [u32; 3]) -> u64;

    /// Where a cell lies, in voxels, the volume's offset included. Writes where it begins along x,
    /// y and z to `begin` and where it ends, that voxel excluded, to `end`.
    ///
    /// Refusals: 2
    pub fn coronagamba_bounds_of(
        volume: Volume,
        cell: Cell,
        begin: *mut [i64; 3],
        end: *mut [i64; 3],
    ) -> u64;

    /// The shard and the minishard of an id. Writes them to `shard` and `minishard`.
    ///
    /// Refusals: 1
    pub fn coronagamba_place_of(
        sharding: CSharding,
        id: u64,
        shard: *mut u64,
        minishard: *mut u64,
    ) -> u64;

    /// The shards and the minishards of many ids, in their order. Writes them to the front of
    /// `shards` and of `minishards`, and their number to `length`.
    ///
    /// Refusals: 1, 13 where `shards` or `minishards` has room for fewer
    pub fn coronagamba_places_of(
        sharding: CSharding,
        ids: *const u64,
        count: usize,
        shards: *mut u64,
        shards_count: usize,
        minishards: *mut u64,
        minishards_count: usize,
        length: *mut u64,
    ) -> u64;

    /// The file name of a cell's chunk where chunks are not sharded. Writes its ASCII bytes, at
    /// most 71 and with no 0 byte behind them, to the front of `out`, and their number to `length`.
    ///
    /// Refusals: 2, 13 where `out` is shorter than the name
    pub fn coronagamba_chunk_name(
        volume: Volume,
        cell: Cell,
        out: *mut u8,
        count: usize,
        length: *mut u64,
    ) -> u64;

    /// The file name of a shard. Writes its ASCII bytes, at most 14 and with no 0 byte behind them,
    /// to the front of `out`, and their number to `length`.
    ///
    /// Refusals: 1, 5, 13 where `out` is shorter than the name
    pub fn coronagamba_shard_name(
        sharding: CSharding,
        shard: u64,
        out: *mut u8,
        count: usize,
        length: *mut u64,
    ) -> u64;

    /// Where the chunk of an id lies in the shard's file; in a mesh the chunk is a manifest. Writes
    /// where it begins, counted from the file's first byte, to `start`, and its number of bytes to
    /// `length`. Of the minishards it judges the id's own alone.
    ///
    /// Refusals: 1, 5, 6, 7 to 11, 15 to 17 (mesh), 21 (mesh) of the id's minishard with the
    /// position, 12
    pub fn coronagamba_lookup(
        sharding: CSharding,
        shard: u64,
        file: *const u8,
        count: usize,
        id: u64,
        start: *mut u64,
        length: *mut u64,
    ) -> u64;

    /// Where the fragment of a node lies in a mesh shard's file, by the id of its manifest, its
    /// level and its number, both counted from 0. A manifest's fragments are the bytes right before
    /// it, as many as its sizes make together, one after the other in the order of its nodes.
    /// Writes where the fragment begins, counted from the file's first byte, to `start`, and its
    /// number of bytes to `length`. Of the minishards it judges the id's own alone.
    ///
    /// Refusals: 1, 5, 6, 7 to 11, 15 to 17 (mesh), 21 (mesh) of the id's minishard with the
    /// position, 12, 18 also where the kind is volume
    pub fn coronagamba_fragment(
        sharding: CSharding,
        shard: u64,
        file: *const u8,
        count: usize,
        id: u64,
        level: u32,
        node: u32,
        start: *mut u64,
        length: *mut u64,
    ) -> u64;

    /// Whether the whole shard is sound; in a mesh each chunk must be a sound manifest with its
    /// fragments before it. Writes nothing. Where a minishard has a fault, the answer word names
    /// the first such minishard and the position.
    ///
    /// Refusals: 1, 5, 6, 7 to 11, 15 to 17 (mesh), 21 (mesh) with the minishard and the position
    pub fn coronagamba_check(sharding: CSharding, shard: u64, file: *const u8, count: usize)
        -> u64;

    /// How many chunks a minishard lists. Writes the number to `chunks`.
    ///
    /// Refusals: 1, 5, 33 for a minishard that is not there, 6, 7 to 11, 15 to 17 (mesh), 21 (mesh)
    /// of that minishard with the position
    pub fn coronagamba_listed_count(
        sharding: CSharding,
        shard: u64,
        file: *const u8,
        count: usize,
        minishard: u64,
        chunks: *mut u64,
    ) -> u64;

    /// The chunks that a minishard lists, in stored order. Writes three numbers for each to the
    /// front of `out`: id, start counted from the file's first byte, length in bytes. Writes how
    /// many numbers these are, three times what coronagamba_listed_count gives, to `length`.
    ///
    /// Refusals: 1, 5, 33 for a minishard that is not there, 6, 7 to 11, 15 to 17 (mesh), 21 (mesh)
    /// of that minishard with the position, 13 where `out` has room for fewer
    pub fn coronagamba_listing(
        sharding: CSharding,
        shard: u64,
        file: *const u8,
        count: usize,
        minishard: u64,
        out: *mut u64,
        out_count: usize,
        length: *mut u64,
    ) -> u64;

    /// How many bytes of a shard are unlisted: they lie past the shard index in no listed chunk, no
    /// fragment and no nonempty minishard index. Writes the number to `bytes`. Takes at most 512
    /// KiB of stack, as no call of this library takes more.
    ///
    /// Refusals: 1, 5, 6, 7 to 11, 15 to 17 (mesh), 21 (mesh) of the first faulty minishard with
    /// the position
    pub fn coronagamba_unlisted(
        sharding: CSharding,
        shard: u64,
        file: *const u8,
        count: usize,
        bytes: *mut u64,
    ) -> u64;

    /// How many bytes a shard's settled form has. Writes the number to `length`. Unlisted bytes are
    /// not in it: a shard with some is refused unless `drop_unlisted` is 1; no other number asks to
    /// drop them.
    ///
    /// Refusals: 1, 5, 6, 7 to 11, 15 to 17 (mesh), 21 (mesh) of the first faulty minishard with
    /// the position, 22 where bytes are unlisted and not dropped, 13 where the form would pass 1
    /// GiB
    pub fn coronagamba_settled_length(
        sharding: CSharding,
        shard: u64,
        file: *const u8,
        count: usize,
        drop_unlisted: u64,
        length: *mut u64,
    ) -> u64;

    /// A shard's settled form; in a mesh each manifest has its fragments right before it there too.
    /// Writes it to the front of `out`, which needs the room that coronagamba_settled_length tells,
    /// and its number of bytes to `length`. Unlisted bytes are lost: a shard with some is refused
    /// unless `drop_unlisted` is 1; no other number asks to drop them.
    ///
    /// Refusals: 1, 5, 6, 7 to 11, 15 to 17 (mesh), 21 (mesh) of the first faulty minishard with
    /// the position, 22 where bytes are unlisted and not dropped, 13 where `out` is shorter than
    /// the form or the form would pass 1 GiB
    pub fn coronagamba_settle(
        sharding: CSharding,
        shard: u64,
        file: *const u8,
        count: usize,
        drop_unlisted: u64,
        out: *mut u8,
        out_count: usize,
        length: *mut u64,
    ) -> u64;

    /// coronagamba_check of a pair: whether it is sound, as one file. Writes nothing. The position
    /// is that in the joined file.
    ///
    /// Refusals: 1, 5, 23, 6, 7 to 11, 15 to 17 (mesh), 21 (mesh) with the minishard and the
    /// position
    pub fn coronagamba_pair_check(
        sharding: CSharding,
        shard: u64,
        index: *const u8,
        count: usize,
        data: *const u8,
        data_count: usize,
    ) -> u64;

    /// coronagamba_lookup of a pair: where the chunk of an id lies. Writes where it begins, counted
    /// from the index file's first byte, to `start`, and its number of bytes to `length`. A chunk
    /// lies in the data file: there it begins as many bytes earlier as the index file has.
    ///
    /// Refusals: 1, 5, 23, 6, 7 to 11, 15 to 17 (mesh), 21 (mesh) of the id's minishard with the
    /// position, 12
    pub fn coronagamba_pair_lookup(
        sharding: CSharding,
        shard: u64,
        index: *const u8,
        count: usize,
        data: *const u8,
        data_count: usize,
        id: u64,
        start: *mut u64,
        length: *mut u64,
    ) -> u64;

    /// coronagamba_fragment of a pair: where the fragment of a node lies, by the id of its
    /// manifest, its level and its number. Writes where it begins, counted from the index file's
    /// first byte, to `start`, and its number of bytes to `length`. A fragment lies in the data
    /// file.
    ///
    /// Refusals: 1, 5, 23, 6, 7 to 11, 15 to 17 (mesh), 21 (mesh) of the id's minishard with the
    /// position, 12, 18 also where the kind is volume
    pub fn coronagamba_pair_fragment(
        sharding: CSharding,
        shard: u64,
        index: *const u8,
        count: usize,
        data: *const u8,
        data_count: usize,
        id: u64,
        level: u32,
        node: u32,
        start: *mut u64,
        length: *mut u64,
    ) -> u64;

    /// coronagamba_listed_count of a pair: how many chunks a minishard lists. Writes the number to
    /// `chunks`.
    ///
    /// Refusals: 1, 5, 33 for a minishard that is not there, 23, 6, 7 to 11, 15 to 17 (mesh), 21
    /// (mesh) of that minishard with the position
    pub fn coronagamba_pair_listed_count(
        sharding: CSharding,
        shard: u64,
        index: *const u8,
        count: usize,
        data: *const u8,
        data_count: usize,
        minishard: u64,
        chunks: *mut u64,
    ) -> u64;

    /// coronagamba_listing of a pair: the chunks that a minishard lists, in stored order. Writes
    /// three numbers for each to the front of `out`: id, start counted from the index file's first
    /// byte, length in bytes. Writes how many numbers these are, three times what
    /// coronagamba_pair_listed_count gives, to `length`.
    ///
    /// Refusals: 1, 5, 33 for a minishard that is not there, 23, 6, 7 to 11, 15 to 17 (mesh), 21
    /// (mesh) of that minishard with the position, 13 where `out` has room for fewer
    pub fn coronagamba_pair_listing(
        sharding: CSharding,
        shard: u64,
        index: *const u8,
        count: usize,
        data: *const u8,
        data_count: usize,
        minishard: u64,
        out: *mut u64,
        out_count: usize,
        length: *mut u64,
    ) -> u64;

    /// coronagamba_unlisted of a pair: how many bytes are unlisted. Writes the number to `bytes`.
    /// Takes as much stack as coronagamba_unlisted does.
    ///
    /// Refusals: 1, 5, 23, 6, 7 to 11, 15 to 17 (mesh), 21 (mesh) of the first faulty minishard
    /// with the position
    pub fn coronagamba_pair_unlisted(
        sharding: CSharding,
        shard: u64,
        index: *const u8,
        count: usize,
        data: *const u8,
        data_count: usize,
        bytes: *mut u64,
    ) -> u64;

    /// coronagamba_settled_length of a pair: how many bytes its settled form has, which is one
    /// file. Writes the number to `length`. A pair with unlisted bytes is refused unless
    /// `drop_unlisted` is 1; no other number asks to drop them.
    ///
    /// Refusals: 1, 5, 23, 6, 7 to 11, 15 to 17 (mesh), 21 (mesh) of the first faulty minishard
    /// with the position, 22 where bytes are unlisted and not dropped, 13 where the form would pass
    /// 1 GiB
    pub fn coronagamba_pair_settled_length(
        sharding: CSharding,
        shard: u64,
        index: *const u8,
        count: usize,
        data: *const u8,
        data_count: usize,
        drop_unlisted: u64,
        length: *mut u64,
    ) -> u64;

    /// coronagamba_settle of a pair: its settled form, which is one file. Writes it to the front of
    /// `out`, which needs the room that coronagamba_pair_settled_length tells, and its number of
    /// bytes to `length`. Unlisted bytes are lost: a pair with some is refused unless
    /// `drop_unlisted` is 1; no other number asks to drop them.
    ///
    /// Refusals: 1, 5, 23, 6, 7 to 11, 15 to 17 (mesh), 21 (mesh) of the first faulty minishard
    /// with the position, 22 where bytes are unlisted and not dropped, 13 where `out` is shorter
    /// than the form or the form would pass 1 GiB
    pub fn coronagamba_pair_settle(
        sharding: CSharding,
        shard: u64,
        index: *const u8,
        count: usize,
        data: *const u8,
        data_count: usize,
        drop_unlisted: u64,
        out: *mut u8,
        out_count: usize,
        length: *mut u64,
    ) -> u64;

    /// Where the bytes of the joined file from `start` up to `end`, end excluded, are. Writes which
    /// file holds them to `file`: CORONAGAMBA_FILE_INDEX or CORONAGAMBA_FILE_DATA; an empty range
    /// at the seam is the data file's. Writes where they begin, counted from that file's first
    /// byte, to `place`, and their number to `length`. Judges no minishard and takes no shard
    /// number.
    ///
    /// Refusals: 1, 23, 6, 24
    pub fn coronagamba_pair_range(
        sharding: CSharding,
        index: *const u8,
        count: usize,
        data: *const u8,
        data_count: usize,
        start: u64,
        end: u64,
        file: *mut u32,
        place: *mut u64,
        length: *mut u64,
    ) -> u64;

    /// The name of a shard's index file. Writes its ASCII bytes, at most 14 and with no 0 byte
    /// behind them, to the front of `out`, and their number to `length`.
    ///
    /// Refusals: 1, 5, 13 where `out` is shorter than the name
    pub fn coronagamba_index_name(
        sharding: CSharding,
        shard: u64,
        out: *mut u8,
        count: usize,
        length: *mut u64,
    ) -> u64;

    /// The name of its data file, at most 13 bytes, in the same way.
    ///
    /// Refusals: 1, 5, 13 where `out` is shorter than the name
    pub fn coronagamba_data_name(
        sharding: CSharding,
        shard: u64,
        out: *mut u8,
        count: usize,
        length: *mut u64,
    ) -> u64;

    /// Opens a new volume shard, which will grow at the front of `out`; `waiting` will hold the ids
    /// and sizes of the chunks of one minishard at a time, 16 bytes for each. Writes the shard
    /// index of a shard with no chunk to the front of `out`, and the state of the intake, 15
    /// numbers, to `state`. The caller keeps them and lends them to the calls that follow, each as
    /// the last one left them, with both buffers; they need no look.
    ///
    /// Refusals: 1 also where the kind is mesh, 5, 13 where the shard index passes `out`
    pub fn coronagamba_intake_open(
        sharding: CSharding,
        shard: u64,
        out: *mut u8,
        count: usize,
        waiting: *const u8,
        waiting_count: usize,
        state: *mut [u64; 15],
    ) -> u64;

    /// Announces the next chunk, by rising minishard and then rising id, and its number of bytes,
    /// which are owed from then on. Where it is the first of its minishard, writes the minishard
    /// index of the one before, and that one's entry in the shard index, to `out`. Writes its id
    /// and size to `waiting`, and the new state to `state`.
    ///
    /// Refusals: 30 where a buffer has another length than on opening, 10 where the id belongs to
    /// another shard, 25 out of order or after the close or where the state contradicts itself or
    /// the last pair of `waiting` or any pair of a minishard that the call ends, 26 while bytes are
    /// owed, 13 where the settled form of all announced so far and this chunk would pass `out` or 1
    /// GiB or `waiting` has no 16 bytes left for it
    pub fn coronagamba_intake_announce(
        state: *mut [u64; 15],
        id: u64,
        size: u64,
        out: *mut u8,
        count: usize,
        waiting: *mut u8,
        waiting_count: usize,
    ) -> u64;

    /// Hands over the next bytes of the announced chunk, as many as are given, none or all that are
    /// owed. Writes them to their final place in `out`, and the new state to `state`.
    ///
    /// Refusals: 30 where a buffer has another length than on opening, 25 after the close or where
    /// the state contradicts itself or the last pair of `waiting`, 26 where these are more bytes
    /// than are owed
    pub fn coronagamba_intake_part(
        state: *mut [u64; 15],
        bytes: *const u8,
        count: usize,
        out: *mut u8,
        out_count: usize,
        waiting: *const u8,
        waiting_count: usize,
    ) -> u64;

    /// Closes the shard: `out` then begins with the settled form of what was delivered. Writes its
    /// number of bytes to `length`, and to `state` a state with which each further call is refused.
    ///
    /// Refusals: 30 where a buffer has another length than on opening, 25 after the close or where
    /// the state contradicts itself or any pair of `waiting`, 26 while bytes are owed
    pub fn coronagamba_intake_close(
        state: *mut [u64; 15],
        out: *mut u8,
        count: usize,
        waiting: *const u8,
        waiting_count: usize,
        length: *mut u64,
    ) -> u64;

    /// What a shard holds. Writes four numbers to `counts`: the chunks listed, the sum of their
    /// sizes, the unlisted bytes, and the bytes of the settled form, 1,073,741,825 where that would
    /// pass 1 GiB. The shard is judged once, as coronagamba_check judges it.
    ///
    /// Refusals: 1, 5, 6, 7 to 11, 15 to 17 (mesh), 21 (mesh) with the minishard and the position,
    /// 27 where the sizes together pass 2^64 - 1
    pub fn coronagamba_measure(
        sharding: CSharding,
        shard: u64,
        file: *const u8,
        count: usize,
        counts: *mut [u64; 4],
    ) -> u64;

    /// coronagamba_measure of a pair. The position is that in the joined file.
    ///
    /// Refusals: 1, 5, 23, 6, 7 to 11, 15 to 17 (mesh), 21 (mesh) with the minishard and the
    /// position, 27 where the sizes together pass 2^64 - 1
    pub fn coronagamba_pair_measure(
        sharding: CSharding,
        shard: u64,
        index: *const u8,
        count: usize,
        data: *const u8,
        data_count: usize,
        counts: *mut [u64; 4],
    ) -> u64;

    /// Adds a shard to a holdings sheet: to its shards sound, or to those refused with the number
    /// that coronagamba_check gives; where it is sound, to the chunks listed, the sum of their
    /// sizes and the unlisted bytes. `sheet` has 17 numbers in this order: shards sound; shards
    /// refused with 1, 5, 6, 7, 8, 9, 10, 11, 15, 16, 17, 21, 23; chunks, their bytes, unlisted
    /// bytes. An empty sheet is 0 in each; any numbers are taken. The shard is judged once.
    /// Refused, the sheet stays as it was.
    ///
    /// Refusals: 27 where a total would pass 2^64 - 1
    pub fn coronagamba_sheet_add(
        sheet: *mut [u64; 17],
        sharding: CSharding,
        shard: u64,
        file: *const u8,
        count: usize,
    ) -> u64;

    /// coronagamba_sheet_add of a pair.
    ///
    /// Refusals: 27 where a total would pass 2^64 - 1
    pub fn coronagamba_pair_sheet_add(
        sheet: *mut [u64; 17],
        sharding: CSharding,
        shard: u64,
        index: *const u8,
        count: usize,
        data: *const u8,
        data_count: usize,
    ) -> u64;

    /// Adds a sheet to another, row by row: the sheets of two parts of a year's work make that of
    /// both. Refused, `sheet` stays as it was.
    ///
    /// Refusals: 27 where a total would pass 2^64 - 1
    pub fn coronagamba_sheet_join(sheet: *mut [u64; 17], other: *const [u64; 17]) -> u64;

    /// What a deposit card of these bytes says. Writes preshift, hash, minishard bits, shard bits
    /// and kind to `sharding`, and volume size, chunk size and voxel offset along x, y and z to
    /// `size`, `chunk` and `offset`. To use them in other calls, copy the numbers into the structs
    /// one by one.
    ///
    /// Refusals: 14, 1, 2, 3
    pub fn coronagamba_card_read(
        bytes: *const u8,
        count: usize,
        sharding: *mut [u8; 5],
        size: *mut [u32; 3],
        chunk: *mut [u32; 3],
        offset: *mut [i32; 3],
    ) -> u64;

    /// A deposit card. Writes its bytes, 46 or 61, of a mesh 50 or 65, to the front of `out`, and
    /// their number to `length`.
    ///
    /// Refusals: 1, 2, 3, 13 where `out` is shorter than the card
    pub fn coronagamba_card_write(
        sharding: CSharding,
        volume: Volume,
        out: *mut u8,
        count: usize,
        length: *mut u64,
    ) -> u64;

    /// What the text of an info file says of its scale number `scale`, from 0: the numbers that a
    /// deposit card of it says, written as coronagamba_card_read writes them. The kind is 0,
    /// volume.
    ///
    /// Refusals: 19, 20, 1, 2, 3
    pub fn coronagamba_info_read(
        text: *const u8,
        count: usize,
        scale: u64,
        sharding: *mut [u8; 5],
        size: *mut [u32; 3],
        chunk: *mut [u32; 3],
        offset: *mut [i32; 3],
    ) -> u64;

    /// Whether the bytes are a sound manifest. Writes nothing.
    ///
    /// Refusals: 15, 16, 17
    pub fn coronagamba_manifest_check(bytes: *const u8, count: usize) -> u64;

    /// The shape and the origin of a manifest. Writes the bits of six reals to `header`: the chunk
    /// shape along x, y and z, then the grid origin.
    ///
    /// Refusals: 15, 16, 17
    pub fn coronagamba_manifest_header(
        bytes: *const u8,
        count: usize,
        header: *mut [u32; 6],
    ) -> u64;

    /// A field of a manifest, by its number, counted from 0 in file order, one for each 4 bytes.
    /// Writes its kind to `kind`: CORONAGAMBA_FIELD_REAL where it is a real,
    /// CORONAGAMBA_FIELD_WHOLE where it is a whole number. Writes the real's bits, or the number,
    /// to `value`.
    ///
    /// Refusals: 15, 16, 17, 18
    pub fn coronagamba_manifest_field(
        bytes: *const u8,
        count: usize,
        number: u32,
        kind: *mut u32,
        value: *mut u32,
    ) -> u64;

    /// A node of a level, both counted from 0. Writes its position along x, y and z to `position`,
    /// where its fragment starts, counted from the first fragment, to `start`, and the fragment's
    /// number of bytes to `size`.
    ///
    /// Refusals: 15, 16, 17, 18
    pub fn coronagamba_manifest_node(
        bytes: *const u8,
        count: usize,
        level: u32,
        node: u32,
        position: *mut [u32; 3],
        start: *mut u64,
        size: *mut u32,
    ) -> u64;

    /// All nodes of a level, counted from 0, in node order. Writes five numbers for each to the
    /// front of `out`: its position along x, y and z, where its fragment starts, counted from the
    /// first fragment, and the fragment's number of bytes. Writes how many numbers these are to
    /// `length`. A level has fewer nodes than a sixteenth of the bytes.
    ///
    /// Refusals: 15, 16, 17, 18 where there is no such level, 13 where `out` has room for fewer
    pub fn coronagamba_manifest_nodes(
        bytes: *const u8,
        count: usize,
        level: u32,
        out: *mut u64,
        out_count: usize,
        length: *mut u64,
    ) -> u64;

    /// The corners of a node's box, level and node counted from 0. Writes the bits of origin +
    /// (position x shape) x 2^level along x, y and z to `near_corner`, and of that + shape x
    /// 2^level to `far_corner`, each operation rounded once to a float. They are computed in the
    /// floating-point environment that a C program starts with: round to nearest, subnormal numbers
    /// kept, no traps.
    ///
    /// Refusals: 15, 16, 17, 18 also where a position is 2^24 or more or a corner is not finite
    pub fn coronagamba_manifest_corners(
        bytes: *const u8,
        count: usize,
        level: u32,
        node: u32,
        near_corner: *mut [u32; 3],
        far_corner: *mut [u32; 3],
    ) -> u64;

    /// The label of a voxel in a chunk of the compressed segmentation encoding. `size` and `block`
    /// are the chunk's and its blocks' extents in voxels; `bits` is the label width, 32 or 64.
    /// Voxel and channel count from 0 in the chunk. Writes the label to `label`.
    ///
    /// Refusals: 2 also where `bits` is another number or a block size or the channel count is 0 or
    /// a voxel or channel is outside, 29, 28
    pub fn coronagamba_label(
        chunk: *const u8,
        count: usize,
        size: Extents,
        block: Extents,
        channels: u32,
        bits: u64,
        x: u32,
        y: u32,
        z: u32,
        channel: u32,
        label: *mut u64,
    ) -> u64;

    /// How many bytes a chunk of labels has in the raw form, whatever it holds. `size` and `block`
    /// are the chunk's and its blocks' extents in voxels; `bits` is the label width, 32 or 64.
    /// Writes the number to `length`.
    ///
    /// Refusals: 2 also where `bits` is another number or a block size or the channel count is 0,
    /// 13 where the number does not fit 64 bits
    pub fn coronagamba_unpacked_length(
        size: Extents,
        block: Extents,
        channels: u32,
        bits: u64,
        length: *mut u64,
    ) -> u64;

    /// A whole chunk of the compressed segmentation encoding in the raw form: labels little-endian,
    /// x fastest, then y, z, channel. `size` and `block` are the chunk's and its blocks' extents in
    /// voxels; `bits` is the label width, 32 or 64. Writes the raw form to the front of `out`,
    /// which needs the room that coronagamba_unpacked_length tells, and its number of bytes to
    /// `length`.
    ///
    /// Refusals: 2 also where `bits` is another number or a block size or the channel count is 0,
    /// 29 where coronagamba_label would give it for any voxel, 28 where else that would for any, 13
    /// where `out` is shorter than the raw form
    pub fn coronagamba_unpack(
        chunk: *const u8,
        count: usize,
        size: Extents,
        block: Extents,
        channels: u32,
        bits: u64,
        out: *mut u8,
        out_count: usize,
        length: *mut u64,
    ) -> u64;
}
