//! Refusals and other numbers, as the tables have them.
//!
//! Made by ./interface: change crates/coronagamba or rust/interface, then run it.

use crate::refusal::Refusal;

/// The version that these declarations belong to: major, minor, patch.
pub const VERSION: [u64; 3] = [0, 6, 0];

/// A sharding's hash that leaves an id as it is.
pub const HASH_IDENTITY: u8 = 0;

/// A sharding's hash MurmurHash3_x86_128, its first 8 bytes.
pub const HASH_MURMUR: u8 = 1;

/// A sharding's kind whose chunks are any bytes.
pub const KIND_VOLUME: u8 = 0;

/// A sharding's kind whose chunks are manifests, each with its fragments before it.
pub const KIND_MESH: u8 = 1;

/// The kind of a manifest's field that is a whole number.
pub const FIELD_WHOLE: u32 = 0;

/// The kind of a manifest's field that is a real.
pub const FIELD_REAL: u32 = 1;

/// A pair's index file.
pub const FILE_INDEX: u32 = 0;

/// A pair's data file.
pub const FILE_DATA: u32 = 1;

/// How many numbers the state of an intake has.
pub const INTAKE_NUMBERS: usize = 15;

/// How many numbers a holdings sheet has.
pub const SHEET_ROWS: usize = 17;

impl Refusal {
    /// Preshift above 63, hash neither identity nor murmur, minishard bits above 16, shard bits
    /// above 32, or a kind that is neither volume nor mesh; at an intake also the kind mesh.
    pub const SHARDING_NOT_ALLOWED: u8 = 1;

    /// A volume or chunk extent is 0, or a cell coordinate is not below its grid size; in a chunk
    /// of labels also where a block size or the channel count is 0, or a voxel or channel is
    /// outside; beyond the table, and before all else, where the label width is neither 32 nor 64
    /// bits.
    pub const NO_SUCH_CELL: u8 = 2;

    /// A key is made or decoded, keys are listed for a box, a card is read or written, or an info
    /// file is read, and the grid needs more than 64 key bits.
    pub const TOO_MANY_KEY_BITS: u8 = 3;

    /// A key is no cell of the grid.
    pub const KEY_OF_NO_CELL: u8 = 4;

    /// A shard number is not below 2^shard_bits, or the id asked for belongs to another shard.
    pub const NO_SUCH_SHARD: u8 = 5;

    /// The shard is shorter than its shard index or longer than 1,073,741,824 bytes.
    pub const SHARD_LENGTH: u8 = 6;

    /// An index entry has start after end, or start before end and its end past the file.
    pub const INDEX_ENTRY: u8 = 7;

    /// A minishard index length is no multiple of 24.
    pub const INDEX_LENGTH: u8 = 8;

    /// An id stands twice in a minishard.
    pub const ID_TWICE: u8 = 9;

    /// A listed id belongs to another shard or minishard; at an intake, with no position, the
    /// announced id belongs to another shard.
    pub const ID_ELSEWHERE: u8 = 10;

    /// Index end plus start plus size of a chunk, taken exactly, passes the file.
    pub const CHUNK_PAST_END: u8 = 11;

    /// The id is not listed.
    pub const NOT_LISTED: u8 = 12;

    /// The output is too short for the whole answer, or a settled form would exceed 1,073,741,824
    /// bytes; at an intake, on opening or announcing, the settled form of all announced so far,
    /// this chunk included, would pass the output or 1,073,741,824 bytes, or the second buffer has
    /// no 16 bytes left for it; asked for an unpacked length, also where it does not fit 64 bits,
    /// so that no output can have the room.
    pub const NO_ROOM: u8 = 13;

    /// The card is malformed.
    pub const CARD_MALFORMED: u8 = 14;

    /// The manifest's length or level count is wrong; in a mesh shard, that of a listed manifest.
    pub const MANIFEST_LENGTH: u8 = 15;

    /// A manifest real is not finite, or a chunk shape is not above zero; in a mesh shard, of a
    /// listed manifest.
    pub const MANIFEST_REAL: u8 = 16;

    /// A level's nodes are not in strictly rising Z-curve order; in a mesh shard, of a listed
    /// manifest.
    pub const NODE_ORDER: u8 = 17;

    /// No such level, node or field; or, where corners are asked for, that node has a position of
    /// 2^24 or more or either corner is not finite; or, where a fragment is asked for, the shard is
    /// of a volume.
    pub const NO_SUCH_NODE: u8 = 18;

    /// Not JSON, not UTF-8 or too deep, the outermost value being at depth 1 and each value in
    /// another, a plain number too, one deeper; 32 is the greatest depth.
    pub const INFO_NOT_JSON: u8 = 19;

    /// No scale k, a needed member missing, a used one doubled or of the wrong kind, another @type
    /// or a refused encoding.
    pub const INFO_SETTINGS: u8 = 20;

    /// In a mesh shard, the fragments of a listed manifest would start before the index end: the
    /// sum of its sizes, taken exactly, exceeds its start relative to the index end.
    pub const FRAGMENTS_BEFORE_DATA: u8 = 21;

    /// A byte of a sound shard lies past the shard index in no listed chunk, no fragment and no
    /// nonempty minishard index, and settling was not asked to drop such bytes; after all that the
    /// check refuses and before 13.
    pub const UNLISTED_BYTES: u8 = 22;

    /// Of a shard of the earlier two-file edition, the index file is not exactly as long as the
    /// shard index; right after 5, in a listing after 33.
    pub const INDEX_FILE_LENGTH: u8 = 23;

    /// A range crosses the seam, is reversed or passes the end.
    pub const NO_SUCH_RANGE: u8 = 24;

    /// At an intake, a chunk is announced whose minishard is below the open one, or is the open one
    /// and its id not above the last; or the shard was closed; or the state's numbers contradict
    /// each other, the buffers' lengths or the last pair of the second buffer, so that no calls
    /// could have left them; at the close, and where the announced chunk is of another minishard
    /// than the open one, also where the pairs of the open one are none that calls could have left:
    /// an id is not above the one before it or belongs to another shard or minishard, or the sizes
    /// together are not the bytes that came of the minishard and are owed.
    pub const INTAKE_ORDER: u8 = 25;

    /// At an intake, a part is longer than what is still owed, or a chunk is announced or the shard
    /// closed while bytes are owed.
    pub const INTAKE_OWED: u8 = 26;

    /// A total of the holdings sheet would pass 2^64 - 1, and the sheet stays as before that shard;
    /// of one shard's measure, the sizes of its chunks together pass it.
    pub const TOTAL_TOO_LARGE: u8 = 27;

    /// In a chunk of labels, a channel offset, header, packed 32-bit word or table entry to be read
    /// is not whole in the chunk; at width 0 no packed word is read.
    pub const LABELS_CUT_OFF: u8 = 28;

    /// In a chunk of labels, a whole header has a packed width other than 0, 1, 2, 4, 8, 16 or 32.
    pub const LABEL_WIDTH: u8 = 29;

    /// At an intake, after opening, a lent buffer has another length than then.
    pub const INTAKE_BUFFERS: u8 = 30;

    /// A number of this library's own, beyond the papers' table: in a listing or its count, a
    /// minishard number is not below 2^minishard_bits.
    pub const NO_SUCH_MINISHARD: u8 = 33;
}

/// Each number with its sentence, rising.
pub(crate) const SENTENCES: &[(u8, &str)] = &[
    (
        1,
        "The sharding specification has a field that is not allowed.",
    ),
    (2, "An extent is zero, or the cell is outside the grid."),
    (3, "The grid needs more than 64 key bits."),
    (4, "The key is no cell of the grid."),
    (
        5,
        "There is no such shard, or the id belongs to another shard.",
    ),
    (
        6,
        "The shard is shorter than its index or longer than 1 GiB.",
    ),
    (
        7,
        "An entry of the shard index is reversed or ends past the file.",
    ),
    (
        8,
        "A minishard index has a length that is no multiple of 24.",
    ),
    (9, "An id stands twice in a minishard."),
    (10, "A listed id belongs to another shard or minishard."),
    (11, "A chunk ends past the file."),
    (12, "The id is not listed."),
    (
        13,
        "The output is too short, or the settled form is longer than 1 GiB.",
    ),
    (14, "The card is malformed."),
    (15, "The manifest has a wrong length or level count."),
    (
        16,
        "A real in the manifest is not finite, or a chunk shape is not above zero.",
    ),
    (
        17,
        "The nodes of a level are not in strictly rising Z-curve order.",
    ),
    (
        18,
        "There is no such level, node or field, or the node has no corners.",
    ),
    (
        19,
        "The info file is not JSON in UTF-8, or values in it lie too deep.",
    ),
    (
        20,
        "The info file does not give the settings of this scale.",
    ),
    (
        21,
        "The fragments of a manifest would start before the end of the shard index.",
    ),
    (
        22,
        "The shard has bytes that nothing lists, and dropping them was not asked for.",
    ),
    (
        23,
        "The index file of a pair is not exactly as long as the shard index.",
    ),
    (
        24,
        "The range crosses the seam of the two files, is reversed or passes the end.",
    ),
    (
        25,
        "The chunk is out of order, the shard was closed, or no calls could have left this state.",
    ),
    (
        26,
        "The part is longer than what is still owed, or bytes are owed.",
    ),
    (27, "A total would pass 2^64 - 1."),
    (
        28,
        "Something that is to be read for a label is not whole in the chunk.",
    ),
    (
        29,
        "A block header has a packed width other than 0, 1, 2, 4, 8, 16 or 32 bits.",
    ),
    (
        30,
        "A buffer has another length than when the shard was opened.",
    ),
    (33, "There is no such minishard."),
];
