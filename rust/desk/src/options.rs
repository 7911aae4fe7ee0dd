//! All options of all commands, each defined once: its name, the word for its value, and
//! what help says of it. A command lists those that it takes, reads them by these
//! constants, and its help is printed from that list.

use std::fmt;

/// An option.
#[derive(Clone, Copy, Debug, PartialEq, Eq)]
pub struct Opt {
    /// Its name, with the two dashes, and behind a blank the word for its value.
    pub usage: &'static str,
    /// What help says of it; nothing where a command takes it and has no use for it.
    pub text: &'static str,
    /// Whether help has it among the settings.
    pub is_setting: bool,
}

impl Opt {
    /// Its name, with the two dashes.
    pub fn name(self) -> &'static str {
        self.usage.split(' ').next().unwrap_or_default()
    }

    /// Whether a value follows it.
    pub fn takes_value(self) -> bool {
        self.usage.contains(' ')
    }

    /// The same option, in a command that takes it and has no use for it.
    pub const fn idle(self) -> Opt {
        Opt { text: "", ..self }
    }

    /// Whether it is of no use.
    pub fn is_idle(self) -> bool {
        self.text.is_empty()
    }
}

impl fmt::Display for Opt {
    fn fmt(&self, f: &mut fmt::Formatter) -> fmt::Result {
        f.write_str(self.name())
    }
}

const fn option(usage: &'static str, text: &'static str) -> Opt {
    Opt {
        usage,
        text,
        is_setting: false,
    }
}

const fn setting(usage: &'static str, text: &'static str) -> Opt {
    Opt {
        is_setting: true,
        ..option(usage, text)
    }
}

// The settings of a deposit.
pub const CARD: Opt = setting(
    "--card FILE",
    "a deposit card, which gives sharding, kind and volume",
);
pub const INFO: Opt = setting(
    "--info FILE",
    "an info file of the published format, which with --scale gives sharding and volume",
);
pub const SCALE: Opt = setting("--scale K", "the number of the info file's scale, from 0");
pub const PRESHIFT: Opt = setting(
    "--preshift N",
    "low bits of an id that do not count, 0 to 63",
);
pub const HASH: Opt = setting(
    "--hash NAME",
    "identity or murmur (also: murmurhash3_x86_128)",
);
pub const MINISHARD_BITS: Opt = setting("--minishard-bits N", "0 to 16");
pub const SHARD_BITS: Opt = setting("--shard-bits N", "0 to 32");
pub const KIND: Opt = setting(
    "--kind NAME",
    "volume or mesh; a card says its own, and where nothing says it, it is a volume",
);
pub const SIZE: Opt = setting("--size X,Y,Z", "the volume's extents in voxels");
pub const CHUNK: Opt = setting("--chunk X,Y,Z", "a chunk's extents in voxels");
pub const OFFSET: Opt = setting(
    "--offset X,Y,Z",
    "where the volume begins; 0,0,0 where it is not given",
);

// The settings of labels.
pub const SIZE_OF_CHUNK: Opt = setting(
    SIZE.usage,
    "the chunk's extents in voxels; at the upper faces of the volume what is left of it, as 'cell' tells",
);
pub const BLOCK: Opt = setting(
    "--block X,Y,Z",
    "a block's extents in voxels, in an info file compressed_segmentation_block_size",
);
pub const CHANNELS: Opt = setting(
    "--channels N",
    "how many channels there are, in an info file num_channels",
);
pub const BITS: Opt = setting(
    "--bits N",
    "32 or 64, the bits of a label, in an info file data_type",
);

// What many commands take.
pub const SHARD: Opt = option(
    "--shard N",
    "the shard's number, where no file name says it",
);
pub const JOBS: Opt = option(
    "--jobs N",
    "how many shards are worked on at once; one for each core otherwise, or two where each waits for the disk",
);
pub const OUT: Opt = option(
    "--out PATH",
    "the output; a file gets its name only when it is whole",
);
pub const FORCE: Opt = option("--force", "overwrite existing files");
pub const JSON: Opt = option(
    "--json",
    "one JSON object a line; numbers are exact, and some readers round them above 2^53",
);

// A run in parts.
pub const PART: Opt = option(
    "--part K/N",
    "the K-th of N parts of a folder's shards alone, dealt out by their names and lengths",
);
pub const REPORT: Opt = option(
    "--report FILE",
    "the answers go into this file, for 'join', and one line tells of it; it gets its name only when it is whole",
);
pub const RESUME: Opt = option(
    "--resume",
    "where that file is there from a run of this part that ended with 0 or 1, and the folders are listed as they were, tell its status and do nothing",
);

// Shards.
pub const UNLISTED: Opt = option(
    "--unlisted",
    "also tell how many bytes past the shard index lie in no listed chunk, no fragment and no nonempty minishard index, and where the first gaps are; that is no fault",
);
pub const DROP_UNLISTED: Opt = option(
    "--drop-unlisted",
    "pass over the bytes that nothing lists; they are not in the settled form",
);
pub const ADD: Opt = option("--add", "add up sheets that were printed before");
pub const VERBOSE: Opt = option(
    "--verbose",
    "name each refused shard on standard error, and why",
);
pub const AGAINST: Opt = option("--against LIST", "compare with the fingerprints in a file");
pub const MINISHARD: Opt = option("--minishard N", "list this minishard alone");
pub const FRAGMENTS: Opt = option("--fragments", "list the fragments of a mesh one by one");
pub const PLACE: Opt = option(
    "--place",
    "tell which file holds the bytes, from which of its bytes on, and how many they are, in place of writing them; --json is for this alone",
);

// One chunk.
pub const CELL: Opt = option(
    "--cell X,Y,Z",
    "ask for a cell of a volume, counted in chunks from 0",
);
pub const VOXEL: Opt = option("--voxel X,Y,Z", "ask for the cell of this voxel");
pub const LABEL: Opt = option(
    "--label",
    "print the voxel's label in place of the chunk; --json is for this alone",
);
pub const CHANNEL: Opt = option(
    "--channel N",
    "the channel asked for, from 0; 0 where it is not given",
);
pub const FRAGMENT: Opt = option(
    "--fragment LEVEL,NODE",
    "write the fragment of this node in place of the manifest; both are counted from 0",
);

// Cells, and the files of a shard.
pub const COUNT: Opt = option("--count", "tell how many chunks there are, and list none");
pub const SHARDS: Opt = option(
    "--shards",
    "list the shard files alone, each once, by number",
);
pub const MOST: Opt = option(
    "--most N",
    "refuse a box of more chunks; 16777216 where none is given",
);
pub const DEPOSIT: Opt = option(
    "--deposit DIR",
    "copy the chunks from the shards of this folder",
);
pub const PAIR: Opt = option(
    "--pair",
    "name the shard's index file and data file, a line each",
);

// Manifests.
pub const NODES: Opt = option(
    "--nodes",
    "list all nodes behind a header line: level, node, position, and where the fragment starts and how many bytes it has, counted from the first fragment",
);
