//! What the refusals mean.
//!
//! Made by ./interface: change crates/coronagamba or rust/interface, then run it.

use super::row::Explained;

/// The table of refusals, numbers rising.
pub const TABLE: &[Explained] = &[
    Explained {
        number: 1,
        given: "preshift above 63, hash neither identity nor murmur, minishard bits above 16, \
         shard bits above 32, or a kind that is neither volume nor mesh; at an intake also \
         the kind mesh",
        cause: "A mistyped option, a card that was made for another format, or an info file with \
         a hash that this archive does not know.",
        remedy: "Make the card again from the deposit's info file, with 'card make --info', or \
         take the values from the deposit's own papers.",
    },
    Explained {
        number: 2,
        given: "a volume or chunk extent is 0, or a cell coordinate is not below its grid size; \
         in a chunk of labels also where a block size or the channel count is 0, or a \
         voxel or channel is outside; beyond the table, and before all else, where the \
         label width is neither 32 nor 64 bits",
        cause: "A cell given in voxels instead of chunks, axes in another order, or the card of \
         another volume.",
        remedy: "Look at the grid with 'card show'. A cell counts chunks from 0 on each axis: \
         subtract the voxel offset from the voxel and divide by the chunk size.",
    },
    Explained {
        number: 3,
        given: "a key is made or decoded, keys are listed for a box, a card is read or written, \
         or an info file is read, and the grid needs more than 64 key bits",
        cause: "A chunk size that is much too small for the volume, often 1,1,1 by mistake.",
        remedy: "Correct --size and --chunk. Such a grid has no keys in the published format.",
    },
    Explained {
        number: 4,
        given: "a key is no cell of the grid",
        cause: "The key comes from another volume or another chunk size, or it is an id that is \
         no key.",
        remedy: "Compare the volume with 'card show'; 'locate X,Y,Z' gives the key of a cell.",
    },
    Explained {
        number: 5,
        given: "a shard number is not below 2^shard_bits, or the id asked for belongs to another \
         shard",
        cause: "The wrong shard file for this id, a file from a deposit with other shard bits, \
         or wrong settings.",
        remedy: "Give the deposit's folder in place of the file: 'get' then finds the shard of \
         the id by itself. 'card show' tells how many shards there are. If the place \
         still surprises you, compare the settings with the deposit's papers.",
    },
    Explained {
        number: 6,
        given: "the shard is shorter than its shard index or longer than 1,073,741,824 bytes",
        cause: "A copy that was cut short, an empty file, or too many minishard bits in the \
         settings.",
        remedy: "Compare the file's length with the source and copy it again; compare the \
         minishard bits with the deposit's papers.",
    },
    Explained {
        number: 7,
        given: "an index entry has start after end, or start before end and its end past the file",
        cause: "A copy that was cut short, bytes damaged in the shard index, or wrong minishard \
         bits, which make other bytes count as the shard index.",
        remedy: "Compare the file's length with the source and copy it again. If all shards of \
         the deposit are refused in this way, suspect the settings.",
    },
    Explained {
        number: 8,
        given: "a minishard index length is no multiple of 24",
        cause: "Bytes damaged in the shard index, wrong minishard bits, or minishard indexes \
         that are compressed, which this archive does not hold.",
        remedy: "If all shards are refused in this way, look into the deposit's info file for \
         minishard_index_encoding: it must be raw. Otherwise copy the shard again.",
    },
    Explained {
        number: 9,
        given: "an id stands twice in a minishard",
        cause: "A writer that listed a chunk again in place of replacing it, bytes damaged in a \
         minishard index, or minishard indexes that are compressed. The order of the ids \
         does not matter.",
        remedy: "Look for a sound copy with 'check' and copy the shard from there. If the fault \
         is in the source, its writer must repair it: which of two chunks is meant cannot \
         be told from the file.",
    },
    Explained {
        number: 10,
        given: "a listed id belongs to another shard or minishard; at an intake, with no \
         position, the announced id belongs to another shard",
        cause: "Wrong settings, above all the hash or the preshift; a file under another shard's \
         name; or damaged bytes.",
        remedy: "If many shards are refused in this way, the settings are wrong: compare them \
         with the deposit's papers. If it is one shard, look at its name, then copy it \
         again.",
    },
    Explained {
        number: 11,
        given: "index end plus start plus size of a chunk, taken exactly, passes the file",
        cause: "A copy that was cut short, or bytes damaged in a minishard index. Chunks may \
         overlap and stand in any order.",
        remedy: "Compare the file's length with the source and copy it again.",
    },
    Explained {
        number: 12,
        given: "the id is not listed",
        cause: "The volume has no data in this cell: writers leave empty chunks out. In a mesh, \
         the net has no shape. Or the id comes from another deposit.",
        remedy: "This is an answer, not damage: the chunk is absent and its minishard is sound. \
         'list' shows what is there.",
    },
    Explained {
        number: 13,
        given: "the output is too short for the whole answer, or a settled form would exceed \
         1,073,741,824 bytes; at an intake, on opening or announcing, the settled form of \
         all announced so far, this chunk included, would pass the output or 1,073,741,824 \
         bytes, or the second buffer has no 16 bytes left for it; asked for an unpacked \
         length, also where it does not fit 64 bits, so that no output can have the room",
        cause: "A shard whose chunks share bytes, or in a mesh their fragments: written out one \
         by one they pass 1 GiB.",
        remedy: "Keep the shard as it is. It is sound, but it has no settled form that a shard \
         may have; a deposit with more shard bits would.",
    },
    Explained {
        number: 14,
        given: "the card is malformed",
        cause: "The file is no deposit card, or it was cut short or edited.",
        remedy: "Make the card again with 'card make' from the deposit's papers. A card is not \
         text: do not edit it.",
    },
    Explained {
        number: 15,
        given: "the manifest's length or level count is wrong; in a mesh shard, that of a listed \
         manifest",
        cause: "The file is no manifest of this kind, it was cut short, or it holds the \
         fragments too. In a shard: bytes damaged in a minishard index or in the manifest, \
         or a volume that was opened as a mesh.",
        remedy: "Compare the file's length with the source and copy it again. If all shards of a \
         deposit are refused in this way, suspect the kind in the settings.",
    },
    Explained {
        number: 16,
        given: "a manifest real is not finite, or a chunk shape is not above zero; in a mesh \
         shard, of a listed manifest",
        cause: "Damaged bytes, or a writer that divided by zero.",
        remedy: "Look for a sound copy with 'manifest check', or of a shard with 'check'. If the \
         fault is in the source, its writer must repair it.",
    },
    Explained {
        number: 17,
        given: "a level's nodes are not in strictly rising Z-curve order; in a mesh shard, of a \
         listed manifest",
        cause: "A writer that sorted by x, y, z, or listed a node twice; or damaged bytes.",
        remedy: "Look for a sound copy with 'manifest check', or of a shard with 'check'. If the \
         fault is in the source, its writer must repair it.",
    },
    Explained {
        number: 18,
        given: "no such level, node or field; or, where corners are asked for, that node has a \
         position of 2^24 or more or either corner is not finite; or, where a fragment is \
         asked for, the shard is of a volume",
        cause: "A level or node number beyond the last one; they count from 0. Where only the \
         corners are missing: a position that a 32-bit real may not hold exactly, or a \
         chunk shape or grid origin so large that a corner passes the greatest real, from \
         a writer or from damaged bytes. Where a shard's fragment is asked for: a mesh \
         that was opened as a volume.",
        remedy: "'manifest show' tells how many levels and nodes there are, in a shard 'list \
         --fragments'. A node without corners has its position and its fragment all the \
         same; compare its position, the chunk shape and the grid origin with the source. \
         A mesh needs a card that says so, or '--kind mesh'.",
    },
    Explained {
        number: 19,
        given: "not JSON, not UTF-8 or too deep, the outermost value being at depth 1 and each \
         value in another, a plain number too, one deeper; 32 is the greatest depth",
        cause: "A file that is no info file, one that was cut short or edited by hand, with a \
         comma too many, a comment or single quotes; a byte order mark, or an encoding \
         other than UTF-8; a compressed file.",
        remedy: "Look at the line and column that the desk tool tells. Copy the info file again \
         from its source, or have its writer write plain JSON.",
    },
    Explained {
        number: 20,
        given: "no scale k, a needed member missing, a used one doubled or of the wrong kind, \
         another @type or a refused encoding",
        cause: "A scale beyond the last one; they count from 0. A scale that is not sharded, so \
         that it has no 'sharding'; more than one chunk size; a number with a fraction, an \
         exponent or quotes, or one too large for a card; or index or data that is \
         compressed with gzip, which this archive does not hold.",
        remedy: "Look at the line and column that the desk tool tells, and at the scale's \
         number. A deposit whose encoding is not raw must be written anew by its maker.",
    },
    Explained {
        number: 21,
        given: "in a mesh shard, the fragments of a listed manifest would start before the index \
         end: the sum of its sizes, taken exactly, exceeds its start relative to the index \
         end",
        cause: "Fragments that were left out when the shard was copied or settled as a volume, \
         bytes damaged in a minishard index or in the manifest's sizes, or manifests of a \
         writer that keeps fragments elsewhere.",
        remedy: "Look for a copy that has its fragments with 'check'. If the fault is in the \
         source, its writer must write the shard again, each manifest right behind its \
         fragments.",
    },
    Explained {
        number: 22,
        given: "a byte of a sound shard lies past the shard index in no listed chunk, no \
         fragment and no nonempty minishard index, and settling was not asked to drop such \
         bytes; after all that the check refuses and before 13",
        cause: "Chunks that a writer replaced or removed and whose bytes it left behind, \
         padding, or, where a mesh shard is read as a volume, its fragments.",
        remedy: "Look at them with 'check --unlisted', which tells how many there are and where. \
         Settle with '--drop-unlisted' only when nothing of them is wanted.",
    },
    Explained {
        number: 23,
        given: "of a shard of the earlier two-file edition, the index file is not exactly as \
         long as the shard index; right after 5, in a listing after 33",
        cause: "A copy that was cut short, the two files given in the wrong order, an index file \
         of another deposit, or wrong minishard bits in the settings.",
        remedy: "The shard index has 16 bytes for each minishard, 2^minishard_bits of them: \
         'card show' tells how many there are. Compare the file's length with that and \
         with the source; compare the minishard bits with the deposit's papers.",
    },
    Explained {
        number: 24,
        given: "a range crosses the seam, is reversed or passes the end",
        cause: "A range that counts from the start of the data file, or one that begins in the \
         index file and ends in the data file. Ranges count in the joined file, from its \
         first byte, and their end is not in them.",
        remedy: "The seam is where the index file ends. Ask for the part up to the seam and for \
         the part from it on, one after the other.",
    },
    Explained {
        number: 25,
        given: "at an intake, a chunk is announced whose minishard is below the open one, or is \
         the open one and its id not above the last; or the shard was closed; or the \
         state's numbers contradict each other, the buffers' lengths or the last pair of \
         the second buffer, so that no calls could have left them; at the close, and where \
         the announced chunk is of another minishard than the open one, also where the \
         pairs of the open one are none that calls could have left: an id is not above the \
         one before it or belongs to another shard or minishard, or the sizes together are \
         not the bytes that came of the minishard and are owed",
        cause: "Chunks that come by rising id alone: the minishard goes first. An id that is \
         announced twice; a call after the close; or a state that was changed, or kept \
         from before another call.",
        remedy: "Sort the chunks by minishard, then by id: 'locate' tells the minishard of an \
         id. Give each call the state and both buffers as the last call left them.",
    },
    Explained {
        number: 26,
        given: "at an intake, a part is longer than what is still owed, or a chunk is announced \
         or the shard closed while bytes are owed",
        cause: "A chunk whose announced size is not its number of bytes, a part that was handed \
         over twice or left out, or a part before the first chunk.",
        remedy: "Announce the size that the chunk has, and hand over exactly that many bytes \
         before the next chunk or the close.",
    },
    Explained {
        number: 27,
        given: "a total of the holdings sheet would pass 2^64 - 1, and the sheet stays as before \
         that shard; of one shard's measure, the sizes of its chunks together pass it",
        cause: "A sheet that was not made by adding shards, numbers of another kind read as a \
         sheet, or sheets that were joined again and again.",
        remedy: "Begin with an empty sheet, 0 in each row, and add the shards again. Sums of \
         honest holdings stay far below the limit.",
    },
    Explained {
        number: 28,
        given: "in a chunk of labels, a channel offset, header, packed 32-bit word or table \
         entry to be read is not whole in the chunk; at width 0 no packed word is read",
        cause: "A chunk that was cut short, another size, block size, channel count or label \
         width than the one it was written with, or bytes that are not in the compressed \
         segmentation encoding.",
        remedy: "Compare size, block size, channels and bits with the deposit's info file: there \
         they are the chunk size, cut off at the volume's upper faces, \
         compressed_segmentation_block_size, num_channels and data_type.",
    },
    Explained {
        number: 29,
        given: "in a chunk of labels, a whole header has a packed width other than 0, 1, 2, 4, \
         8, 16 or 32",
        cause: "Bytes that are not in the compressed segmentation encoding, or a size, block \
         size or channel count that makes other words count as headers.",
        remedy: "Compare size, block size and channels with the deposit's info file, and its \
         encoding: it must be compressed_segmentation. Otherwise copy the chunk again.",
    },
    Explained {
        number: 30,
        given: "at an intake, after opening, a lent buffer has another length than then",
        cause: "Another buffer than the one that the shard was opened with, a shorter part of \
         it, or the two buffers exchanged.",
        remedy: "Lend the output and the second buffer of the opening, both whole, to each call.",
    },
    Explained {
        number: 33,
        given: "a number of this library's own, beyond the papers' table: in a listing or its \
         count, a minishard number is not below 2^minishard_bits",
        cause: "A --minishard beyond the last one, or settings with other minishard bits than \
         the deposit's.",
        remedy: "'card show' tells how many minishards a shard has; their numbers begin at 0. If \
         that surprises you, compare the settings with the deposit's papers.",
    },
];
