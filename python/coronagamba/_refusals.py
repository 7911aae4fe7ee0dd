"""The table of refusals.

Made by ./interface: change crates/coronagamba or rust/interface, then run it.
"""

from __future__ import annotations

from typing import Dict


class Numbers:
    """The numbers by name."""

    # preshift above 63, hash neither identity nor murmur, minishard bits above
    # 16, shard bits above 32, or a kind that is neither volume nor mesh; at an
    # intake also the kind mesh
    SHARDING_NOT_ALLOWED = 1

    # a volume or chunk extent is 0, or a cell coordinate is not below its grid
    # size; in a chunk of labels also where a block size or the channel count
    # is 0, or a voxel or channel is outside; beyond the table, and before all
    # else, where the label width is neither 32 nor 64 bits
    NO_SUCH_CELL = 2

    # a key is made or decoded, keys are listed for a box, a card is read or
    # written, or an info file is read, and the grid needs more than 64 key
    # bits
    TOO_MANY_KEY_BITS = 3

    # a key is no cell of the grid
    KEY_OF_NO_CELL = 4

    # a shard number is not below 2^shard_bits, or the id asked for belongs to
    # another shard
    NO_SUCH_SHARD = 5

    # the shard is shorter than its shard index or longer than 1,073,741,824
    # bytes
    SHARD_LENGTH = 6

    # an index entry has start after end, or start before end and its end past
    # the file
    INDEX_ENTRY = 7

    # a minishard index length is no multiple of 24
    INDEX_LENGTH = 8

    # an id stands twice in a minishard
    ID_TWICE = 9

    # a listed id belongs to another shard or minishard; at an intake, with no
    # position, the announced id belongs to another shard
    ID_ELSEWHERE = 10

    # index end plus start plus size of a chunk, taken exactly, passes the file
    CHUNK_PAST_END = 11

    # the id is not listed
    NOT_LISTED = 12

    # the output is too short for the whole answer, or a settled form would
    # exceed 1,073,741,824 bytes; at an intake, on opening or announcing, the
    # settled form of all announced so far, this chunk included, would pass the
    # output or 1,073,741,824 bytes, or the second buffer has no 16 bytes left
    # for it; asked for an unpacked length, also where it does not fit 64 bits,
    # so that no output can have the room
    NO_ROOM = 13

    # the card is malformed
    CARD_MALFORMED = 14

    # the manifest's length or level count is wrong; in a mesh shard, that of a
    # listed manifest
    MANIFEST_LENGTH = 15

    # a manifest real is not finite, or a chunk shape is not above zero; in a
    # mesh shard, of a listed manifest
    MANIFEST_REAL = 16

    # a level's nodes are not in strictly rising Z-curve order; in a mesh
    # shard, of a listed manifest
    NODE_ORDER = 17

    # no such level, node or field; or, where corners are asked for, that node
    # has a position of 2^24 or more or either corner is not finite; or, where
    # a fragment is asked for, the shard is of a volume
    NO_SUCH_NODE = 18

    # not JSON, not UTF-8 or too deep, the outermost value being at depth 1 and
    # each value in another, a plain number too, one deeper; 32 is the greatest
    # depth
    INFO_NOT_JSON = 19

    # no scale k, a needed member missing, a used one doubled or of the wrong
    # kind, another @type or a refused encoding
    INFO_SETTINGS = 20

    # in a mesh shard, the fragments of a listed manifest would start before
    # the index end: the sum of its sizes, taken exactly, exceeds its start
    # relative to the index end
    FRAGMENTS_BEFORE_DATA = 21

    # a byte of a sound shard lies past the shard index in no listed chunk, no
    # fragment and no nonempty minishard index, and settling was not asked to
    # drop such bytes; after all that the check refuses and before 13
    UNLISTED_BYTES = 22

    # of a shard of the earlier two-file edition, the index file is not exactly
    # as long as the shard index; right after 5, in a listing after 33
    INDEX_FILE_LENGTH = 23

    # a range crosses the seam, is reversed or passes the end
    NO_SUCH_RANGE = 24

    # at an intake, a chunk is announced whose minishard is below the open one,
    # or is the open one and its id not above the last; or the shard was
    # closed; or the state's numbers contradict each other, the buffers'
    # lengths or the last pair of the second buffer, so that no calls could
    # have left them; at the close, and where the announced chunk is of another
    # minishard than the open one, also where the pairs of the open one are
    # none that calls could have left: an id is not above the one before it or
    # belongs to another shard or minishard, or the sizes together are not the
    # bytes that came of the minishard and are owed
    INTAKE_ORDER = 25

    # at an intake, a part is longer than what is still owed, or a chunk is
    # announced or the shard closed while bytes are owed
    INTAKE_OWED = 26

    # a total of the holdings sheet would pass 2^64 - 1, and the sheet stays as
    # before that shard; of one shard's measure, the sizes of its chunks
    # together pass it
    TOTAL_TOO_LARGE = 27

    # in a chunk of labels, a channel offset, header, packed 32-bit word or
    # table entry to be read is not whole in the chunk; at width 0 no packed
    # word is read
    LABELS_CUT_OFF = 28

    # in a chunk of labels, a whole header has a packed width other than 0, 1,
    # 2, 4, 8, 16 or 32
    LABEL_WIDTH = 29

    # at an intake, after opening, a lent buffer has another length than then
    INTAKE_BUFFERS = 30

    # a number of this library's own, beyond the papers' table: in a listing or
    # its count, a minishard number is not below 2^minishard_bits
    NO_SUCH_MINISHARD = 33


# Each number with its sentence, rising.
SENTENCES: Dict[int, str] = {
    1: "The sharding specification has a field that is not allowed.",
    2: "An extent is zero, or the cell is outside the grid.",
    3: "The grid needs more than 64 key bits.",
    4: "The key is no cell of the grid.",
    5: "There is no such shard, or the id belongs to another shard.",
    6: "The shard is shorter than its index or longer than 1 GiB.",
    7: "An entry of the shard index is reversed or ends past the file.",
    8: "A minishard index has a length that is no multiple of 24.",
    9: "An id stands twice in a minishard.",
    10: "A listed id belongs to another shard or minishard.",
    11: "A chunk ends past the file.",
    12: "The id is not listed.",
    13: "The output is too short, or the settled form is longer than 1 GiB.",
    14: "The card is malformed.",
    15: "The manifest has a wrong length or level count.",
    16: (
        "A real in the manifest is not finite, or a chunk shape is not above "
        "zero."
    ),
    17: "The nodes of a level are not in strictly rising Z-curve order.",
    18: "There is no such level, node or field, or the node has no corners.",
    19: "The info file is not JSON in UTF-8, or values in it lie too deep.",
    20: "The info file does not give the settings of this scale.",
    21: (
        "The fragments of a manifest would start before the end of the shard "
        "index."
    ),
    22: (
        "The shard has bytes that nothing lists, and dropping them was not "
        "asked for."
    ),
    23: "The index file of a pair is not exactly as long as the shard index.",
    24: (
        "The range crosses the seam of the two files, is reversed or passes "
        "the end."
    ),
    25: (
        "The chunk is out of order, the shard was closed, or no calls could "
        "have left this state."
    ),
    26: "The part is longer than what is still owed, or bytes are owed.",
    27: "A total would pass 2^64 - 1.",
    28: "Something that is to be read for a label is not whole in the chunk.",
    29: (
        "A block header has a packed width other than 0, 1, 2, 4, 8, 16 or 32 "
        "bits."
    ),
    30: "A buffer has another length than when the shard was opened.",
    33: "There is no such minishard.",
}
