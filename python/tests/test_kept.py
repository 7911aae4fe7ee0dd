"""The C functions themselves, through the declarations: what they give, and
that a refusal leaves everything behind the result pointers as it was."""

import ctypes
import struct
import unittest
from ctypes import byref, c_int32, c_int64, c_uint8, c_uint32, c_uint64

from coronagamba import _declared
from coronagamba._library import library

from .manifests import manifest
from .shards import u64s

KEPT = 0x55
ALLOWED = _declared.CSharding(0, 0, 1, 0, 0)
FORBIDDEN = _declared.CSharding(64, 0, 0, 0, 0)
# An allowed specification with 256 more in one field, in each field once: cut
# to a byte, it would be the allowed one.
TOO_WIDE = [
    _declared.CSharding(*(256 * (i == field) + (i == 2) for i in range(5)))
    for field in range(5)
]
UNIT = _declared.Volume((1, 1, 1), (1, 1, 1), (0, 0, 0))
ROW = _declared.Volume((3, 1, 1), (1, 1, 1), (0, 0, 0))
NO_VOLUME = _declared.Volume()
CORNER = _declared.Point(0, 0, 0)
FAR = _declared.Point(2**63 - 1, 1, 1)
CELL = _declared.Cell(0, 0, 0)
# The first minishard is empty, the second one's entry is reversed.
FILE = (c_uint8 * 32).from_buffer_copy(u64s(0, 0, 1, 0))
SHARD = (ALLOWED, 0, FILE, 32)
# A shard of a volume that lists id 0.
LISTING = (c_uint8 * 56).from_buffer_copy(u64s(0, 24, 0, 0, 0, 0, 0))
LISTED = (ALLOWED, 0, LISTING, 56)
# One that lists nothing, with a byte behind its shard index.
MORE = (c_uint8 * 33)()
UNLISTED = (ALLOWED, 0, MORE, 33)
# The same three in two files each, and the length of an index file.
PAIR = (ALLOWED, 0, FILE, 32, None, 0)
ROWS = (c_uint8 * 24)()
LISTED_PAIR = (ALLOWED, 0, LISTING, 32, ROWS, 24)
UNLISTED_PAIR = (ALLOWED, 0, MORE, 32, MORE, 1)
LONG = (ALLOWED, 0, MORE, 33, MORE, 1)
NO_SCALES = (c_uint8 * 2).from_buffer_copy(b"{}")
MANIFEST = (c_uint8 * 28).from_buffer_copy(manifest((1, 1, 1), (0, 0, 0), []))
# One label of 32 bits, and one of another width.
ONE = _declared.Extents(1, 1, 1)
SHAPE = (ONE, ONE, 1, 32)
NO_SHAPE = (_declared.Extents(), ONE, 1, 32)
NO_WIDTH = (ONE, ONE, 1, 1)
# 32 and 64 where they are cut to a byte.
WIDE_32 = (ONE, ONE, 1, 256 + 32)
WIDE_64 = (ONE, ONE, 1, 256 + 64)
WIDE = (_declared.Extents(2**31, 2**31, 2), ONE, 1, 32)
LABELLED = (c_uint8 * 16).from_buffer_copy(struct.pack("<4I", 1, 2, 0, 5))
WIDTH = (c_uint8 * 12).from_buffer_copy(struct.pack("<3I", 1, 3 << 24, 0))
CELLS = (c_uint32 * 6)()
IDS = (c_uint64 * 2)()


def filled(kind):
    """A value of a ctypes type, of bytes that no answer has."""
    return kind.from_buffer_copy(bytes([KEPT]) * ctypes.sizeof(kind))


U64 = c_uint64
THREE_U32 = c_uint32 * 3
THREE_I64 = c_int64 * 3
TWO_U64 = c_uint64 * 2
RANGE = [c_uint32, c_uint64, c_uint64]
STATE = c_uint64 * 15
OUT = (c_uint8 * 40, 40)
WAITING = (c_uint8 * 16, 16)
# The word of a fault in the second entry of the shard index.
SECOND = 7 + (16 + 1 << 32)
# The same with its minishard.
SECOND_MINISHARD = SECOND + (2 << 8)
# A refusing call: its word, the function, what it is given in front, and
# the types of what it could write, with a count where it asks for one, and
# numbers that stand between them.
CALLS = [
    (2, "grid_of", (NO_VOLUME,), [THREE_U32]),
    (2, "key_of", (NO_VOLUME, CELL), [U64]),
    (2, "keys_of", (NO_VOLUME, CELLS, 6), [(TWO_U64, 2), U64]),
    (13, "keys_of", (UNIT, CELLS, 6), [(c_uint64 * 1, 1), U64]),
    (2, "row_keys", (NO_VOLUME, 0, 2, 0, 0), [(TWO_U64, 2), U64]),
    (13, "row_keys", (ROW, 0, 3, 0, 0), [(TWO_U64, 2), U64]),
    (2, "cover", (NO_VOLUME, CORNER, FAR), [(TWO_U64, 2), U64]),
    (13, "cover", (ROW, CORNER, FAR), [(TWO_U64, 2), U64]),
    (2, "cell_of", (NO_VOLUME, 0), [THREE_U32]),
    (4, "cell_of", (UNIT, 1), [THREE_U32]),
    (2, "bounds_of", (NO_VOLUME, CELL), [THREE_I64, THREE_I64]),
    (2, "chunk_name", (NO_VOLUME, CELL), [(c_uint8 * 40, 40), U64]),
    (13, "chunk_name", (UNIT, CELL), [(c_uint8 * 10, 10), U64]),
    (1, "place_of", (FORBIDDEN, 0), [U64, U64]),
    (
        1,
        "places_of",
        (FORBIDDEN, IDS, 2),
        [(TWO_U64, 2), (TWO_U64, 2), U64],
    ),
    (
        13,
        "places_of",
        (ALLOWED, IDS, 2),
        [(TWO_U64, 2), (c_uint64 * 1, 1), U64],
    ),
    (1, "shard_name", (FORBIDDEN, 0), [(c_uint8 * 20, 20), U64]),
    (5, "shard_name", (ALLOWED, 1), [(c_uint8 * 20, 20), U64]),
    (13, "shard_name", (ALLOWED, 0), [(c_uint8 * 6, 6), U64]),
    (1, "index_name", (FORBIDDEN, 0), [(c_uint8 * 20, 20), U64]),
    (13, "index_name", (ALLOWED, 0), [(c_uint8 * 6, 6), U64]),
    (5, "data_name", (ALLOWED, 1), [(c_uint8 * 20, 20), U64]),
    (13, "data_name", (ALLOWED, 0), [(c_uint8 * 5, 5), U64]),
    (SECOND, "pair_lookup", PAIR + (1,), [U64, U64]),
    (12, "pair_lookup", PAIR + (2,), [U64, U64]),
    (23, "pair_lookup", LONG + (2,), [U64, U64]),
    (SECOND, "pair_fragment", PAIR + (1, 0, 0), [U64, U64]),
    (18, "pair_fragment", LISTED_PAIR + (0, 0, 0), [U64, U64]),
    (SECOND, "pair_listed_count", PAIR + (1,), [U64]),
    (SECOND, "pair_listing", PAIR + (1,), [(c_uint64 * 3, 3), U64]),
    (23, "pair_listing", LONG + (1,), [(c_uint64 * 3, 3), U64]),
    (33, "pair_listed_count", LONG + (2,), [U64]),
    (33, "pair_listing", LONG + (2,), [(c_uint64 * 3, 3), U64]),
    (SECOND, "pair_unlisted", PAIR, [U64]),
    (SECOND, "pair_settled_length", PAIR + (1,), [U64]),
    (22, "pair_settled_length", UNLISTED_PAIR + (0,), [U64]),
    (22, "pair_settle", UNLISTED_PAIR + (0,), [(c_uint8 * 31, 31), U64]),
    (13, "pair_settle", UNLISTED_PAIR + (1,), [(c_uint8 * 31, 31), U64]),
    (23, "pair_settle", LONG + (1,), [(c_uint8 * 40, 40), U64]),
    (24, "pair_range", (ALLOWED, FILE, 32, MORE, 9, 31, 33), RANGE),
    (23, "pair_range", (ALLOWED, MORE, 33, MORE, 9, 0, 0), RANGE),
    (1, "pair_range", (FORBIDDEN, FILE, 32, MORE, 9, 0, 0), RANGE),
    (SECOND_MINISHARD, "pair_measure", PAIR, [c_uint64 * 4]),
    (23, "pair_measure", LONG, [c_uint64 * 4]),
    (SECOND_MINISHARD, "measure", SHARD, [c_uint64 * 4]),
    (1, "measure", (FORBIDDEN, 0, FILE, 32), [c_uint64 * 4]),
    (SECOND, "lookup", SHARD + (1,), [U64, U64]),
    (12, "lookup", SHARD + (2,), [U64, U64]),
    (SECOND, "fragment", SHARD + (1, 0, 0), [U64, U64]),
    (12, "fragment", SHARD + (2, 0, 0), [U64, U64]),
    (18, "fragment", LISTED + (0, 0, 0), [U64, U64]),
    (SECOND, "listed_count", SHARD + (1,), [U64]),
    (SECOND, "listing", SHARD + (1,), [(c_uint64 * 3, 3), U64]),
    (33, "listed_count", SHARD + (2,), [U64]),
    (33, "listing", SHARD + (2,), [(c_uint64 * 3, 3), U64]),
    (SECOND, "unlisted", SHARD, [U64]),
    (SECOND, "settled_length", SHARD + (0,), [U64]),
    (SECOND, "settled_length", SHARD + (1,), [U64]),
    (SECOND, "settle", SHARD + (0,), [(c_uint8 * 40, 40), U64]),
    (SECOND, "settle", SHARD + (1,), [(c_uint8 * 40, 40), U64]),
    (22, "settled_length", UNLISTED + (0,), [U64]),
    (22, "settle", UNLISTED + (0,), [(c_uint8 * 31, 31), U64]),
    (13, "settle", UNLISTED + (1,), [(c_uint8 * 31, 31), U64]),
    (1, "intake_open", (FORBIDDEN, 0), [OUT, WAITING, STATE]),
    (5, "intake_open", (ALLOWED, 1), [OUT, WAITING, STATE]),
    (13, "intake_open", (ALLOWED, 0), [(c_uint8 * 31, 31), WAITING, STATE]),
    (30, "intake_announce", (), [STATE, 5, 2, OUT, WAITING]),
    (30, "intake_part", (), [STATE, (c_uint8 * 2, 2), OUT, WAITING]),
    (30, "intake_close", (), [STATE, OUT, WAITING, U64]),
    (
        14,
        "card_read",
        (FILE, 32),
        [c_uint8 * 5, THREE_U32, THREE_U32, c_int32 * 3],
    ),
    (
        19,
        "info_read",
        (FILE, 32, 0),
        [c_uint8 * 5, THREE_U32, THREE_U32, c_int32 * 3],
    ),
    (
        20,
        "info_read",
        (NO_SCALES, 2, 0),
        [c_uint8 * 5, THREE_U32, THREE_U32, c_int32 * 3],
    ),
    (1, "card_write", (FORBIDDEN, UNIT), [(c_uint8 * 65, 65), U64]),
    (13, "card_write", (ALLOWED, UNIT), [(c_uint8 * 45, 45), U64]),
    (15, "manifest_header", (FILE, 27), [c_uint32 * 6]),
    (18, "manifest_field", (MANIFEST, 28, 7), [c_uint32, c_uint32]),
    (18, "manifest_node", (MANIFEST, 28, 0, 0), [THREE_U32, U64, c_uint32]),
    (18, "manifest_nodes", (MANIFEST, 28, 0), [(c_uint64 * 5, 5), U64]),
    (18, "manifest_corners", (MANIFEST, 28, 0, 0), [THREE_U32, THREE_U32]),
    (2, "label", (LABELLED, 16, *SHAPE, 0, 0, 0, 1), [U64]),
    (2, "label", (LABELLED, 16, *NO_WIDTH, 0, 0, 0, 0), [U64]),
    (28, "label", (LABELLED, 15, *SHAPE, 0, 0, 0, 0), [U64]),
    (29, "label", (WIDTH, 12, *SHAPE, 0, 0, 0, 0), [U64]),
    (2, "unpacked_length", NO_SHAPE, [U64]),
    (2, "unpacked_length", NO_WIDTH, [U64]),
    (13, "unpacked_length", WIDE, [U64]),
    (2, "unpack", (LABELLED, 16, *NO_SHAPE), [(c_uint8 * 9, 9), U64]),
    (2, "unpack", (LABELLED, 16, *NO_WIDTH), [(c_uint8 * 9, 9), U64]),
    (28, "unpack", (LABELLED, 15, *SHAPE), [(c_uint8 * 9, 9), U64]),
    (29, "unpack", (WIDTH, 12, *SHAPE), [(c_uint8 * 3, 3), U64]),
    (13, "unpack", (LABELLED, 16, *SHAPE), [(c_uint8 * 3, 3), U64]),
]

# A number that the format has no room for is refused, and not cut off.
for wide in TOO_WIDE:
    ON_SHARD = (wide, 0, LISTING, 56)
    ON_PAIR = (wide, 0, LISTING, 32, ROWS, 24)
    CALLS += [
        (1, "place_of", (wide, 0), [U64, U64]),
        (1, "places_of", (wide, IDS, 2), [(TWO_U64, 2), (TWO_U64, 2), U64]),
        (1, "shard_name", (wide, 0), [(c_uint8 * 20, 20), U64]),
        (1, "index_name", (wide, 0), [(c_uint8 * 20, 20), U64]),
        (1, "data_name", (wide, 0), [(c_uint8 * 20, 20), U64]),
        (1, "card_write", (wide, UNIT), [(c_uint8 * 65, 65), U64]),
        (1, "intake_open", (wide, 0), [OUT, WAITING, STATE]),
        (1, "pair_range", (wide, LISTING, 32, ROWS, 24, 0, 0), RANGE),
    ]
    for pair, front in (("", ON_SHARD), ("pair_", ON_PAIR)):
        CALLS += [
            (1, f"{pair}lookup", front + (0,), [U64, U64]),
            (1, f"{pair}fragment", front + (0, 0, 0), [U64, U64]),
            (1, f"{pair}listed_count", front + (0,), [U64]),
            (1, f"{pair}listing", front + (0,), [(c_uint64 * 3, 3), U64]),
            (1, f"{pair}unlisted", front, [U64]),
            (1, f"{pair}settled_length", front + (0,), [U64]),
            (1, f"{pair}settle", front + (0,), [(c_uint8 * 64, 64), U64]),
            (1, f"{pair}measure", front, [c_uint64 * 4]),
        ]
for wish in (257, 2**32 + 1):
    for pair, front in (("", UNLISTED), ("pair_", UNLISTED_PAIR)):
        CALLS += [
            (22, f"{pair}settled_length", front + (wish,), [U64]),
            (22, f"{pair}settle", front + (wish,), [(c_uint8 * 40, 40), U64]),
        ]
for shape in (WIDE_32, WIDE_64):
    CALLS += [
        (2, "label", (LABELLED, 16, *shape, 0, 0, 0, 0), [U64]),
        (2, "unpacked_length", shape, [U64]),
        (2, "unpack", (LABELLED, 16, *shape), [(c_uint8 * 9, 9), U64]),
    ]

ONE_CHUNK = (c_uint64 * 17)(*[0] * 14, 1, 0, 0)
# Calls on a sheet: the row to which each adds 1, and what is behind the sheet.
SHEET_CALLS = [
    ("sheet_add", 0, LISTED),
    ("sheet_add", 4, SHARD),
    ("sheet_add", 14, LISTED),
    ("sheet_add", 16, UNLISTED),
    ("pair_sheet_add", 0, LISTED_PAIR),
    ("pair_sheet_add", 13, LONG),
    ("sheet_join", 14, (byref(ONE_CHUNK),)),
]
# The row of 1.
for wide in TOO_WIDE:
    SHEET_CALLS += [
        ("sheet_add", 1, (wide, 0, LISTING, 56)),
        ("pair_sheet_add", 1, (wide, 0, LISTING, 32, ROWS, 24)),
    ]


class Kept(unittest.TestCase):
    def test_a_refusal_leaves_all_as_it_was(self):
        for word, name, front, outputs in CALLS:
            with self.subTest(word=word, name=name):
                values, arguments = [], list(front)
                for output in outputs:
                    if isinstance(output, tuple):
                        kind, count = output
                        values.append(filled(kind))
                        arguments += [values[-1], count]
                    elif isinstance(output, int):
                        arguments.append(output)
                    else:
                        values.append(filled(output))
                        arguments.append(byref(values[-1]))
                call = getattr(library, f"coronagamba_{name}")
                self.assertEqual(call(*arguments), word)
                for value in values:
                    self.assertEqual(set(bytes(value)), {KEPT})

    def test_every_function_with_results_is_tried(self):
        without = {"version", "check", "pair_check", "manifest_check"}
        tried = {f"coronagamba_{name}" for _, name, *_ in CALLS}
        tried |= {f"coronagamba_{name}" for name, *_ in SHEET_CALLS}
        tried |= {f"coronagamba_{name}" for name in without}
        self.assertEqual(tried, set(_declared.FUNCTIONS))

    def test_a_full_sheet_stays(self):
        for name, row, arguments in SHEET_CALLS:
            with self.subTest(name=name):
                call = getattr(library, f"coronagamba_{name}")
                sheet = filled(c_uint64 * 17)
                sheet[row] = 2**64 - 1
                kept = bytes(sheet)
                self.assertEqual(call(byref(sheet), *arguments), 27)
                self.assertEqual(bytes(sheet), kept)
                sheet[row] -= 1
                expected = list(sheet)
                expected[row] += 1
                self.assertEqual(call(byref(sheet), *arguments), 0)
                self.assertEqual(sheet[row], expected[row])

    def test_the_checks_word_carries_the_minishard_too(self):
        word = SECOND + 256 * 2
        self.assertEqual(library.coronagamba_check(*SHARD), word)
        self.assertEqual(library.coronagamba_pair_check(*PAIR), word)

    def test_the_checks_refuse_what_no_byte_holds(self):
        for wide in TOO_WIDE:
            check = library.coronagamba_check
            self.assertEqual(check(wide, 0, LISTING, 56), 1)
            check = library.coronagamba_pair_check
            self.assertEqual(check(wide, 0, LISTING, 32, ROWS, 24), 1)
