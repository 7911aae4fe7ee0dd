"""The exceptions, and that every number of the table is met."""

import mmap
import pickle
import struct
import unittest
from ctypes import byref, c_uint8, c_uint64

from coronagamba import Absent, Card, Intake, Labels, Manifest, Pair
from coronagamba import Refused, Shard, Sharding, Sheet, Volume
from coronagamba._library import library
from coronagamba._refusals import SENTENCES
from coronagamba.refusal import answer

from .manifests import manifest
from .shards import one_minishard, rows, u64s

ONE = Sharding(0, 0, 0, 0, 0)
TWO = Sharding(0, 0, 1, 0, 0)
MESH = Sharding(0, 0, 0, 0, 1)
UNIT = (1, 1, 1)
SOUND = manifest((8, 8, 8), (0, 0, 0), [(1, (0, 0, 0), [(2**24, 0, 0, 5)])])


def shard(file, sharding=ONE, number=0):
    return Shard(sharding, number, file)


def labels(*words, size=UNIT, block=UNIT, channels=1):
    """Labels of 32 bits in a chunk of these words."""
    chunk = struct.pack(f"<{len(words)}I", *words)
    return Labels(chunk, size=size, block=block, channels=channels, bits=32)


def huge_settled_form():
    """A shard of 4,096 minishards that each list the same 300,000 bytes."""
    sharding, size, count = Sharding(0, 0, 12, 0, 0), 300_000, 4096
    index = b"".join(
        u64s(size + 24 * m, size + 24 * m + 24) for m in range(count)
    )
    tables = b"".join(rows([m], [0], [size]) for m in range(count))
    return Shard(sharding, 0, index + bytes(size) + tables)


def intake(*chunks, owed=0, closed=False):
    """An intake of two minishards with these chunks, then one that owes so
    many bytes, and closed where that is asked for."""
    made = Intake(TWO, 0, 150, 32)
    for id, data in chunks:
        made.announce(id, len(data))
        made.part(data)
    if owed:
        made.announce(0, owed)
    if closed:
        made.close()
    return made


def other_length():
    """A part with buffers of other lengths than a state says: an `Intake`
    holds its buffers, so that they stay as long as they were."""
    state, out = (c_uint64 * 15)(), c_uint8()
    word = library.coronagamba_intake_part(
        byref(state), None, 0, byref(out), 1, None, 0
    )
    answer(word)


CALLS = {
    1: [
        lambda: Sharding(64, 0, 0, 0, 0).place(0),
        lambda: Sharding(0, 2, 0, 0, 0).place(0),
        lambda: Sharding(0, 0, 17, 0, 0).places([]),
        lambda: Sharding(0, 0, 0, 33, 0).shard_name(0),
        lambda: Sharding(0, 0, 0, 0, 2).place(0),
        lambda: shard(b"", Sharding(255, 0, 0, 0, 0)).lookup(0),
        lambda: Intake(MESH, 0, 99, 16),
        lambda: Card(Sharding(64, 0, 0, 0, 0), Volume(UNIT, UNIT)).to_bytes(),
    ],
    2: [
        lambda: Volume((0, 1, 1), UNIT).grid(),
        lambda: Volume(UNIT, (1, 0, 1)).key((0, 0, 0)),
        lambda: Volume(UNIT, UNIT).key((1, 0, 0)),
        lambda: Volume(UNIT, UNIT).keys([(0, 0, 0), (0, 0, 1)]),
        lambda: Volume(UNIT, UNIT).bounds((0, 1, 0)),
        lambda: Volume(UNIT, UNIT).chunk_name((0, 0, 1)),
        lambda: Volume(UNIT, (1, 0, 1)).cell(0),
        lambda: Card(ONE, Volume(UNIT, (0, 0, 0))).to_bytes(),
        lambda: labels(1, 2, 0, 5).label((1, 0, 0)),
        lambda: labels(1, 2, 0, 5).label((0, 0, 0), 1),
        lambda: labels(1, 2, 0, 5, size=(1, 0, 1)).unpacked(),
        lambda: labels(1, 2, 0, 5, block=(1, 0, 1)).unpacked_length(),
        lambda: labels(1, 2, 0, 5, channels=0).unpack(bytearray(4)),
    ],
    3: [
        lambda: Volume((2**22, 2**22, 2**21), UNIT).key((0, 0, 0)),
        lambda: Volume((2**22, 2**22, 2**21), UNIT).keys([(0, 0, 0)]),
        lambda: Volume((2**22, 2**22, 2**21), UNIT).cell(0),
        lambda: Card(ONE, Volume((2**22, 2**22, 2**21), UNIT)).to_bytes(),
    ],
    4: [
        lambda: Volume((5, 3, 1), UNIT).cell(20),
        lambda: Volume((5, 3, 1), UNIT).cell(32),
    ],
    5: [
        lambda: Sharding(0, 0, 0, 4, 0).shard_name(16),
        lambda: Sharding(0, 0, 0, 4, 0).index_name(16),
        lambda: Sharding(0, 0, 0, 4, 0).data_name(16),
        lambda: shard(bytes(16), ONE, 1).check(),
        lambda: Pair(ONE, 1, b"", b"").check(),
        lambda: Intake(ONE, 1, 99, 16),
        lambda: shard(bytes(16), Sharding(0, 0, 0, 1, 0)).lookup(1),
        lambda: shard(bytes(16), ONE, 1).listing(1),
    ],
    6: [
        lambda: shard(b"").check(),
        lambda: shard(bytes(15)).lookup(0),
        lambda: shard(bytes(31), TWO).settled_length(),
        lambda: shard(mmap.mmap(-1, 2**30 + 1)).listing(0),
        lambda: Pair(ONE, 0, bytes(16), mmap.mmap(-1, 2**30)).check(),
        lambda: Pair(ONE, 0, bytes(16), mmap.mmap(-1, 2**30)).range(9, 0),
    ],
    7: [
        lambda: shard(u64s(1, 0)).check(),
        lambda: shard(u64s(0, 24) + bytes(23)).lookup(0),
        lambda: shard(u64s(0, 2**64 - 1)).listing(0),
    ],
    8: [
        lambda: shard(u64s(0, 25) + bytes(25)).settled(),
        lambda: shard(u64s(0, 25) + bytes(25)).unlisted(),
    ],
    9: [
        lambda: shard(one_minishard(u64s(1, 0, 0, 0, 0, 0))).check(),
        lambda: shard(
            one_minishard(u64s(1, 1, 2**64 - 1, 0, 0, 0, 0, 0, 0))
        ).check(),
    ],
    10: [
        lambda: Intake(Sharding(0, 0, 0, 1, 0), 0, 99, 16).announce(1, 0),
        lambda: shard(u64s(0, 24, 0, 0, 1, 0, 0), TWO).check(),
        lambda: shard(
            u64s(0, 24, 1, 0, 0), Sharding(0, 0, 0, 1, 0)
        ).listed_count(0),
    ],
    11: [
        lambda: shard(one_minishard(u64s(0, 0, 25))).check(),
        lambda: shard(one_minishard(u64s(0, 2**64 - 1, 1))).lookup(0),
    ],
    12: [
        lambda: shard(bytes(16)).lookup(0),
        lambda: shard(bytes(16), MESH).fragment(0, 0, 0),
    ],
    13: [
        lambda: shard(bytes(16)).settle(bytearray(15)),
        lambda: Intake(ONE, 0, 15, 16),
        lambda: Intake(ONE, 0, 40, 16).announce(0, 1),
        lambda: Intake(ONE, 0, 40, 15).announce(0, 0),
        lambda: huge_settled_form().settled(),
        lambda: huge_settled_form().settled_length(),
        lambda: labels(1, 2, 0, 5).unpack(bytearray(3)),
        lambda: labels(1, 2, 0, 5, size=(2**32 - 1,) * 3).unpacked_length(),
    ],
    14: [
        lambda: Card.read(b""),
        lambda: Card.read(Card(ONE, Volume(UNIT, UNIT)).to_bytes() + b"\0"),
    ],
    15: [
        lambda: Manifest(bytes(27)).check(),
        lambda: Manifest(SOUND + b"\0").header(),
        lambda: Manifest(SOUND + b"\0").nodes_of(1),
        lambda: Manifest(bytes(24) + u64s(33)[:4]).nodes(),
        lambda: Manifest(mmap.mmap(-1, 2**24 + 4)).check(),
    ],
    16: [
        lambda: Manifest(manifest((0, 1, 1), (0, 0, 0), [])).check(),
        lambda: Manifest(
            manifest((1, 1, 1), (0, float("inf"), 0), [])
        ).header(),
        lambda: Manifest(
            manifest((1, 1, 1), (0, 0, 0), [(float("nan"), (0, 0, 0), [])])
        ).nodes(),
    ],
    17: [
        lambda: Manifest(
            manifest(
                (1, 1, 1),
                (0, 0, 0),
                [(1, (0, 0, 0), [(0, 1, 0, 0), (1, 0, 0, 0)])],
            )
        ).nodes(),
    ],
    18: [
        lambda: Manifest(SOUND).field(16),
        lambda: Manifest(SOUND).node(1, 0),
        lambda: Manifest(SOUND).node(2**32, 0),
        lambda: Manifest(SOUND).field(2**64 - 1),
        lambda: Manifest(SOUND).node(0, 1),
        lambda: Manifest(SOUND).nodes_of(1),
        lambda: Manifest(SOUND).corners(0, 0),
        lambda: shard(one_minishard(u64s(0, 0, 0))).fragment(0, 0, 0),
    ],
    19: [
        lambda: Card.read_info(b"", 0),
        lambda: Card.read_info(b"{", 0),
        lambda: Card.read_info(b'"\xff"', 0),
        lambda: Card.read_info(b"[" * 33 + b"]" * 33, 0),
    ],
    20: [
        lambda: Card.read_info(b"{}", 0),
        lambda: Card.read_info(b'{"scales": [{}]}', 0),
        lambda: Card.read_info(b'{"scales": []}', 2**64 - 1),
    ],
    21: [
        # A fragment of 5 bytes, and 4 before the manifest.
        lambda: shard(
            u64s(4 + len(SOUND), 28 + len(SOUND))
            + bytes(4)
            + SOUND
            + u64s(0, 4, len(SOUND)),
            MESH,
        ).check(),
    ],
    22: [
        lambda: shard(bytes(17)).settled_length(),
        lambda: shard(bytes(17)).settle(bytearray(15)),
        lambda: shard(bytes(17)).settled(drop_unlisted=False),
        lambda: Pair(ONE, 0, bytes(16), bytes(1)).settled(),
    ],
    23: [
        lambda: Pair(ONE, 0, b"", bytes(16)).check(),
        lambda: Pair(ONE, 0, bytes(15), b"").lookup(0),
        lambda: Pair(ONE, 0, bytes(17), b"").listing(0),
        lambda: Pair(TWO, 0, bytes(16), bytes(16)).settled_length(),
        lambda: Pair(ONE, 0, bytes(17), b"").range(0, 0),
        lambda: Pair(ONE, 1, bytes(17), b"").range(9, 0),
        lambda: Pair(ONE, 0, b"", mmap.mmap(-1, 2**30 + 1)).check(),
    ],
    24: [
        lambda: Pair(ONE, 0, bytes(16), b"ab").range(15, 17),
        lambda: Pair(ONE, 0, bytes(16), b"ab").range(1, 0),
        lambda: Pair(ONE, 0, bytes(16), b"ab").locate_range(16, 19),
        lambda: Pair(ONE, 0, bytes(16), b"").range(2**64 - 1, 2**64 - 1),
    ],
    25: [
        lambda: intake((1, b"")).announce(0, 0),
        lambda: intake((1, b"")).announce(1, 0),
        lambda: intake(closed=True).announce(0, 0),
        lambda: intake(closed=True).part(b""),
        lambda: intake(closed=True).close(),
    ],
    26: [
        lambda: intake().part(b"a"),
        lambda: intake((0, b"a")).part(b"a"),
        lambda: intake(owed=1).part(b"ab"),
        lambda: intake(owed=1).announce(2, 0),
        lambda: intake(owed=1).close(),
    ],
    27: [
        lambda: Sheet([2**64 - 1] * 17).add(shard(bytes(16))),
        lambda: Sheet([2**64 - 1] * 17).add(shard(b"")),
        lambda: Sheet([2**64 - 1] * 17).add(Pair(ONE, 0, b"", b"")),
        lambda: Sheet([2**63] * 17).join(Sheet([2**63] * 17)),
    ],
    28: [
        lambda: labels().label((0, 0, 0)),
        lambda: labels(1, 2).label((0, 0, 0)),
        lambda: labels(1, 2, 0).unpacked(),
        lambda: labels(1, 1 << 24, 2).unpack(bytearray()),
        lambda: labels(1, 2, 0, 5, size=(2, 1, 1)).view(),
    ],
    29: [
        lambda: labels(1, 3 << 24, 0).label((0, 0, 0)),
        lambda: labels(1, 33 << 24, 0).unpacked(),
        lambda: labels(1, 255 << 24, 0).unpack(bytearray()),
    ],
    30: [other_length],
    33: [
        lambda: shard(bytes(16)).listing(1),
        lambda: shard(b"").listed_count(2**64 - 1),
        lambda: Pair(ONE, 0, bytes(17), b"").listing(1),
    ],
}


class EveryNumber(unittest.TestCase):
    def test_the_table_is_whole(self):
        self.assertEqual(sorted(CALLS), list(SENTENCES))

    def test_each_number_is_met(self):
        for number, calls in CALLS.items():
            for place, call in enumerate(calls):
                with self.subTest(number=number, place=place):
                    with self.assertRaises(Refused) as caught:
                        call()
                    self.assertEqual(caught.exception.number, number)
                    self.assertIs(
                        isinstance(caught.exception, Absent), number == 12
                    )

    def test_a_card_refuses_14_first_and_3_last(self):
        malformed = struct.pack("<BHB", 1, 1, 64)
        faulty = bytearray(Card(ONE, Volume(UNIT, UNIT)).to_bytes())
        faulty[3] = 64
        # The volume's extents, of a grid with 65 key bits.
        faulty[19:31] = struct.pack("<3I", 2**22, 2**22, 2**21)
        for data, number in ((malformed, 14), (faulty, 1)):
            with self.assertRaises(Refused) as caught:
                Card.read(data)
            self.assertEqual(caught.exception.number, number)
        faulty[3] = 0
        with self.assertRaises(Refused) as caught:
            Card.read(faulty)
        self.assertEqual(caught.exception.number, 3)


def second(entry, table):
    """A shard of two minishards: the first is empty, the second has this entry
    and this index behind five bytes, from byte 37 on."""
    return u64s(0, 0, *entry) + b"abcde" + u64s(*table)


# A shard whose second minishard has the fault of this number, and the byte to
# look at. Ids 5, 11 and 7 have their id steps at bytes 37, 45 and 53, their
# start steps at bytes 61, 69 and 77.
FAULTY = [
    (7, 16, second((77, 5), [])),
    (7, 16, second((5, 78), [5, 6, 2**64 - 4, 0, 0, 0, 1, 1, 1])),
    (8, 16, second((5, 76), [5, 6, 2**64 - 4, 0, 0, 0, 1, 1, 1])),
    (9, 45, second((5, 77), [5, 0, 2, 0, 0, 0, 1, 1, 1])),
    (9, 53, second((5, 77), [5, 6, 2**64 - 6, 0, 0, 0, 1, 1, 1])),
    (9, 53, second((5, 77), [5, 6, 0, 0, 0, 0, 1, 1, 1])),
    (10, 37, second((5, 77), [4, 6, 2, 0, 0, 0, 1, 1, 1])),
    (10, 53, second((5, 77), [5, 6, 1, 0, 0, 0, 1, 1, 999])),
    (11, 61, second((5, 77), [5, 6, 2, 0, 0, 0, 999, 1, 1])),
    (11, 77, second((5, 77), [5, 6, 2, 0, 0, 0, 1, 1, 999])),
    (11, 69, second((5, 77), [5, 6, 2, 0, 999, 0, 1, 1, 1])),
]


class Places(unittest.TestCase):
    def assert_refused(self, call, *expected):
        with self.assertRaises(Refused) as caught:
            call()
        refusal = caught.exception
        self.assertEqual(refusal.args, expected)
        told = refusal.number, refusal.minishard, refusal.position
        self.assertEqual(told, expected)

    def test_the_check_names_minishard_and_position(self):
        for number, byte, file in FAULTY:
            with self.subTest(number=number, byte=byte):
                shard = Shard(TWO, 0, file)
                self.assert_refused(shard.check, number, 1, byte)

    def test_a_pair_gives_the_places_of_the_joined_file(self):
        for number, byte, file in FAULTY:
            with self.subTest(number=number, byte=byte):
                pair = Pair(TWO, 0, file[:32], file[32:])
                self.assert_refused(pair.check, number, 1, byte)
                self.assert_refused(
                    lambda: pair.chunk(5), number, None, byte
                )

    def test_the_others_pass_the_position_on(self):
        for number, byte, file in FAULTY:
            shard = Shard(TWO, 0, file)
            for call in (
                lambda: shard.lookup(5),
                lambda: shard.chunk(1),
                lambda: shard.listed_count(1),
                lambda: shard.listing(1),
                shard.unlisted,
                shard.settled_length,
                shard.settled,
                lambda: shard.settle(bytearray(200)),
                lambda: shard.settled_length(drop_unlisted=True),
                lambda: shard.settle(bytearray(200), drop_unlisted=True),
            ):
                with self.subTest(number=number, byte=byte):
                    self.assert_refused(call, number, None, byte)
            # The first minishard has no fault.
            self.assertEqual(shard.listed_count(0), 0)

    def test_minishard_0_and_byte_0_are_told_from_none(self):
        shard = Shard(TWO, 0, u64s(1, 0, 1, 0))
        self.assert_refused(shard.check, 7, 0, 0)
        self.assert_refused(lambda: shard.lookup(0), 7, None, 0)

    def test_the_other_numbers_name_no_place(self):
        self.assert_refused(Shard(TWO, 0, b"").check, 6, None, None)
        self.assert_refused(Shard(TWO, 1, bytes(32)).check, 5, None, None)
        shard = Shard(TWO, 0, bytes(32))
        self.assert_refused(lambda: shard.lookup(3), 12, None, None)
        short = bytearray(31)
        self.assert_refused(lambda: shard.settle(short), 13, None, None)
        shard = Shard(TWO, 0, bytes(33))
        self.assert_refused(shard.settled, 22, None, None)
        self.assert_refused(lambda: shard.settle(short), 22, None, None)


class Exceptions(unittest.TestCase):

    def test_absent_is_a_key_error(self):
        with self.assertRaises(KeyError) as caught:
            Shard(ONE, 0, bytes(16)).chunk(0)
        self.assertEqual(
            str(caught.exception), "refused 12: The id is not listed."
        )

    def test_each_number_has_a_sentence_of_its_own(self):
        sentences = {Refused(number).sentence for number in SENTENCES}
        self.assertEqual(len(sentences), len(SENTENCES))
        self.assertNotIn(Refused(0).sentence, sentences)

    def test_the_place_is_shown(self):
        sentence = "refused 11: A chunk ends past the file."
        for minishard, position, place in (
            (None, None, ""),
            (3, None, " The fault is in minishard 3."),
            (None, 0, " The fault is at byte 0."),
            (0, 460, " The fault is in minishard 0, at byte 460."),
        ):
            refusal = Refused(11, minishard, position)
            self.assertEqual(str(refusal), sentence + place)

    def test_exceptions_can_cross_processes(self):
        for refusal in (Refused(7, 3, 48), Refused(9, None, 0), Absent(12)):
            copy = pickle.loads(pickle.dumps(refusal))
            self.assertIs(type(copy), type(refusal))
            self.assertEqual(copy.args, refusal.args)
            self.assertEqual(copy.minishard, refusal.minishard)
            self.assertEqual(copy.position, refusal.position)

    def test_numbers_have_names(self):
        self.assertEqual(Refused.NOT_LISTED, 12)
        with self.assertRaises(Refused) as caught:
            Sharding(64, 0, 0, 0, 0).place(0)
        self.assertEqual(
            caught.exception.number, Refused.SHARDING_NOT_ALLOWED
        )

    def test_answer_words(self):
        answer(0)
        for word, expected in (
            (13, (13, None, None)),
            (7 + 256, (7, 0, None)),
            (11 + 256 * 4096, (11, 4095, None)),
            (9 + 256 * 65536, (9, 65535, None)),
            (9 + 256 * 4 + (77 << 32), (9, 3, 76)),
            (7 + (1 << 32), (7, None, 0)),
            (11 + (1 << 62), (11, None, 2**30 - 1)),
            (2**64 - 1, (255, 2**24 - 2, 2**32 - 2)),
        ):
            with self.assertRaises(Refused) as caught:
                answer(word)
            self.assertEqual(caught.exception.args, expected)
