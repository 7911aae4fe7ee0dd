"""Deposit cards."""

import struct
import unittest
from dataclasses import replace

from coronagamba import IDENTITY, MESH, MURMUR, VOLUME, Card, Refused
from coronagamba import Sharding, Volume


def field(tag, body):
    """A field of a card."""
    return struct.pack("<BH", tag, len(body)) + body


def fields(sharding, size, chunk):
    """The fields that every card has."""
    return [field(i + 1, bytes([n])) for i, n in enumerate(sharding)] + [
        field(5, struct.pack("<3I", *size)),
        field(6, struct.pack("<3I", *chunk)),
    ]


SHORT = Card(
    Sharding(0, IDENTITY, 1, 2, VOLUME), Volume((100, 100, 100), (64, 64, 64))
)
SHORT_FIELDS = fields((0, 0, 1, 2), (100, 100, 100), (64, 64, 64))
LONG = Card(
    Sharding(9, MURMUR, 6, 15, VOLUME),
    Volume((100, 2, 2**21), (64, 1, 3), (-64, 0, 2**31 - 1)),
)
OFFSET = field(7, struct.pack("<3i", -64, 0, 2**31 - 1))
LONG_FIELDS = fields((9, 1, 6, 15), (100, 2, 2**21), (64, 1, 3)) + [OFFSET]
KIND = field(8, b"\1")


def mesh(card):
    """The same card, of a mesh."""
    return replace(card, sharding=replace(card.sharding, kind=MESH))


class Cards(unittest.TestCase):
    def assert_malformed(self, parts):
        with self.assertRaises(Refused) as caught:
            Card.read(b"".join(parts))
        self.assertEqual(caught.exception.number, 14)

    def test_without_and_with_an_offset(self):
        for card, parts, length in (
            (SHORT, SHORT_FIELDS, 46),
            (LONG, LONG_FIELDS, 61),
            (mesh(SHORT), SHORT_FIELDS + [KIND], 50),
            (mesh(LONG), LONG_FIELDS + [KIND], 65),
        ):
            data = b"".join(parts)
            self.assertEqual(len(data), length)
            self.assertEqual(card.to_bytes(), data)
            self.assertEqual(Card.read(data), card)
            self.assertEqual(Card.read(bytearray(data)), card)

    def test_an_offset_of_zeros_is_refused(self):
        self.assert_malformed(SHORT_FIELDS + [field(7, bytes(12))])

    def test_a_kind_that_is_no_mesh_or_in_another_place(self):
        for number in (0, 2, 255):
            self.assert_malformed(SHORT_FIELDS + [field(8, bytes([number]))])
        for body in (b"", b"\1\0"):
            self.assert_malformed(SHORT_FIELDS + [field(8, body)])
        self.assert_malformed(SHORT_FIELDS + [KIND, KIND])
        self.assert_malformed(SHORT_FIELDS + [KIND, OFFSET])
        for i in range(7):
            moved = LONG_FIELDS[:i] + [KIND] + LONG_FIELDS[i:]
            self.assert_malformed(moved)

    def test_a_missing_doubled_or_displaced_field(self):
        for i in range(6):
            self.assert_malformed(LONG_FIELDS[:i] + LONG_FIELDS[i + 1:])
        for i in range(7):
            self.assert_malformed(LONG_FIELDS[:i] + LONG_FIELDS[i - 1:])
        for i in range(5):
            moved = list(LONG_FIELDS)
            moved[i], moved[i + 1] = moved[i + 1], moved[i]
            self.assert_malformed(moved)

    def test_every_cut(self):
        data = b"".join(LONG_FIELDS)
        for length in range(61):
            if length != 46:
                self.assert_malformed([data[:length]])

    def test_the_scopes_cells(self):
        card = Card.read(b"".join(SHORT_FIELDS))
        found = []
        for cell in ((1, 0, 1), (1, 1, 0)):
            key = card.volume.key(cell)
            shard, minishard = card.sharding.place(key)
            found.append((key, card.sharding.shard_name(shard), minishard))
        self.assertEqual(found, [(5, "2.shard", 1), (3, "1.shard", 1)])
        with self.assertRaises(Refused) as caught:
            card.volume.key((2, 0, 0))
        self.assertEqual(caught.exception.number, 2)
