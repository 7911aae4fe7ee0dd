"""Values cross processes and are copied, and every object tells what it is in
a line."""

import copy
import pickle
import unittest

import coronagamba
from coronagamba import Absent, Bounds, Card, Cell, Corners, Counts, Extents
from coronagamba import Half, Header, Held, Intake, Labels, Listed, Manifest
from coronagamba import Node, Offset, Pair, Place, Point, Refused, Shard
from coronagamba import Sharding, Sheet, Span, Visit, Volume

from .test_shard import CASE, SETTLED

VOLUME = Volume((100, 2, 3), (64, 1, 1), (-64, 0, 7))
NODE = Node((1, 2, 3), 4, 5)
VALUES = [
    CASE,
    Sharding(255, 255, 255, 255, 255),
    VOLUME,
    Card(CASE, VOLUME),
    Sheet(range(100, 117)),
    Refused(9, 0, 45),
    Refused(7, None, 0),
    Absent(12),
    Extents(1, 2, 3),
    Offset(-1, 2, 3),
    Cell(1, 2, 3),
    Point(-1, 2, 3),
    Bounds(Point(1, 2, 3), Point(4, 5, 6)),
    Place(1, 2),
    Span(1, 2),
    Listed(1, Span(2, 3)),
    Counts(1, 2, 3, 4),
    Half.INDEX,
    Held(Half.DATA, 1, 2),
    Header((1.0, 2.0, 3.0), (0.0, 0.0, 0.0)),
    NODE,
    Visit(0, 1, NODE),
    Corners((0.0, 0.0, 0.0), (1.0, 1.0, 1.0)),
]


def labels():
    return Labels(
        bytes(24), size=(2, 3, 4), block=(8, 8, 8), channels=1, bits=64
    )


# What stands over a caller's bytes, and how it tells of itself.
OVER_BYTES = [
    (
        lambda: Shard(CASE, 3, SETTLED),
        f"<Shard 3 of {CASE}: 85 bytes>",
        f"<Shard 3 of {CASE}: released>",
    ),
    (
        lambda: Pair(CASE, 0, SETTLED[:32], SETTLED[32:]),
        f"<Pair 0 of {CASE}: 32 bytes and 53 bytes>",
        f"<Pair 0 of {CASE}: released>",
    ),
    (
        lambda: Manifest(bytes(28)),
        "<Manifest: 28 bytes>",
        "<Manifest: released>",
    ),
    (
        labels,
        "<Labels of size=(2, 3, 4), block=(8, 8, 8), channels=1, bits=64:"
        " 24 bytes>",
        "<Labels of size=(2, 3, 4), block=(8, 8, 8), channels=1, bits=64:"
        " released>",
    ),
    (
        lambda: Intake(CASE, 0, 100, 16),
        "<Intake: length 32, owed 0, out 100 bytes>",
        "<Intake: length 32, owed 0, out released>",
    ),
]


def facts(value):
    """All that a value says; exceptions are not equal by themselves."""
    if isinstance(value, Refused):
        return type(value), value.args, value.paths, str(value)
    return value


class Values(unittest.TestCase):
    def copies(self, value):
        yield copy.copy(value)
        yield copy.deepcopy(value)
        for protocol in range(pickle.HIGHEST_PROTOCOL + 1):
            yield pickle.loads(pickle.dumps(value, protocol))

    def test_every_public_class_is_tried(self):
        public = {
            found
            for name in coronagamba.__all__
            for found in [getattr(coronagamba, name)]
            if isinstance(found, type)
        }
        tried = {type(value) for value in VALUES}
        tried |= {type(make()) for make, *_ in OVER_BYTES}
        self.assertEqual(tried, public)

    def test_values_are_copied_and_pickled(self):
        for value in VALUES:
            for found in self.copies(value):
                with self.subTest(value=value):
                    self.assertIs(type(found), type(value))
                    self.assertEqual(facts(found), facts(value))

    def test_the_copy_of_a_sheet_is_another_sheet(self):
        sheet = Sheet()
        for found in self.copies(sheet):
            found.add(Shard(CASE, 0, SETTLED))
            self.assertEqual((found.sound, sheet.sound), (1, 0))

    def test_the_paths_of_a_refusal_go_along(self):
        refused = Refused(9, 0, 45)
        refused.paths = ("a.index", "a.data")
        for found in self.copies(refused):
            self.assertEqual(facts(found), facts(refused))

    def test_what_a_value_shows_makes_it_again(self):
        for value in VALUES:
            if not isinstance(value, (Half, Held)):
                found = eval(repr(value), vars(coronagamba).copy())
                self.assertEqual(facts(found), facts(value))


class OverBytes(unittest.TestCase):
    def test_what_it_shows(self):
        for make, open, released in OVER_BYTES:
            made = make()
            self.assertEqual(repr(made), open)
            made.release()
            self.assertEqual(repr(made), released)

    def test_an_intake_on_its_way(self):
        intake = Intake(CASE, 0, 100, 16)
        intake.announce(4, 5)
        intake.part(b"ab")
        self.assertEqual(
            repr(intake), "<Intake: length 61, owed 3, out 100 bytes>"
        )
        intake.part(b"cde")
        intake.close()
        self.assertEqual(repr(intake), "<Intake: length 61, owed 0, closed>")

    def test_it_is_neither_copied_nor_pickled(self):
        for make, *_ in OVER_BYTES:
            made = make()
            for call in (copy.copy, copy.deepcopy, pickle.dumps):
                with self.assertRaisesRegex(
                    TypeError, f"^a {type(made).__name__} is neither copied"
                ):
                    call(made)
