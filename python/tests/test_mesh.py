"""Mesh shards: manifests with their fragments (change requests, order 7)."""

import random
import unittest
from dataclasses import replace

from coronagamba import IDENTITY, MESH, MURMUR, VOLUME, Absent, Manifest
from coronagamba import Refused, Shard, Sharding, Span

from . import shards
from .manifests import manifest, z_place
from .shards import u64s

ONE = Sharding(0, IDENTITY, 0, 0, MESH)


def nodes(rng):
    """Positions on the Z curve, each with a fragment's bytes."""
    places = {
        tuple(rng.randrange(4) for _ in range(3))
        for _ in range(rng.randrange(4))
    }
    return [
        (*place, rng.randbytes(rng.choice([0, 1, 5])))
        for place in sorted(places, key=z_place)
    ]


class Net:
    """The fragments of a net, by level and node, and its manifest."""

    def __init__(self, *levels):
        self.fragments = {
            (level, node): fragment
            for level, found in enumerate(levels)
            for node, (*_, fragment) in enumerate(found)
        }
        self.lead = b"".join(self.fragments.values())
        sized = [
            (1, (0, 0, 0), [(x, y, z, len(f)) for x, y, z, f in found])
            for found in levels
        ]
        self.manifest = manifest((1, 1, 1), (0, 0, 0), sized)


def nets(rng, sharding, number):
    """Random nets of a shard, by id."""
    return {
        id: Net(*(nodes(rng) for _ in range(rng.randrange(3))))
        for id in {rng.getrandbits(rng.choice([8, 64])) for _ in range(20)}
        if shards.place(sharding, id)[0] == number
    }


def samples(seed, count):
    """Random specifications, shard numbers and nets."""
    rng = random.Random(seed)
    for _ in range(count):
        sharding = Sharding(
            rng.choice([0, 1, 9]),
            rng.choice([IDENTITY, MURMUR]),
            rng.randrange(3),
            rng.randrange(2),
            MESH,
        )
        number = rng.randrange(2**sharding.shard_bits)
        yield rng, sharding, number, nets(rng, sharding, number)


def parts(found):
    """The manifests and the leads of nets, by id."""
    manifests = {id: net.manifest for id, net in found.items()}
    return manifests, {id: net.lead for id, net in found.items()}


class Layouts(unittest.TestCase):
    def test_each_fragment_of_each_layout(self):
        asked = 0
        for rng, sharding, number, found in samples(1, 60):
            content, leads = parts(found)
            form = shards.settled(sharding, content, leads)
            for file in (
                form,
                shards.scattered(sharding, content, rng, leads=leads),
            ):
                shard = Shard(sharding, number, file)
                shard.check()
                self.assertEqual(shard.settled(drop_unlisted=True), form)
                length = shard.settled_length(drop_unlisted=True)
                self.assertEqual(length, len(form))
                self.assertEqual(
                    shard.unlisted(), shards.unlisted(sharding, file, leads)
                )
                for id, net in found.items():
                    self.assertEqual(shard.chunk(id), net.manifest)
                    for (level, node), bytes in net.fragments.items():
                        fragment = shard.fragment(id, level, node)
                        self.assertEqual(fragment, bytes)
                        asked += 1
        self.assertGreater(asked, 500)

    def test_another_byte_of_a_fragment_settles_otherwise(self):
        changed = 0
        for _, sharding, number, found in samples(2, 60):
            content, leads = parts(found)
            filled = [id for id, lead in leads.items() if lead]
            if not filled:
                continue
            other = dict(leads)
            first = other[filled[0]]
            other[filled[0]] = bytes([first[0] ^ 1]) + first[1:]
            forms = [
                Shard(
                    sharding, number, shards.settled(sharding, content, some)
                ).settled()
                for some in (leads, other)
            ]
            self.assertNotEqual(*forms)
            changed += 1
        self.assertGreater(changed, 30)

    def test_a_volume_loses_what_nothing_lists(self):
        for _, sharding, number, found in samples(3, 20):
            content, leads = parts(found)
            file = shards.settled(sharding, content, leads)
            volume = replace(sharding, kind=VOLUME)
            shard = Shard(volume, number, file)
            shard.check()
            lost = sum(len(lead) for lead in leads.values())
            self.assertEqual(shard.unlisted(), lost)
            self.assertEqual(
                shard.settled(drop_unlisted=True),
                shards.settled(volume, content),
            )


class Fragments(unittest.TestCase):
    def setUp(self):
        self.net = Net([(0, 0, 0, b"near"), (1, 0, 0, b"")], [(0, 0, 0, b"f")])
        content, leads = {9: self.net.manifest}, {9: self.net.lead}
        self.file = shards.settled(ONE, content, leads)
        self.shard = Shard(ONE, 0, self.file)

    def assert_refused(self, call, *expected):
        with self.assertRaises(Refused) as caught:
            call()
        self.assertEqual(caught.exception.args, expected)

    def test_places(self):
        self.assertEqual(self.shard.lookup(9).start, 16 + 5)
        lookup = self.shard.lookup_fragment
        self.assertEqual(lookup(9, 0, 0), Span(start=16, length=4))
        self.assertEqual(lookup(9, 0, 1), (20, 0))
        self.assertEqual(lookup(9, 1, 0), (20, 1))

    def test_a_part_of_the_callers_bytes(self):
        data = bytearray(self.file)
        with Shard(ONE, 0, data) as shard:
            fragment = shard.fragment(9, 0, 0)
            self.assertTrue(fragment.readonly)
            data[16:20] = b"here"
            self.assertEqual(fragment, b"here")
            fragment.release()

    def test_no_such_node(self):
        wide = ((2**32, 0), (0, 2**64 - 1))
        for level, node in ((0, 2), (1, 1), (2, 0), *wide):
            self.assert_refused(
                lambda: self.shard.fragment(9, level, node), 18, None, None
            )

    def test_12_before_18(self):
        with self.assertRaises(Absent):
            self.shard.lookup_fragment(8, 7, 7)

    def test_a_volume_has_none(self):
        shard = Shard(replace(ONE, kind=VOLUME), 0, self.file)
        self.assertEqual(shard.chunk(9), self.net.manifest)
        self.assert_refused(
            lambda: shard.lookup_fragment(9, 0, 0), 18, None, None
        )

    def test_no_other_kind(self):
        shard = Shard(replace(ONE, kind=2), 0, self.file)
        for call in (
            shard.check,
            shard.unlisted,
            shard.settled_length,
            lambda: shard.lookup(9),
            lambda: shard.fragment(9, 0, 0),
            lambda: shard.listing(0),
        ):
            self.assert_refused(call, 1, None, None)

    def test_numbers_that_do_not_fit(self):
        for name, arguments in (
            ("id", (2**64, 0, 0)),
            ("level", (9, -1, 0)),
            ("node", (9, 0, 2**64)),
        ):
            with self.assertRaisesRegex(OverflowError, f"^{name} must be"):
                self.shard.lookup_fragment(*arguments)


SOUND = manifest((1, 1, 1), (0, 0, 0), [(1, (0, 0, 0), [(0, 0, 0, 5)])])
SHAPELESS = manifest((0, 1, 1), (0, 0, 0), [])
TURNED = manifest(
    (1, 1, 1), (0, 0, 0), [(1, (0, 0, 0), [(1, 0, 0, 0), (0, 0, 0, 0)])]
)


def pair(second, lead):
    """A shard of ids 4 and 5, a sound manifest and this one, each behind so
    many bytes; and where its start steps begin."""
    data = bytes(lead) + SOUND + bytes(lead) + second
    table = u64s(4, 1, lead, lead, len(SOUND), len(second))
    end = len(data)
    return u64s(end, end + 48) + data + table, 16 + end + 16


class Faults(unittest.TestCase):
    def test_manifests_in_a_shard_carry_a_position(self):
        for number, entry, second, lead in (
            (15, 1, SOUND[1:], 5),
            (15, 1, b"", 5),
            (16, 1, SHAPELESS, 5),
            (17, 1, TURNED, 5),
            # Fragments of 5 bytes, and room for 4.
            (21, 0, SOUND, 4),
            # The first entry fails 21, the second 15.
            (15, 1, SOUND[1:], 4),
        ):
            file, steps = pair(second, lead)
            place = number, None, steps + 8 * entry
            shard = Shard(ONE, 0, file)
            with self.subTest(number=number, lead=lead):
                with self.assertRaises(Refused) as caught:
                    shard.check()
                self.assertEqual(
                    caught.exception.args, (number, 0, place[2])
                )
                for call in (
                    lambda: shard.lookup(4),
                    lambda: shard.chunk(7),
                    lambda: shard.fragment(4, 0, 0),
                    lambda: shard.listed_count(0),
                    lambda: shard.listing(0),
                    shard.unlisted,
                    shard.settled_length,
                    lambda: shard.settle(bytearray(999)),
                    lambda: shard.settled(drop_unlisted=True),
                ):
                    with self.assertRaises(Refused) as caught:
                        call()
                    self.assertEqual(caught.exception.args, place)
                Shard(replace(ONE, kind=VOLUME), 0, file).check()

    def test_a_manifest_by_itself_has_none(self):
        for number, bytes in ((15, b""), (16, SHAPELESS), (17, TURNED)):
            with self.assertRaises(Refused) as caught:
                Manifest(bytes).check()
            self.assertEqual(caught.exception.args, (number, None, None))
