"""Info files, with Python's own json as a second opinion."""

import json
import random
import unittest

from coronagamba import IDENTITY, MURMUR, VOLUME, Card, Refused, Sharding
from coronagamba import Volume

from .infos import Refuse, settings

SHARDING = {
    "@type": "neuroglancer_uint64_sharded_v1",
    "preshift_bits": 9,
    "hash": "murmurhash3_x86_128",
    "minishard_bits": 6,
    "shard_bits": 15,
    "minishard_index_encoding": "raw",
    "data_encoding": "raw",
}
SCALE = {
    "key": "8_8_8",
    "size": [6446, 6643, 8090],
    "resolution": [8, 8, 8.5],
    "chunk_sizes": [[64, 64, 64]],
    "voxel_offset": [-64, 0, 7],
    "encoding": "raw",
    "sharding": SHARDING,
}
INFO = {
    "@type": "neuroglancer_multiscale_volume",
    "type": "image",
    "scales": [{}, SCALE],
    "mesh": {"\u20ac": ["\u00e9", None, True, -1.5e300]},
}
TEXT = json.dumps(INFO).encode()
CARD = Card(
    Sharding(9, MURMUR, 6, 15, VOLUME),
    Volume((6446, 6643, 8090), (64, 64, 64), (-64, 0, 7)),
)

PIECES = [
    b"{", b"}", b"[", b"]", b",", b":", b'"', b"\\", b"\\u", b"\\ud800",
    b"\\u0073", b"0", b"-", b".0", b"e0", b"1", b"null", b"true", b"NaN",
    b"Infinity", b"'", b"//", b" ", b"\n", b"\x00", b"\x1f", b"\x7f",
    b"\xc3\xa9", b"\xc0\x80", b"\xed\xa0\x80", b"\xf4\x90\x80\x80",
    b"\xef\xbb\xbf", b"\xff", b"\xa0", b"\x0c", b"gzip", b"size",
]


def answered(text, scale):
    """The library's card, or its refusal's number."""
    try:
        return Card.read_info(text, scale)
    except Refused as refused:
        return refused.number


def expected(text, scale):
    """What json makes of it; 2 and 3 are judged by the card's own writing."""
    try:
        sharding, size, chunk, offset = settings(text, scale)
    except Refuse as refuse:
        return refuse.args[0]
    card = Card(Sharding(*sharding, VOLUME), Volume(size, chunk, offset))
    try:
        card.to_bytes()
    except Refused as refused:
        return refused.number
    return card


def mutated(rng):
    """The info file, changed at a few places."""
    text = bytearray(json.dumps(
        INFO, indent=rng.choice([None, 0, 1]), ensure_ascii=rng.random() < 0.5
    ).encode())
    for _ in range(rng.randrange(4)):
        at = rng.randrange(len(text) + 1)
        kind = rng.randrange(5)
        if kind == 0:
            del text[at:]
        elif kind == 1:
            text[at:at] = rng.choice(PIECES)
        elif kind == 2:
            text[at:at + rng.randrange(1, 9)] = b""
        elif kind == 3:
            text[at:at + 1] = rng.choice(PIECES)
        else:
            end = rng.randrange(at, len(text) + 1)
            text[at:at] = text[at:end][:40]
    return bytes(text)


class InfoFiles(unittest.TestCase):
    def test_a_published_file(self):
        self.assertEqual(Card.read_info(TEXT, 1), CARD)
        self.assertEqual(Card.read_info(bytearray(TEXT), scale=1), CARD)
        card = Card.read_info(memoryview(TEXT), 1)
        self.assertEqual(Card.read(card.to_bytes()), CARD)

    def test_what_may_be_absent(self):
        sharding = dict(SHARDING, hash="identity")
        del sharding["data_encoding"], sharding["minishard_index_encoding"]
        scale = dict(SCALE, sharding=sharding)
        del scale["voxel_offset"]
        text = json.dumps({"scales": [scale]}).encode()
        card = Card.read_info(text, 0)
        expected = Sharding(9, IDENTITY, 6, 15, VOLUME)
        self.assertEqual(card.sharding, expected)
        self.assertEqual(card.volume.offset, (0, 0, 0))

    def test_other_scales_are_not_taken(self):
        for scale in (0, 2, 2**32 + 1, 2**64 - 1):
            self.assertEqual(answered(TEXT, scale), 20)

    def test_every_cut(self):
        for length in range(len(TEXT)):
            self.assertEqual(answered(TEXT[:length], 1), 19)

    def test_a_text_is_bytes_or_a_str(self):
        self.assertEqual(Card.read_info(TEXT.decode(), 1), CARD)
        wide = json.dumps(INFO, ensure_ascii=False)
        self.assertGreater(len(wide.encode()), len(wide))
        self.assertEqual(Card.read_info(wide, 1), CARD)
        for text in (None, 7, [TEXT], ["{", "}"]):
            with self.assertRaisesRegex(TypeError, "^text must be"):
                Card.read_info(text, 1)

    def test_a_str_is_judged_by_the_library_alone(self):
        for text in ("", "{", "\ud800", '"\udcff"', "\ufeff" + TEXT.decode()):
            self.assertEqual(answered(text, 1), 19)
        self.assertEqual(answered("[]", 1), 20)

    def test_json_is_of_the_same_opinion(self):
        rng = random.Random(8259)
        met = set()
        for _ in range(20_000):
            text = mutated(rng)
            answer = answered(text, 1)
            self.assertEqual(answer, expected(text, 1), text)
            met.add(answer if isinstance(answer, int) else 0)
        self.assertLessEqual({0, 1, 19, 20}, met)

    def test_json_is_of_the_same_opinion_of_depth(self):
        for depth in (1, 30, 31, 32, 33, 34):
            for inner in (b"", b"1", b"[]", b"{}", b'{"a":null}', b'""'):
                text = b"[" * depth + inner + b"]" * depth
                self.assertEqual(answered(text, 0), expected(text, 0), text)
