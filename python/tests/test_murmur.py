"""The hash, three ways: the library, the public algorithm in `murmur`, and
the stored vectors of the proved program."""

import random
import unittest
from pathlib import Path

from coronagamba import MURMUR, VOLUME, Sharding

from . import murmur, shards

ROOT = Path(__file__).resolve().parents[2]


class Murmur(unittest.TestCase):
    def test_published_verification_value(self):
        # SMHasher: keys 0, 0 1, 0 1 2 .. of 0 to 255 bytes under seeds 256
        # less the length; the hash of all hashes begins with this number.
        hashes = b"".join(
            murmur.x86_128(bytes(range(n)), 256 - n) for n in range(256)
        )
        found = int.from_bytes(murmur.x86_128(hashes)[:4], "little")
        self.assertEqual(found, 0xB3ECE62A)

    def test_places_follow_the_algorithm(self):
        rng = random.Random(1)
        for _ in range(2000):
            sharding = Sharding(
                rng.randrange(64),
                MURMUR,
                rng.randrange(13),
                rng.randrange(33),
                VOLUME,
            )
            id = rng.getrandbits(rng.randrange(1, 65))
            self.assertEqual(sharding.place(id), shards.place(sharding, id))

    def test_stored_vectors(self):
        lines = (ROOT / "crates/vectors/stdout").read_text().splitlines()
        self.assertGreater(len(lines), 60)
        for line in lines:
            preshift, id, hashed = map(int, line.split())
            place = Sharding(preshift, MURMUR, 12, 32, VOLUME).place(id)
            self.assertEqual(place.minishard, hashed % 2**12, line)
            self.assertEqual(place.shard, (hashed >> 12) % 2**32, line)
