"""MurmurHash3_x86_128, from the public algorithm."""

import struct

MASK = 0xFFFFFFFF
C = (0x239B961B, 0xAB0E9789, 0x38B34AE5, 0xA1E38B93)
KEY_TURNS = (15, 16, 17, 18)
STATE_TURNS = (19, 17, 15, 13)
ADDENDS = (0x561CCD1B, 0x0BCAA747, 0x96CD1C35, 0x32AC3B17)


def turned(word, bits):
    """The word, rotated left."""
    return (word << bits | word >> (32 - bits)) & MASK


def mixed_key(word, i):
    """The part of a block that goes to h1, h2, h3 or h4."""
    word = turned(word * C[i] & MASK, KEY_TURNS[i])
    return word * C[(i + 1) % 4] & MASK


def finished(h):
    """The final mix of one word."""
    h = (h ^ h >> 16) * 0x85EBCA6B & MASK
    h = (h ^ h >> 13) * 0xC2B2AE35 & MASK
    return h ^ h >> 16


def spread(h):
    """Adds the other words to the first, then the first to the others."""
    first = sum(h) & MASK
    return [first] + [(word + first) & MASK for word in h[1:]]


def x86_128(data, seed=0):
    """The 16 bytes of the hash."""
    h = [seed] * 4
    whole = len(data) // 16 * 16
    for block in struct.iter_unpack("<4I", data[:whole]):
        for i in range(4):
            h[i] ^= mixed_key(block[i], i)
            h[i] = turned(h[i], STATE_TURNS[i]) + h[(i + 1) % 4] & MASK
            h[i] = h[i] * 5 + ADDENDS[i] & MASK
    tail = struct.unpack("<4I", data[whole:].ljust(16, b"\0"))
    # A word of zeros mixes to 0, so bytes that are not there change nothing.
    h = [word ^ mixed_key(tail[i], i) for i, word in enumerate(h)]
    h = spread([word ^ len(data) for word in h])
    return struct.pack("<4I", *spread([finished(word) for word in h]))
