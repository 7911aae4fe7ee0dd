"""Shards as scope, "From id to shard" and "Settled form", lays them out."""

import struct

from . import murmur


def u64s(*numbers):
    """The numbers, little-endian, 8 bytes each."""
    return struct.pack(f"<{len(numbers)}Q", *numbers)


def place(sharding, id):
    """The shard and the minishard of an id."""
    hashed = id >> sharding.preshift
    if sharding.hash == 1:
        hashed, _ = struct.unpack("<2Q", murmur.x86_128(u64s(hashed)))
    minishard = hashed % 2**sharding.minishard_bits
    shard = (hashed >> sharding.minishard_bits) % 2**sharding.shard_bits
    return shard, minishard


def by_minishard(sharding, content):
    """For each minishard its ids, rising."""
    groups = [[] for _ in range(2**sharding.minishard_bits)]
    for id in sorted(content):
        groups[place(sharding, id)[1]].append(id)
    return groups


def steps(numbers):
    """Each number less the one before, modulo 2^64."""
    return [(b - a) % 2**64 for a, b in zip([0] + numbers, numbers)]


def rows(ids, starts, sizes):
    """A minishard index of chunks at these places, counted from the end of
    the shard index."""
    ends = [0] + [start + size for start, size in zip(starts, sizes)]
    gaps = [(start - end) % 2**64 for start, end in zip(starts, ends)]
    return u64s(*steps(ids), *gaps, *sizes)


def settled(sharding, content, leads=None):
    """The settled form of this content, with what stands right before each
    chunk: fragments in a mesh, nothing in a volume."""
    leads = leads or {}
    index, data = b"", b""
    for ids in by_minishard(sharding, content):
        if not ids:
            index += u64s(0, 0)
            continue
        starts = []
        for id in ids:
            data += leads.get(id, b"")
            starts.append(len(data))
            data += content[id]
        table = rows(ids, starts, [len(content[id]) for id in ids])
        index += u64s(len(data), len(data) + len(table))
        data += table
    return index + data


def scattered(sharding, content, rng, groups=None, leads=None):
    """A sound shard of this content with its minishards in any order, bytes
    that nothing lists, and minishard indexes before or after their chunks.
    Entries of empty minishards point anywhere. Each minishard lists its group
    of ids in the group's order, by rising id where none are given; chunks lie
    by rising id, each right behind its lead."""
    groups = groups or by_minishard(sharding, content)
    leads = leads or {}
    entries, data = [None] * len(groups), b""
    for number in rng.sample(range(len(groups)), len(groups)):
        ids = groups[number]
        if not ids:
            entries[number] = (rng.getrandbits(64),) * 2
            continue
        length = 24 * len(ids)
        before = rng.random() < 0.5
        at = len(data)
        data += bytes(length) if before else b""
        place = {}
        for id in sorted(ids):
            data += rng.randbytes(rng.randrange(4)) + leads.get(id, b"")
            place[id] = len(data)
            data += content[id]
        starts = [place[id] for id in ids]
        table = rows(ids, starts, [len(content[id]) for id in ids])
        if before:
            data = data[:at] + table + data[at + length:]
        else:
            at = len(data)
            data += table
        entries[number] = (at, at + length)
    data += rng.randbytes(rng.randrange(9))
    return b"".join(u64s(*entry) for entry in entries) + data


def unlisted(sharding, file, leads=None):
    """How many bytes of a sound shard nothing lists, byte by byte."""
    leads = leads or {}
    data = 16 * 2**sharding.minishard_bits
    held = bytearray(len(file) - data)
    for number in range(2**sharding.minishard_bits):
        start, end = struct.unpack_from("<2Q", file, 16 * number)
        if start == end:
            continue
        held[start:end] = bytes([1]) * (end - start)
        count = (end - start) // 24
        table = struct.unpack_from(f"<{3 * count}Q", file, data + start)
        id = place = 0
        for step, gap, size in zip(
            table[:count], table[count:2 * count], table[2 * count:]
        ):
            id = (id + step) % 2**64
            place = (place + gap) % 2**64
            first = place - len(leads.get(id, b""))
            place += size
            held[first:place] = bytes([1]) * (place - first)
    return held.count(0)


def one_minishard(table, data=b""):
    """A shard of one minishard: its index at the front of the data."""
    return u64s(0, len(table)) + table + data
