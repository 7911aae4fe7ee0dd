"""A user's program with strict hints: mypy reads it where it is there, and it
is run in any case."""

from __future__ import annotations

import copy
import os
import pickle
from array import array
from pathlib import Path
from typing import Dict, List, SupportsIndex, Tuple

from coronagamba import IDENTITY, VOLUME, Absent, Card, Counts, Intake, Listed
from coronagamba import Pair, Place, Refused, Shard, Sharding, Sheet, Span
from coronagamba import Volume


class Number:
    """What is an integer to Python, as numpy's are."""

    def __init__(self, number: int) -> None:
        self.number = number

    def __index__(self) -> int:
        return self.number


def made(sharding: Sharding) -> bytes:
    """A shard of two chunks."""
    with Intake(sharding, 0, out=100, waiting=32) as intake:
        for id, chunk in ((4, b"ab"), (10, b"cde")):
            intake.announce(id, len(chunk))
            intake.part(chunk)
    return bytes(intake.form)


def held(shard: Shard | Pair) -> Dict[int, bytes]:
    """The chunks by their ids."""
    return {id: bytes(shard.chunk(id)) for id in shard}


def files(folder: Path, sharding: Sharding, file: bytes) -> List[int]:
    """How many chunks a shard and a pair have that were written to a folder.
    """
    shard_path: os.PathLike[str] = folder / sharding.shard_name(0)
    index, data = sharding.index_name(0), sharding.data_name(0)
    Path(shard_path).write_bytes(file)
    (folder / index).write_bytes(file[:32])
    (folder / data).write_bytes(file[32:])
    shard = Shard.from_path(shard_path, sharding, 0)
    pair = Pair.from_paths(f"{folder}/{index}", folder / data, sharding, 0)
    paths: Tuple[str, ...] = shard.paths + pair.paths
    assert len(paths) == 3
    return [len(shard), len(pair)]


def places(sharding: Sharding) -> List[Tuple[int, int]]:
    """Where some ids belong, given in three ways."""
    one: Place = sharding.place(Number(4))
    shards, minishards = sharding.places(array("i", [10]))
    ids: List[SupportsIndex] = [Number(4), 10]
    more = sharding.places(ids)
    return [
        (one.shard, one.minishard),
        *zip(shards.tolist(), minishards.tolist()),
        *zip(more[0].tolist(), more[1].tolist()),
    ]


def refused(shard: Shard) -> Tuple[bool, int]:
    """Whether an id is listed, and the number of the refusal of its lookup."""
    try:
        shard.lookup(6)
    except Absent as absent:
        told: Refused = copy.copy(absent)
        return 6 in shard, told.number
    return True, 0


def main(folder: Path) -> None:
    sharding = Sharding(0, IDENTITY, 1, 0, VOLUME)
    sharding.check()
    card = Card(sharding, Volume((9, 9, 9), (Number(3), 3, 3)))
    assert pickle.loads(pickle.dumps(card)) == card
    assert list(card.volume.keys(array("h", [0, 0, 0, 1, 0, 0]))) == [0, 1]
    file = made(sharding)
    assert files(folder, sharding, file) == [2, 2]
    assert places(sharding) == [(0, 0)] * 4
    with Shard(sharding, Number(0), file) as shard:
        listed: List[Listed] = list(shard.listed())
        assert listed[0] == Listed(4, Span(32, 2))
        assert held(shard) == {4: b"ab", 10: b"cde"}
        assert refused(shard) == (False, 12)
        sheet = Sheet()
        sheet.add(shard)
        counts: Counts = shard.measure()
        assert copy.deepcopy(sheet).chunks == counts.chunks == len(shard)
