"""Refusals and the answer words that carry them."""

from __future__ import annotations

from typing import Optional, Tuple

from ._refusals import SENTENCES, Numbers


class Refused(Numbers, Exception):
    """A call was refused: a number from the archive's table, as in
    `Refused.NOT_LISTED`; of a shard, with 7 to 11, 15 to 17 and 21, the
    position, which is the byte to look at, counted from the start of the
    shard; and, from the whole-shard check and the measure, the minishard with
    the fault. `paths` names the files of a shard that `from_path` or
    `from_paths` read, and is empty of another.

    With 7 and 8 the minishard's entry in the shard index begins at the
    position, 16 bytes; with 9 and 10 the id step of the first entry that
    offends, with 11, 15 to 17 and 21 its start step, 8 bytes each. Of an id
    that stands twice it is the later entry. A manifest by itself is refused
    with 15 to 17 and no position.

    >>> from coronagamba import IDENTITY, VOLUME, Refused, Sharding
    >>> try:
    ...     Sharding(64, IDENTITY, 0, 0, VOLUME).place(7)
    ... except Refused as refusal:
    ...     print(refusal.number, refusal.sentence)
    1 The sharding specification has a field that is not allowed.
    """

    def __init__(
        self,
        number: int,
        minishard: Optional[int] = None,
        position: Optional[int] = None,
    ) -> None:
        super().__init__(number, minishard, position)
        self.number = number
        self.minishard = minishard
        self.position = position
        self.paths: Tuple[str, ...] = ()

    @property
    def sentence(self) -> str:
        """What the table says about this number."""
        return SENTENCES.get(self.number, "The number is not in the table.")

    def __str__(self) -> str:
        told = f"refused {self.number}: {self.sentence}"
        if self.paths:
            told = f"{' and '.join(self.paths)}: {told}"
        places = []
        if self.minishard is not None:
            places.append(f"in minishard {self.minishard}")
        if self.position is not None:
            places.append(f"at byte {self.position}")
        return f"{told} The fault is {', '.join(places)}." if places else told


class Absent(Refused, KeyError):
    """Refusal 12: the id's minishard is sound and does not list the id.

    >>> from coronagamba import IDENTITY, VOLUME, Absent, Shard, Sharding
    >>> shard = Shard(Sharding(0, IDENTITY, 0, 0, VOLUME), 0, bytes(16))
    >>> try:
    ...     shard.chunk(7)
    ... except Absent as absent:
    ...     print(absent)
    refused 12: The id is not listed.
    """


def answer(word: int, paths: Tuple[str, ...] = ()) -> None:
    """Raises the refusal of an answer word, where it is one, with the paths of
    the files that were asked. The low byte is the number. The next 24 bits are
    0 where the word names no minishard, else one more than it; the last 32 do
    the same for a position."""
    if word:
        number, parts = word & 0xFF, (word >> 8 & 0xFFFFFF, word >> 32)
        kind = Absent if number == Refused.NOT_LISTED else Refused
        refused = kind(
            number, *(part - 1 if part else None for part in parts)
        )
        refused.paths = paths
        raise refused
