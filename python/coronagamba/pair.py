"""Shards of the earlier edition, an index file and a data file each."""

from __future__ import annotations

import enum
from ctypes import byref, c_uint32, c_uint64
from typing import NamedTuple, SupportsIndex, Tuple, Type, TypeVar

from . import _declared, _files
from ._buffers import Lent, Loan, ReadableBuffer, byte_view
from ._files import StrOrBytesPath
from ._library import library
from ._numbers import u64
from .refusal import answer
from .shard import Span, Stored
from .sharding import Sharding


class Half(enum.Enum):
    """One of the two files of a pair."""

    INDEX = _declared.FILE_INDEX
    DATA = _declared.FILE_DATA


class Held(NamedTuple):
    """Where a range of the joined file is: the file that holds it whole, and
    the place in that file."""

    file: Half
    start: int
    length: int


Made = TypeVar("Made", bound="Pair")


class Pair(Stored):
    """A shard of the earlier edition with its specification and number: an
    index file, which is the shard index, and a data file with all the rest.

    Every call answers as that of a `Shard` over the two files joined, which
    they never are: places count from the start of the index file. Refusal 23,
    right after 5, is given where the index file is not exactly as long as the
    shard index.

    The bytes stay the caller's: they are not copied, and must not change
    while a call runs. Opening judges nothing.

    >>> from coronagamba import IDENTITY, VOLUME, Pair, Sharding
    >>> rows = b"".join(n.to_bytes(8, "little") for n in (2, 26, 7, 0, 2))
    >>> index, data = rows[:16], b"ab" + rows[16:]
    >>> pair = Pair(Sharding(0, IDENTITY, 0, 0, VOLUME), 0, index, data)
    >>> pair.check()
    >>> pair.lookup(7)
    Span(start=16, length=2)
    >>> bytes(pair.chunk(7))
    b'ab'
    >>> bytes(pair.range(16, 18))
    b'ab'
    >>> pair.settled() == index + data
    True
    """

    __slots__ = ("_index", "_data")

    _CALLS = "coronagamba_pair_"

    def __init__(
        self,
        sharding: Sharding,
        number: SupportsIndex,
        index: ReadableBuffer,
        data: ReadableBuffer,
    ) -> None:
        super().__init__(sharding, number)
        self._index = byte_view("index", index)
        self._data = byte_view("data", data)

    @classmethod
    def from_paths(
        cls: Type[Made],
        index: StrOrBytesPath,
        data: StrOrBytesPath,
        sharding: Sharding,
        number: SupportsIndex,
    ) -> Made:
        """The shard in the index file and the data file of these paths, which
        are read as `Shard.from_path` reads. An OSError names the path, every
        refusal both."""
        index_path, index_file = _files.read("index", index)
        data_path, data_file = _files.read("data", data)
        pair = cls(sharding, number, index_file, data_file)
        pair._paths = index_path, data_path
        return pair

    def release(self) -> None:
        """Lets the caller's two buffers go. Every later call raises
        ValueError; chunks and ranges handed out before hold theirs for
        themselves."""
        self._index.release()
        self._data.release()

    def _views(self) -> Tuple[memoryview, ...]:
        return self._index, self._data

    def _lent(self) -> Loan:
        return Loan(Lent("index", self._index), Lent("data", self._data))

    def _part(self, span: Span) -> memoryview:
        # No chunk and no fragment begins before the data file.
        start = span.start - len(self._index)
        return self._data[start:start + span.length]

    def locate_range(self, start: SupportsIndex, end: SupportsIndex) -> Held:
        """Which file holds the bytes of the joined file from `start` up to
        `end`, end excluded, and where in that file they are. An empty range
        at the seam is the data file's. No minishard is judged, and the shard
        number is not asked for. Refusals 1, 23, 6, and 24 where the range
        crosses the seam, is reversed or passes the end."""
        file, place, length = c_uint32(), c_uint64(), c_uint64()
        with self._lent() as loan:
            answer(
                library.coronagamba_pair_range(
                    self._sharding._struct(),
                    *loan.arguments,
                    u64("start", start),
                    u64("end", end),
                    byref(file),
                    byref(place),
                    byref(length),
                ),
                self._paths,
            )
        return Held(Half(file.value), place.value, length.value)

    def range(self, start: SupportsIndex, end: SupportsIndex) -> memoryview:
        """The bytes of the joined file from `start` up to `end`, end excluded,
        as a read-only part of the caller's index file or data file, refused
        as `locate_range` is."""
        file, place, length = self.locate_range(start, end)
        view = self._index if file is Half.INDEX else self._data
        return view[place:place + length]
