"""Volumes: their grids, the keys, bounds and names of their cells."""

from __future__ import annotations

from ctypes import byref, c_int64, c_uint8, c_uint32, c_uint64
from dataclasses import dataclass
from typing import Iterable, NamedTuple, SupportsIndex, Union

from . import _declared
from ._buffers import Lent, Numbers, ReadableBuffer, own, u32_triples, zeros
from ._library import library
from ._numbers import three_i32, three_i64, three_u32, u32, u64
from .refusal import answer

_ThreeU32 = c_uint32 * 3
_ThreeI64 = c_int64 * 3

# Six numbers of at most 11 characters, and five marks between them.
_Name = c_uint8 * (6 * 11 + 5)


class Extents(NamedTuple):
    """Three extents."""

    x: int
    y: int
    z: int


class Offset(NamedTuple):
    """Where a volume begins, in global coordinates."""

    x: int
    y: int
    z: int


class Cell(NamedTuple):
    """The coordinates of a grid cell."""

    x: int
    y: int
    z: int


class Point(NamedTuple):
    """A voxel, in global coordinates."""

    x: int
    y: int
    z: int


class Bounds(NamedTuple):
    """The voxels of a cell: from `begin` up to `end`, `end` excluded."""

    begin: Point
    end: Point


@dataclass(frozen=True, init=False)
class Volume:
    """A volume: its extents, those of a chunk, and where it begins.

    A cell is a `Cell` or any three integers.

    >>> from coronagamba import Volume
    >>> volume = Volume(size=(100, 1, 1), chunk=(64, 1, 1), offset=(-64, 0, 0))
    >>> volume.grid()
    Extents(x=2, y=1, z=1)
    >>> volume.key((1, 0, 0))
    1
    >>> volume.cell(1)
    Cell(x=1, y=0, z=0)
    >>> volume.chunk_name((1, 0, 0))
    '0-36_0-1_0-1'
    """

    size: Extents
    chunk: Extents
    offset: Offset

    def __init__(
        self,
        size: Iterable[SupportsIndex],
        chunk: Iterable[SupportsIndex],
        offset: Iterable[SupportsIndex] = (0, 0, 0),
    ) -> None:
        fields = {
            "size": Extents(*three_u32("size", size)),
            "chunk": Extents(*three_u32("chunk", chunk)),
            "offset": Offset(*three_i32("offset", offset)),
        }
        for name, value in fields.items():
            object.__setattr__(self, name, value)

    def _struct(self) -> _declared.Volume:
        return _declared.Volume(self.size, self.chunk, self.offset)

    def grid(self) -> Extents:
        """How many cells there are along x, y and z. Refusal 2."""
        grid = _ThreeU32()
        answer(library.coronagamba_grid_of(self._struct(), byref(grid)))
        return Extents(*grid)

    def key(self, cell: Iterable[SupportsIndex]) -> int:
        """The key of a cell, its compressed Morton code. Refusals 2, 3."""
        key = c_uint64()
        answer(
            library.coronagamba_key_of(
                self._struct(), _cell_struct(cell), byref(key)
            )
        )
        return key.value

    def keys(
        self,
        cells: Union[Iterable[Iterable[SupportsIndex]], ReadableBuffer],
    ) -> Numbers:
        """The keys of many cells, in their order, as an array of code Q. A
        buffer of unsigned 32-bit numbers, x, y, z of each cell in turn, is
        not copied; one of other integers is. Refusals 2, 3."""
        with Lent("cells", u32_triples("cells", cells)) as lent:
            count = lent.count // 12
            keys = zeros("Q", count)
            answer(
                library.coronagamba_keys_of(
                    self._struct(),
                    lent.pointer(c_uint32),
                    3 * count,
                    own(c_uint64, keys),
                    count,
                    byref(c_uint64()),
                )
            )
        return keys

    def row_keys(
        self,
        start: SupportsIndex,
        stop: SupportsIndex,
        y: SupportsIndex,
        z: SupportsIndex,
    ) -> Numbers:
        """The keys of a row of cells, those with x from `start` up to `stop`,
        `stop` excluded, at one y and z, as an array of code Q. A row whose
        stop is not past its start has no cell. Refusals 2, 3.

        >>> from coronagamba import Volume
        >>> Volume((5, 3, 1), (1, 1, 1)).row_keys(2, 5, 2, 0).tolist()
        [12, 13, 24]
        """
        first, past = u32("start", start), u32("stop", stop)
        row = u32("y", y), u32("z", z)
        # A row that reaches past the grid is refused without room for any.
        room = max(past - first, 0) if past <= self.grid().x else 0
        keys = zeros("Q", room)
        answer(
            library.coronagamba_row_keys(
                self._struct(),
                first,
                past,
                *row,
                own(c_uint64, keys),
                room,
                byref(c_uint64()),
            )
        )
        return keys

    def cover(
        self,
        lower: Iterable[SupportsIndex],
        upper: Iterable[SupportsIndex],
        most: SupportsIndex = 2**24,
    ) -> Numbers:
        """The keys of all cells that share a voxel with the box from `lower`
        up to `upper`, `upper` excluded, as a rising array of code Q: none
        where the box is empty, reversed or outside the volume. Refusals 2, 3,
        and 13 where there are more than `most`; that is said at once, however
        many there are.

        >>> from coronagamba import Volume
        >>> volume = Volume((100, 1, 1), (64, 1, 1), (-64, 0, 0))
        >>> volume.cover((-1, 0, 0), (1, 1, 1)).tolist()
        [0, 1]
        >>> volume.cover((36, 0, 0), (99, 1, 1)).tolist()
        []
        """
        limit = u64("most", most)
        begin = _declared.Point(*three_i64("lower", lower))
        end = _declared.Point(*three_i64("upper", upper))
        # More than `most` are refused without room for any.
        cells = self._cells_within(begin, end)
        room, length = cells if cells <= limit else 0, c_uint64()
        keys = zeros("Q", room)
        answer(
            library.coronagamba_cover(
                self._struct(), begin, end, own(c_uint64, keys), room, byref(length)
            )
        )
        return keys[: length.value]

    def _cells_within(self, begin: _declared.Point, end: _declared.Point) -> int:
        """How many cells share a voxel with a box, 0 where the volume has a
        zero extent: the room to ask the library with, which decides."""
        cells = 1
        for offset, size, chunk, lower, upper in zip(
            self.offset,
            self.size,
            self.chunk,
            (begin.x, begin.y, begin.z),
            (end.x, end.y, end.z),
        ):
            first, past = max(lower, offset), min(upper, offset + size)
            if past <= first or chunk == 0:
                return 0
            cells *= (past - 1 - offset) // chunk - (first - offset) // chunk + 1
        return cells

    def cell(self, key: SupportsIndex) -> Cell:
        """The cell of a key. Refusals 2, 3, 4."""
        cell = _ThreeU32()
        answer(
            library.coronagamba_cell_of(
                self._struct(), u64("key", key), byref(cell)
            )
        )
        return Cell(*cell)

    def bounds(self, cell: Iterable[SupportsIndex]) -> Bounds:
        """The voxels of a cell. Refusal 2."""
        begin, end = _ThreeI64(), _ThreeI64()
        answer(
            library.coronagamba_bounds_of(
                self._struct(), _cell_struct(cell), byref(begin), byref(end)
            )
        )
        return Bounds(Point(*begin), Point(*end))

    def chunk_name(self, cell: Iterable[SupportsIndex]) -> str:
        """The name of a cell's file where chunks are not sharded. Refusal 2.
        """
        name, length = _Name(), c_uint64()
        answer(
            library.coronagamba_chunk_name(
                self._struct(),
                _cell_struct(cell),
                name,
                len(name),
                byref(length),
            )
        )
        return bytes(name)[: length.value].decode("ascii")


def _cell_struct(cell: Iterable[SupportsIndex]) -> _declared.Cell:
    return _declared.Cell(*three_u32("cell", cell))
