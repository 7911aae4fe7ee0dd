"""The multi-resolution mesh manifest."""

from __future__ import annotations

import struct
from ctypes import byref, c_uint32, c_uint64
from itertools import count
from typing import Iterable, Iterator, List, NamedTuple, SupportsIndex
from typing import Tuple, Union

from ._buffers import Held, Numbers, own, zeros
from ._declared import FIELD_REAL
from ._library import library
from ._numbers import item
from .refusal import Refused, answer

_ThreeU32 = c_uint32 * 3
_SixU32 = c_uint32 * 6

Reals = Tuple[float, float, float]
Position = Tuple[int, int, int]


class Header(NamedTuple):
    """The shape of the finest nodes and the origin of the grid."""

    shape: Reals
    origin: Reals


class Node(NamedTuple):
    """A node of a level: its position, and its fragment's place, counted from
    the first fragment, and size in bytes."""

    position: Position
    start: int
    size: int


class Visit(NamedTuple):
    """A node among all, with its level and its index in that level."""

    level: int
    index: int
    node: Node


class Corners(NamedTuple):
    """The corners of a node's box: the one next to the origin, and the
    opposite one."""

    near: Reals
    far: Reals


class Manifest(Held):
    """The bytes of a manifest. Opening judges nothing; each call judges them.

    The bytes stay the caller's: they are not copied, and must not change
    while a call runs.

    >>> import struct
    >>> from coronagamba import Manifest
    >>> data = struct.pack("<6fI", 8, 8, 8, 10, 10, 10, 1)
    >>> data += struct.pack("<4fI", 1, 0, 0, 0, 1)
    >>> data += struct.pack("<4I", 3, 0, 0, 500)
    >>> manifest = Manifest(data)
    >>> manifest.header().origin
    (10.0, 10.0, 10.0)
    >>> manifest.node(0, 0)
    Node(position=(3, 0, 0), start=0, size=500)
    >>> manifest.corners(0, 0).near
    (34.0, 10.0, 10.0)
    >>> [visit.node.size for visit in manifest.nodes()]
    [500]
    """

    __slots__ = ()

    def check(self) -> None:
        """Passes exactly the sound manifests. Refusals 15, 16, 17."""
        with self._lent() as lent:
            answer(library.coronagamba_manifest_check(lent.bytes, lent.count))

    def header(self) -> Header:
        """The shape and the origin. Refusals 15, 16, 17."""
        bits = _SixU32()
        with self._lent() as lent:
            answer(
                library.coronagamba_manifest_header(
                    lent.bytes, lent.count, byref(bits)
                )
            )
        return Header(_reals(bits[:3]), _reals(bits[3:]))

    def field(self, number: SupportsIndex) -> Union[float, int]:
        """A field by its number, counted from 0 in file order: a float where
        it is a real, an int where it is a whole number. Refusals 15 to 18."""
        kind, value = c_uint32(), c_uint32()
        with self._lent() as lent:
            answer(
                library.coronagamba_manifest_field(
                    lent.bytes,
                    lent.count,
                    item("number", number),
                    byref(kind),
                    byref(value),
                )
            )
        real = kind.value == FIELD_REAL
        return _real(value.value) if real else value.value

    def node(self, level: SupportsIndex, node: SupportsIndex) -> Node:
        """A node by its level and its index in it, both counted from 0.
        Refusals 15 to 18."""
        position, start, size = _ThreeU32(), c_uint64(), c_uint32()
        with self._lent() as lent:
            answer(
                library.coronagamba_manifest_node(
                    lent.bytes,
                    lent.count,
                    item("level", level),
                    item("node", node),
                    byref(position),
                    byref(start),
                    byref(size),
                )
            )
        x, y, z = position
        return Node((x, y, z), start.value, size.value)

    def corners(self, level: SupportsIndex, node: SupportsIndex) -> Corners:
        """The corners of a node's box. Refusals 15 to 18."""
        near, far = _ThreeU32(), _ThreeU32()
        with self._lent() as lent:
            answer(
                library.coronagamba_manifest_corners(
                    lent.bytes,
                    lent.count,
                    item("level", level),
                    item("node", node),
                    byref(near),
                    byref(far),
                )
            )
        return Corners(_reals(near), _reals(far))

    def nodes_of(self, level: SupportsIndex) -> List[Node]:
        """The nodes of a level, counted from 0, in their order. Refusals 15
        to 18."""
        number = item("level", level)
        self.check()
        return self._nodes_of(number, self._room())

    def nodes(self) -> Iterator[Visit]:
        """All nodes, level by level. Refusals 15, 16, 17 at this call, and on
        the way only where the bytes were changed."""
        self.check()
        return self._visits()

    def _visits(self) -> Iterator[Visit]:
        """The nodes of each level in turn; 18 says that there is no more."""
        room = self._room()
        for level in count():
            try:
                nodes = self._nodes_of(level, room)
            except Refused as refusal:
                if refusal.number == 18:
                    return
                raise
            for index, node in enumerate(nodes):
                yield Visit(level, index, node)

    def _room(self) -> Numbers:
        """Room for the nodes of any level of a sound manifest: each of them
        has 16 of the bytes."""
        return zeros("Q", 5 * (len(self._view) // 16))

    def _nodes_of(self, level: int, out: Numbers) -> List[Node]:
        """The nodes of a level by way of an array that has room for them."""
        length = c_uint64()
        with self._lent() as lent:
            answer(
                library.coronagamba_manifest_nodes(
                    lent.bytes,
                    lent.count,
                    level,
                    own(c_uint64, out),
                    len(out),
                    byref(length),
                )
            )
        numbers = iter(out[:length.value])
        return [
            Node((x, y, z), start, size)
            for x, y, z, start, size in zip(*[numbers] * 5)
        ]


def _real(bits: int) -> float:
    """The real of these bits."""
    (real,) = struct.unpack("=f", struct.pack("=I", bits))
    return float(real)


def _reals(three: Iterable[int]) -> Reals:
    x, y, z = map(_real, three)
    return x, y, z
