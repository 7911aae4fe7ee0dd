"""The labels inside a chunk of the compressed segmentation encoding."""

from __future__ import annotations

import sys
from ctypes import byref, c_uint64
from typing import Any, Iterable, List, SupportsIndex, Tuple

from . import _declared
from ._arrays import numpy_for
from ._buffers import Held, Lent, ReadableBuffer, WriteableBuffer, lengths
from ._library import library
from ._numbers import three_u32, u32, u64
from .grid import Extents
from .refusal import Refused, answer


class Labels(Held):
    """A chunk of labels in the compressed segmentation encoding, with their
    shape, which the chunk does not say: its extents in voxels, `size`, and
    those of a `block`, how many `channels` there are, and the `bits` of a
    label, 32 or 64. At the upper faces of a volume the extents are what is
    left of it, as `Volume.bounds` tells.

    The bytes stay the caller's: they are not copied, and must not change
    while a call runs. Opening judges nothing.

    The example is a chunk of one block: the offset of its channel; the
    header, with width 1, the table at word 3 and the values at word 2 of the
    channel; the values, a bit for each voxel; the table of two labels.

    >>> import struct
    >>> from coronagamba import Labels
    >>> chunk = struct.pack("<6I", 1, 0x01000003, 2, 0b10100101, 7, 9)
    >>> labels = Labels(
    ...     chunk, size=(2, 2, 2), block=(2, 2, 2), channels=1, bits=32)
    >>> labels.label((0, 0, 0)), labels.label((1, 0, 0))
    (9, 7)
    >>> labels.view().tolist()
    [[[[9, 7], [9, 7]], [[7, 9], [7, 9]]]]
    """

    __slots__ = ("_size", "_block", "_channels", "_bits")

    _NAME = "chunk"

    def __init__(
        self,
        chunk: ReadableBuffer,
        *,
        size: Iterable[SupportsIndex],
        block: Iterable[SupportsIndex],
        channels: SupportsIndex,
        bits: SupportsIndex,
    ) -> None:
        self._size = Extents(*three_u32("size", size))
        self._block = Extents(*three_u32("block", block))
        self._channels = u32("channels", channels)
        self._bits = u64("bits", bits)
        if self._bits not in (32, 64):
            raise ValueError(f"bits must be 32 or 64, not {self._bits}")
        super().__init__(chunk)

    @property
    def size(self) -> Extents:
        """The chunk's extents in voxels."""
        return self._size

    @property
    def block(self) -> Extents:
        """The extents of a block."""
        return self._block

    @property
    def channels(self) -> int:
        """How many channels there are."""
        return self._channels

    @property
    def bits(self) -> int:
        """The bits of a label, 32 or 64."""
        return self._bits

    def __repr__(self) -> str:
        return (
            f"<Labels of size={tuple(self._size)}, block={tuple(self._block)},"
            f" channels={self._channels}, bits={self._bits}:"
            f" {lengths(self._view)}>"
        )

    def _shape(self) -> Tuple[Any, ...]:
        """The shape as every call takes it."""
        return (
            _declared.Extents(*self._size),
            _declared.Extents(*self._block),
            self._channels,
            self._bits,
        )

    def label(
        self, voxel: Iterable[SupportsIndex], channel: SupportsIndex = 0
    ) -> int:
        """The label of a voxel, three integers that count from 0 in the
        chunk, and a channel. Refusal 2 where an extent, a block size or the
        number of channels is 0, or the voxel or channel is outside; 29 where
        its block's header has no width of the encoding; 28 where something
        that is to be read for it is not whole in the chunk."""
        x, y, z = three_u32("voxel", voxel)
        label = c_uint64()
        with self._lent() as lent:
            answer(
                library.coronagamba_label(
                    lent.bytes,
                    lent.count,
                    *self._shape(),
                    x,
                    y,
                    z,
                    u32("channel", channel),
                    byref(label),
                )
            )
        return label.value

    def unpacked_length(self) -> int:
        """How many bytes the raw form has, whatever the chunk holds. Refusal
        2 where an extent, a block size or the number of channels is 0, 13
        where the number does not fit 64 bits.

        A few bytes may say very many labels: who takes chunks from strangers
        looks at this number before there is memory for it."""
        length = c_uint64()
        answer(
            library.coronagamba_unpacked_length(*self._shape(), byref(length))
        )
        return length.value

    def unpack(self, out: WriteableBuffer) -> int:
        """Writes the raw form to the front of `out` and gives its length: the
        labels, little-endian, by rising x, then y, z and channel. Refusal 2
        where an extent, a block size or the number of channels is 0; 29, else
        28, where `label` would give it for any voxel; 13 where `out` is too
        short. `out` and the chunk's bytes must have no memory in common.

        With the room that `unpacked_length` tells, the time goes by the bytes
        of chunk and raw form together, whatever the shape says. To tell 29
        and 28 from 13 without it may take longer."""
        length = c_uint64()
        with self._lent() as lent, Lent("out", out, True) as room:
            if room.overlaps(lent):
                raise ValueError("out overlaps the bytes of the chunk")
            answer(
                library.coronagamba_unpack(
                    lent.bytes,
                    lent.count,
                    *self._shape(),
                    room.bytes,
                    room.count,
                    byref(length),
                )
            )
        return length.value

    def unpacked(self) -> bytearray:
        """The raw form, refused as `unpack` is; 13 where it has more bytes
        than an object may have."""
        raw = bytearray(self._room())
        self.unpack(raw)
        return raw

    def _room(self) -> int:
        """How much room the raw form needs, or none where no object can have
        it: unpacking then says which refusal comes first."""
        try:
            length = self.unpacked_length()
        except Refused as refused:
            if refused.number != Refused.NO_ROOM:
                raise
            return 0
        return length if length <= sys.maxsize else 0

    def _axes(self) -> List[int]:
        """The extents of what is unpacked, the fastest axis last."""
        x, y, z = self._size
        return [self._channels, z, y, x]

    def view(self) -> memoryview:
        """All labels as unsigned numbers of their width, in a memoryview of
        four axes, indexed [channel, z, y, x]: x is the fastest. Refused as
        `unpacked` is."""
        raw, axes = memoryview(self.unpacked()), self._axes()
        return raw.cast("I", axes) if self._bits == 32 else raw.cast("Q", axes)

    def array(self) -> Any:
        """The same as a numpy array of type uint32 or uint64, with the shape
        (channels, z, y, x): x is the fastest axis, the array is C-contiguous,
        and `array().T` is indexed [x, y, z, channel] without a copy. Needs
        numpy; refused as `unpacked` is."""
        numpy = numpy_for("array", "view and unpacked do")
        raw = self.unpacked()
        kind = "<u4" if self._bits == 32 else "<u8"
        return numpy.frombuffer(raw, dtype=kind).reshape(self._axes())
