"""The deposit card."""

from __future__ import annotations

from ctypes import byref, c_int32, c_uint8, c_uint32, c_uint64
from dataclasses import dataclass
from typing import Any, SupportsIndex, Union

from ._buffers import Lent, ReadableBuffer
from ._library import library
from ._numbers import u64
from .grid import Volume
from .refusal import answer
from .sharding import Sharding

_FiveU8 = c_uint8 * 5
_ThreeU32 = c_uint32 * 3
_ThreeI32 = c_int32 * 3

# The longest that a card can be.
_Bytes = c_uint8 * 65


@dataclass(frozen=True)
class Card:
    """What a deposit card says.

    >>> from coronagamba import IDENTITY, VOLUME, Card, Sharding, Volume
    >>> card = Card(
    ...     Sharding(0, IDENTITY, 1, 2, VOLUME),
    ...     Volume(size=(100, 100, 100), chunk=(64, 64, 64)),
    ... )
    >>> len(card.to_bytes())
    46
    >>> Card.read(card.to_bytes()) == card
    True
    """

    sharding: Sharding
    volume: Volume

    def __post_init__(self) -> None:
        _must_be("sharding", self.sharding, Sharding)
        _must_be("volume", self.volume, Volume)

    @classmethod
    def read(cls, bytes: ReadableBuffer) -> Card:
        """What the card of these bytes says. Refusals 14, 1, 2, 3."""
        with Lent("bytes", bytes) as lent:
            return cls._said(
                library.coronagamba_card_read, lent.bytes, lent.count
            )

    @classmethod
    def read_info(
        cls, text: Union[str, ReadableBuffer], scale: SupportsIndex
    ) -> Card:
        """What the text of an info file says of its scale number `scale`,
        from 0, as a card of a volume. The text is a str, or its bytes in
        UTF-8. Refusals 19, 20, 1, 2, 3.

        >>> from coronagamba import Card, Refused
        >>> text = '''{"type": "image", "scales": [{
        ...     "size": [100, 1, 1], "chunk_sizes": [[64, 1, 1]],
        ...     "sharding": {"@type": "neuroglancer_uint64_sharded_v1",
        ...         "preshift_bits": 0, "hash": "murmurhash3_x86_128",
        ...         "minishard_bits": 3, "shard_bits": 9}}]}'''
        >>> Card.read_info(text, 0).volume.size
        Extents(x=100, y=1, z=1)
        >>> try:
        ...     Card.read_info(text, scale=1)
        ... except Refused as refusal:
        ...     print(refusal)
        refused 20: The info file does not give the settings of this scale.
        """
        number = u64("scale", scale)
        if isinstance(text, str):
            # Half a pair of surrogates is for the library to refuse.
            text = text.encode("utf-8", "surrogatepass")
        with Lent("text", text) as lent:
            return cls._said(
                library.coronagamba_info_read, lent.bytes, lent.count, number
            )

    @classmethod
    def _said(cls, function: Any, *question: Any) -> Card:
        """What a function writes of this question, behind which its results
        stand."""
        sharding, offset = _FiveU8(), _ThreeI32()
        size, chunk = _ThreeU32(), _ThreeU32()
        results = map(byref, (sharding, size, chunk, offset))
        answer(function(*question, *results))
        return cls(Sharding(*sharding), Volume(size, chunk, offset))

    def to_bytes(self) -> bytes:
        """The card, of 46 or 61 bytes, of a mesh 50 or 65. Refusals 1, 2,
        3."""
        out, length = _Bytes(), c_uint64()
        answer(
            library.coronagamba_card_write(
                self.sharding._struct(),
                self.volume._struct(),
                out,
                len(out),
                byref(length),
            )
        )
        return bytes(out)[: length.value]


def _must_be(name: str, value: object, kind: type) -> None:
    if not isinstance(value, kind):
        raise TypeError(
            f"{name} must be a {kind.__name__}, not {type(value).__name__}"
        )
