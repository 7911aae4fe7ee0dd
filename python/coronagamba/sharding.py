"""From an id to its shard and minishard, and the names of shards' files."""

from __future__ import annotations

from ctypes import byref, c_uint8, c_uint64
from dataclasses import dataclass, fields
from typing import Any, Iterable, NamedTuple, SupportsIndex, Tuple, Union

from . import _declared
from ._buffers import Lent, Numbers, ReadableBuffer, own, u64s, zeros
from ._library import library
from ._numbers import u8, u64
from .refusal import answer

# The hash that gives back the id, and MurmurHash3_x86_128.
IDENTITY = _declared.HASH_IDENTITY
MURMUR = _declared.HASH_MURMUR

# The kind whose chunks are any bytes, and the one whose chunks are manifests,
# each with its fragments right before it.
VOLUME = _declared.KIND_VOLUME
MESH = _declared.KIND_MESH

# 8 digits and `.shard` or `.index`.
_Name = c_uint8 * (8 + 6)


class Place(NamedTuple):
    """Where an id belongs."""

    shard: int
    minishard: int


@dataclass(frozen=True)
class Sharding:
    """A sharding specification, its fields as in a deposit card. None has a
    default: a specification comes from the deposit, and a mesh that is settled
    as a volume loses its fragments.

    >>> from coronagamba import IDENTITY, VOLUME, Sharding
    >>> sharding = Sharding(
    ...     preshift=1, hash=IDENTITY, minishard_bits=1, shard_bits=4,
    ...     kind=VOLUME,
    ... )
    >>> sharding.place(42)
    Place(shard=10, minishard=1)
    >>> sharding.shard_name(10)
    'a.shard'
    >>> sharding.index_name(10), sharding.data_name(10)
    ('a.index', 'a.data')
    """

    preshift: int
    hash: int
    minishard_bits: int
    shard_bits: int
    kind: int

    def __post_init__(self) -> None:
        for field in fields(self):
            value = u8(field.name, getattr(self, field.name))
            object.__setattr__(self, field.name, value)

    def _struct(self) -> _declared.CSharding:
        return _declared.CSharding(
            self.preshift,
            self.hash,
            self.minishard_bits,
            self.shard_bits,
            self.kind,
        )

    def check(self) -> None:
        """Passes exactly the specifications that are allowed. Refusal 1, which
        every call with this specification would give. Making one judges
        nothing, so that any numbers may be handed to the library.

        >>> from coronagamba import IDENTITY, VOLUME, Sharding
        >>> Sharding(0, IDENTITY, 17, 0, VOLUME).check()
        Traceback (most recent call last):
        coronagamba.refusal.Refused: refused 1: The sharding specification \
has a field that is not allowed.
        """
        # This call gives refusal 1 and no other.
        self.place(0)

    def place(self, id: SupportsIndex) -> Place:
        """The shard and minishard of an id. Refusal 1."""
        shard, minishard = c_uint64(), c_uint64()
        answer(
            library.coronagamba_place_of(
                self._struct(), u64("id", id), byref(shard), byref(minishard)
            )
        )
        return Place(shard.value, minishard.value)

    def places(
        self, ids: Union[Iterable[SupportsIndex], ReadableBuffer]
    ) -> Tuple[Numbers, Numbers]:
        """The shards and the minishards of many ids, in their order, as two
        arrays of code Q. A buffer of unsigned 64-bit numbers, such as a numpy
        array, is not copied; one of other integers is. Refusal 1."""
        with Lent("ids", u64s("ids", ids)) as lent:
            count = lent.count // 8
            shards, minishards = zeros("Q", count), zeros("Q", count)
            answer(
                library.coronagamba_places_of(
                    self._struct(),
                    lent.pointer(c_uint64),
                    count,
                    own(c_uint64, shards),
                    count,
                    own(c_uint64, minishards),
                    count,
                    byref(c_uint64()),
                )
            )
        return shards, minishards

    def shard_name(self, shard: SupportsIndex) -> str:
        """The file name of a shard. Refusals 1, 5."""
        return self._name(library.coronagamba_shard_name, shard)

    def index_name(self, shard: SupportsIndex) -> str:
        """The name of the index file that a shard has in the earlier edition.
        Refusals 1, 5."""
        return self._name(library.coronagamba_index_name, shard)

    def data_name(self, shard: SupportsIndex) -> str:
        """The name of the data file beside it. Refusals 1, 5."""
        return self._name(library.coronagamba_data_name, shard)

    def _name(self, write: Any, shard: SupportsIndex) -> str:
        """The name of a shard's file, as this function writes it."""
        name, length = _Name(), c_uint64()
        answer(
            write(
                self._struct(),
                u64("shard", shard),
                name,
                len(name),
                byref(length),
            )
        )
        return bytes(name)[: length.value].decode("ascii")
