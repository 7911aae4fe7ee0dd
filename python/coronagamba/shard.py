"""Shard files: lookup, fragments, the whole-shard check, listings, unlisted
bytes, measures and settling. What a shard in one file and one in two files
have in common is said once, in `Stored`."""

from __future__ import annotations

from ctypes import byref, c_uint64
from itertools import count
from typing import Any, Iterator, List, NamedTuple, SupportsIndex, Tuple
from typing import Type, TypeVar

from . import _files
from ._arrays import numpy_for
from ._buffers import Lent, Loan, Numbers, ReadableBuffer, Releasing
from ._buffers import WriteableBuffer, byte_view, lengths, own, zeros
from ._files import StrOrBytesPath
from ._library import library
from ._numbers import flag, item, u64
from .refusal import Absent, Refused, answer
from .sharding import Sharding

# A row of a listing, as the library writes it.
_ROW = [("id", "<u8"), ("start", "<u8"), ("length", "<u8")]


class Span(NamedTuple):
    """The place of a chunk or a fragment, counted from the start of the
    file, of a pair from the start of the index file."""

    start: int
    length: int


class Listed(NamedTuple):
    """A chunk that a minishard lists."""

    id: int
    span: Span


class Counts(NamedTuple):
    """What a sound shard holds: how many chunks it lists, their sizes together
    as stored, how many of its bytes are unlisted, and how many its settled
    form has, or 1,073,741,825 where that would pass 1 GiB, which settling
    refuses with 13."""

    chunks: int
    bytes: int
    unlisted: int
    settled: int


class Stored(Releasing):
    """The calls on a shard, which are alike in one file and in two.

    `id in shard`, `len(shard)` and iteration are of the ids that it lists.
    None of them decides whether a shard is true: it always is, also where it
    lists nothing."""

    __slots__ = ("_sharding", "_number", "_paths")

    # What the names of the C functions begin with.
    _CALLS: str

    def __init__(self, sharding: Sharding, number: SupportsIndex) -> None:
        if not isinstance(sharding, Sharding):
            raise TypeError(
                f"sharding must be a Sharding, not {type(sharding).__name__}"
            )
        self._sharding = sharding
        self._number = u64("number", number)
        self._paths: Tuple[str, ...] = ()

    @property
    def sharding(self) -> Sharding:
        """The specification."""
        return self._sharding

    @property
    def number(self) -> int:
        """The shard number."""
        return self._number

    @property
    def paths(self) -> Tuple[str, ...]:
        """The files that it was read from; none where bytes were given."""
        return self._paths

    def _views(self) -> Tuple[memoryview, ...]:
        """The bytes of its files."""
        raise NotImplementedError

    def __repr__(self) -> str:
        told = lengths(*self._views())
        if self._paths:
            told += f" from {' and '.join(map(repr, self._paths))}"
        kind = type(self).__name__
        return f"<{kind} {self._number} of {self._sharding}: {told}>"

    def _lent(self) -> Loan:
        """The bytes, for a call."""
        raise NotImplementedError

    def _part(self, span: Span) -> memoryview:
        """The bytes at a place that the library gave."""
        raise NotImplementedError

    def _ask(self, name: str, loan: Loan, *rest: Any) -> None:
        """Makes a call on the bytes that are lent."""
        call = getattr(library, self._CALLS + name)
        front = self._sharding._struct(), self._number
        answer(call(*front, *loan.arguments, *rest), self._paths)

    def __contains__(self, id: Any) -> bool:
        """Whether an id is listed, which costs what `lookup` does. False is
        refusal 12; every other refusal of `lookup` is raised, 5 for an id of
        another shard among them."""
        try:
            self.lookup(id)
        except Absent:
            return False
        return True

    def __len__(self) -> int:
        """How many chunks a sound shard lists. It costs what `measure` does,
        which judges the whole shard, at each call; refused as that is."""
        return self.measure().chunks

    def __bool__(self) -> bool:
        return True

    def __iter__(self) -> Iterator[int]:
        """The ids of a sound shard, in the order of `listed` and refused as
        that is. `list(shard)` asks for the length too, to make room."""
        return (entry.id for entry in self.listed())

    def listed(self) -> Iterator[Listed]:
        """The chunks that a sound shard lists: the minishards in number order,
        the chunks of each in stored order. Refused as `check` is at this call,
        and on the way only where the bytes were changed. It holds the listing
        of one minishard at a time; each is judged again, once for its count
        and once for its entries."""
        self.check()
        return self._entries()

    def _entries(self) -> Iterator[Listed]:
        """The listings in turn; 33 says that there is no more."""
        for minishard in count():
            try:
                entries = self.listing(minishard)
            except Refused as refused:
                if refused.number == Refused.NO_SUCH_MINISHARD:
                    return
                raise
            yield from entries

    def lookup(self, id: SupportsIndex) -> Span:
        """The place of an id's chunk; in a mesh it is a manifest. Refusals 1,
        5, of a pair 23, 6, 7 to 11 and, in a mesh, 15 to 17 and 21 of the id's
        minishard with a position, and 12, which is `Absent`."""
        start, length = c_uint64(), c_uint64()
        with self._lent() as loan:
            self._ask(
                "lookup", loan, u64("id", id), byref(start), byref(length)
            )
        return Span(start.value, length.value)

    def chunk(self, id: SupportsIndex) -> memoryview:
        """An id's chunk, as a read-only part of the caller's bytes, refused
        as `lookup` is."""
        return self._part(self.lookup(id))

    def lookup_fragment(
        self, id: SupportsIndex, level: SupportsIndex, node: SupportsIndex
    ) -> Span:
        """The place of the fragment of a node in a mesh shard, by the id of
        its manifest, its level and its number, both counted from 0. Refused
        as `lookup` is, then with 18 where there is no such node, or where the
        kind is a volume.

        A manifest's fragments are the bytes right before it, one after the
        other in the order of its nodes; no index lists them."""
        start, length = c_uint64(), c_uint64()
        with self._lent() as loan:
            self._ask(
                "fragment",
                loan,
                u64("id", id),
                item("level", level),
                item("node", node),
                byref(start),
                byref(length),
            )
        return Span(start.value, length.value)

    def fragment(
        self, id: SupportsIndex, level: SupportsIndex, node: SupportsIndex
    ) -> memoryview:
        """The fragment of a node, as a read-only part of the caller's bytes,
        refused as `lookup_fragment` is."""
        return self._part(self.lookup_fragment(id, level, node))

    def check(self) -> None:
        """Passes exactly the sound shards. Refusals 1, 5, of a pair 23, 6, and
        7 to 11 and, in a mesh, 15 to 17 and 21 with the first minishard that
        has a fault, and a position."""
        with self._lent() as loan:
            self._ask("check", loan)

    def listed_count(self, minishard: SupportsIndex) -> int:
        """How many chunks a minishard lists. Refusals 1, 5, 33 for a minishard
        that is not there, of a pair 23, 6, 7 to 11 and, in a mesh, 15 to 17
        and 21 of that minishard with a position."""
        chunks = c_uint64()
        with self._lent() as loan:
            self._ask(
                "listed_count",
                loan,
                u64("minishard", minishard),
                byref(chunks),
            )
        return chunks.value

    def listing(self, minishard: SupportsIndex) -> List[Listed]:
        """The chunks that a minishard lists, in stored order, refused as
        `listed_count` is."""
        out = self._rows(minishard)
        return [
            Listed(id, Span(start, size))
            for id, start, size in zip(out[::3], out[1::3], out[2::3])
        ]

    def listing_array(self, minishard: SupportsIndex) -> Any:
        """The same as a numpy array of one axis with the fields `id`, `start`
        and `length`, each uint64. Needs numpy; refused as `listing` is."""
        numpy = numpy_for("listing_array", "listing does")
        return numpy.frombuffer(self._rows(minishard), dtype=_ROW)

    def _rows(self, minishard: SupportsIndex) -> Numbers:
        """A listing as the library writes it: id, start and length of each
        chunk in turn."""
        out = zeros("Q", 3 * self.listed_count(minishard))
        length = c_uint64()
        with self._lent() as loan:
            self._ask(
                "listing",
                loan,
                u64("minishard", minishard),
                own(c_uint64, out),
                len(out),
                byref(length),
            )
        del out[length.value:]
        return out

    def unlisted(self) -> int:
        """How many bytes of a sound shard are unlisted: they lie past the
        shard index in no listed chunk, no fragment and no nonempty minishard
        index. Refusals 1, 5, of a pair 23, 6, 7 to 11 and, in a mesh, 15 to 17
        and 21 with a position."""
        count = c_uint64()
        with self._lent() as loan:
            self._ask("unlisted", loan, byref(count))
        return count.value

    def measure(self) -> Counts:
        """What a sound shard holds, for which it is judged once. Refused as
        `check` is, then with 27 where the sizes of the chunks together pass
        2^64 - 1."""
        counts = (c_uint64 * 4)()
        with self._lent() as loan:
            self._ask("measure", loan, byref(counts))
        return Counts(*counts)

    def settled_length(self, *, drop_unlisted: bool = False) -> int:
        """The length of the settled form, which is one file, also of a pair.
        Refusals 1, 5, of a pair 23, 6, 7 to 11 and, in a mesh, 15 to 17 and 21
        with a position, 22 where bytes are `unlisted` and not to be dropped,
        and 13 where the form would pass 1 GiB."""
        length = c_uint64()
        with self._lent() as loan:
            self._ask(
                "settled_length",
                loan,
                flag("drop_unlisted", drop_unlisted),
                byref(length),
            )
        return length.value

    def settled(self, *, drop_unlisted: bool = False) -> bytearray:
        """The settled form, refused as `settled_length` is."""
        form = bytearray(self.settled_length(drop_unlisted=drop_unlisted))
        self.settle(form, drop_unlisted=drop_unlisted)
        return form

    def settle(
        self, out: WriteableBuffer, *, drop_unlisted: bool = False
    ) -> int:
        """Writes the settled form to the front of `out` and gives its length.
        Refused as `settled_length` is, and with 13 where `out` is too short.
        `out` and the shard's bytes must have no memory in common."""
        dropping = flag("drop_unlisted", drop_unlisted)
        length = c_uint64()
        with self._lent() as loan, Lent("out", out, True) as room:
            if loan.overlaps(room):
                raise ValueError("out overlaps the bytes of the shard")
            self._ask(
                "settle",
                loan,
                dropping,
                room.bytes,
                room.count,
                byref(length),
            )
        return length.value


Made = TypeVar("Made", bound="Shard")


class Shard(Stored):
    """A shard file with its specification and number, to be asked many times.

    The bytes stay the caller's: they are not copied, and must not change
    while a call runs. Opening judges nothing.

    >>> from coronagamba import IDENTITY, VOLUME, Shard, Sharding
    >>> index = b"".join(n.to_bytes(8, "little") for n in (2, 26, 7, 0, 2))
    >>> file = index[:16] + b"ab" + index[16:]
    >>> shard = Shard(Sharding(0, IDENTITY, 0, 0, VOLUME), 0, file)
    >>> shard.check()
    >>> shard.lookup(7)
    Span(start=16, length=2)
    >>> bytes(shard.chunk(7))
    b'ab'
    >>> shard.settled() == file
    True
    """

    __slots__ = ("_view",)

    _CALLS = "coronagamba_"

    def __init__(
        self,
        sharding: Sharding,
        number: SupportsIndex,
        file: ReadableBuffer,
    ) -> None:
        super().__init__(sharding, number)
        self._view = byte_view("file", file)

    @classmethod
    def from_path(
        cls: Type[Made],
        path: StrOrBytesPath,
        sharding: Sharding,
        number: SupportsIndex,
    ) -> Made:
        """The shard in the file of this path, which is read into memory and
        closed. A file longer than 1 GiB is read no further than the library
        needs to refuse it with 6. An OSError and every refusal name the path.
        """
        told, file = _files.read("path", path)
        shard = cls(sharding, number, file)
        shard._paths = (told,)
        return shard

    def release(self) -> None:
        """Lets the caller's buffer go. Every later call raises ValueError;
        chunks handed out before hold the buffer for themselves."""
        self._view.release()

    def _views(self) -> Tuple[memoryview, ...]:
        return (self._view,)

    def _lent(self) -> Loan:
        return Loan(Lent("file", self._view))

    def _part(self, span: Span) -> memoryview:
        return self._view[span.start:span.start + span.length]
