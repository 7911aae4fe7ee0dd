"""Intake from a scanner: a new volume shard, written in its settled form while
its chunks come in parts."""

from __future__ import annotations

from ctypes import byref, c_uint64
from numbers import Integral
from types import TracebackType
from typing import Any, Optional, SupportsIndex, Type, Union

from . import _declared
from ._buffers import Lent, ReadableBuffer, Uncopied, WriteableBuffer
from ._buffers import lengths, writable_view
from ._library import library
from ._numbers import u64
from .refusal import answer
from .sharding import Sharding

_State = c_uint64 * _declared.INTAKE_NUMBERS

# Where the numbers stand that are told: the minishard bits, the chunks of the
# open minishard, the bytes behind the shard index so far, and those owed.
_MINISHARD_BITS = 2
_COUNT = 9
_NEXT = 12
_OWED = 13


class Intake(Uncopied):
    """A new volume shard that chunks are delivered to, by rising minishard,
    then rising id.

    Each byte goes to its final place in `out` at once. The ids and sizes of
    the open minishard wait in `waiting`, which is used afresh for each. Both
    are writable buffers of the caller, or numbers of bytes, of which new ones
    are made. `out` needs MINISHARD_BYTES for each minishard, CHUNK_BYTES for
    each chunk and the chunks' own bytes, `waiting` WAITING_BYTES for each
    chunk of the fullest minishard.

    The end of a `with` block closes the shard; an exception leaves it as it
    stands, not closed. Either way the buffers are let go.

    Refusals of the opening: 1, also for a mesh, 5, and 13 where the shard
    index passes `out`. A refused call changes nothing.

    >>> from coronagamba import IDENTITY, VOLUME, Intake, Shard, Sharding
    >>> sharding = Sharding(0, IDENTITY, 1, 0, VOLUME)
    >>> with Intake(sharding, 0, out=100, waiting=2 * 16) as intake:
    ...     intake.announce(4, 2)
    ...     intake.part(b"ab")
    ...     intake.announce(10, 3)
    ...     intake.part(b"c")
    ...     intake.part(b"de")
    >>> intake.length
    85
    >>> bytes(Shard(sharding, 0, intake.form).chunk(10))
    b'cde'
    """

    __slots__ = ("_out", "_waiting", "_held", "_room", "_state", "_closed")

    # Bytes of `waiting` that a chunk takes: its id and its size.
    WAITING_BYTES = 16

    # Bytes of the settled form that each minishard takes, in the shard index.
    MINISHARD_BYTES = 16

    # Bytes of it that a chunk takes beside its own, in its minishard index.
    CHUNK_BYTES = 24

    def __init__(
        self,
        sharding: Sharding,
        number: SupportsIndex,
        out: Union[WriteableBuffer, int],
        waiting: Union[WriteableBuffer, int],
    ) -> None:
        if not isinstance(sharding, Sharding):
            raise TypeError(
                f"sharding must be a Sharding, not {type(sharding).__name__}"
            )
        shard = u64("number", number)
        self._out = _made("out", out)
        self._waiting = _made("waiting", waiting)
        self._state = _State()
        self._closed = False
        self._held = writable_view("out", self._out)
        self._room = writable_view("waiting", self._waiting)
        try:
            self._open(sharding, shard)
        except BaseException:
            self.release()
            raise

    def _open(self, sharding: Sharding, number: int) -> None:
        with self._lent_out() as out, self._lent_waiting() as waiting:
            if out.overlaps(waiting):
                raise ValueError("out and waiting overlap")
            answer(
                library.coronagamba_intake_open(
                    sharding._struct(),
                    number,
                    out.bytes,
                    out.count,
                    waiting.bytes,
                    waiting.count,
                    byref(self._state),
                )
            )

    def announce(self, id: SupportsIndex, size: SupportsIndex) -> None:
        """Announces the next chunk and its number of bytes, which are owed
        from then on. Refusals 10 for an id of another shard; 25 where its
        minishard is below the open one, or the same and its id not above the
        last, and after the close; 26 while bytes of the chunk before are owed;
        13 where the form of all that was announced, this chunk included, would
        pass `out` or 1 GiB, or `waiting` has no 16 bytes left."""
        chunk = u64("id", id), u64("size", size)
        with self._lent_out() as out, self._lent_waiting() as waiting:
            answer(
                library.coronagamba_intake_announce(
                    byref(self._state),
                    *chunk,
                    out.bytes,
                    out.count,
                    waiting.bytes,
                    waiting.count,
                )
            )

    def part(self, bytes: ReadableBuffer) -> None:
        """Hands over the next bytes of the announced chunk; there may be none.
        They must have no memory in common with `out` and `waiting`. Refusals
        25 after the close, and 26 where they are more than are owed, of which
        none is taken then."""
        with Lent("bytes", bytes) as part, self._lent_out() as out:
            with self._lent_waiting() as waiting:
                if part.overlaps(out) or part.overlaps(waiting):
                    raise ValueError("bytes overlap out or waiting")
                answer(
                    library.coronagamba_intake_part(
                        byref(self._state),
                        part.bytes,
                        part.count,
                        out.bytes,
                        out.count,
                        waiting.bytes,
                        waiting.count,
                    )
                )

    def close(self) -> int:
        """Closes the shard and gives the length of its settled form, with
        which `out` then begins. Refusals 25 after the close, and 26 while
        bytes are owed; then it is not closed, and the delivery may go on."""
        length = c_uint64()
        with self._lent_out() as out, self._lent_waiting() as waiting:
            answer(
                library.coronagamba_intake_close(
                    byref(self._state),
                    out.bytes,
                    out.count,
                    waiting.bytes,
                    waiting.count,
                    byref(length),
                )
            )
        self._closed = True
        return length.value

    @property
    def owed(self) -> int:
        """How many bytes are owed of the chunk that was announced last."""
        return int(self._state[_OWED])

    @property
    def length(self) -> int:
        """The length of the settled form of all that was announced so far, the
        bytes that are owed included; after the close, of the shard."""
        index = self.MINISHARD_BYTES << self._state[_MINISHARD_BITS]
        rows = self.CHUNK_BYTES * self._state[_COUNT]
        return int(index + self._state[_NEXT] + self._state[_OWED] + rows)

    @property
    def form(self) -> memoryview:
        """The settled form, as a read-only part of `out`. ValueError where the
        shard is not closed."""
        if not self._closed:
            raise ValueError("the shard is not closed")
        view = writable_view("out", self._out)
        return view[: self.length].toreadonly()

    def release(self) -> None:
        """Lets the buffers go. Every later call raises ValueError; the form of
        a closed shard is still there."""
        self._held.release()
        self._room.release()

    def __enter__(self) -> Intake:
        return self

    def __exit__(
        self,
        kind: Optional[Type[BaseException]],
        error: Optional[BaseException],
        trace: Optional[TracebackType],
    ) -> None:
        try:
            if kind is None and not self._closed:
                self.close()
        finally:
            self.release()

    def __repr__(self) -> str:
        state = "closed" if self._closed else f"out {lengths(self._held)}"
        return f"<Intake: length {self.length}, owed {self.owed}, {state}>"

    def _lent_out(self) -> Lent:
        return Lent("out", self._held, True)

    def _lent_waiting(self) -> Lent:
        return Lent("waiting", self._room, True)


def _made(name: str, given: Any) -> Any:
    """The caller's buffer, or a new one of as many bytes."""
    # An array of numpy has an __index__ too, and is a buffer.
    if isinstance(given, Integral):
        return bytearray(u64(name, given))
    return given
