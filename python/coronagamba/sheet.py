"""The yearly holdings sheet over many shards."""

from __future__ import annotations

from ctypes import byref, c_uint64
from typing import Any, Dict, Iterable, SupportsIndex, Tuple

from . import _declared
from ._library import library
from ._numbers import u64
from .refusal import answer
from .shard import Stored

_Rows = c_uint64 * _declared.SHEET_ROWS


class Sheet:
    """The yearly holdings sheet: shards sound, shards refused for each number
    that the check gives, and over the sound ones chunks listed, the sum of
    their sizes and unlisted bytes. A new sheet is empty, unless rows are given
    as `rows` has them; any numbers make a sheet.

    Where no total passes 2^64 - 1, the same shards in another order give the
    same sheet, and sheets of parts join to that of the whole: give each thread
    a sheet of its own and join them.

    >>> from coronagamba import IDENTITY, VOLUME, Shard, Sharding, Sheet
    >>> sharding = Sharding(0, IDENTITY, 0, 0, VOLUME)
    >>> index = b"".join(n.to_bytes(8, "little") for n in (2, 26, 7, 0, 2))
    >>> file = index[:16] + b"ab" + index[16:]
    >>> sheet = Sheet()
    >>> for bytes in (file, file + b"-", file[:9]):
    ...     sheet.add(Shard(sharding, 0, bytes))
    >>> sheet.sound, sheet.chunks, sheet.bytes, sheet.unlisted
    (2, 2, 4, 1)
    >>> sheet.refused[6]
    1
    >>> other = Sheet()
    >>> other.join(sheet)
    >>> other == sheet
    True
    """

    __slots__ = ("_rows",)

    # The numbers that the check gives, in the order of their rows.
    NUMBERS = (1, 5, 6, 7, 8, 9, 10, 11, 15, 16, 17, 21, 23)

    def __init__(
        self, rows: Iterable[SupportsIndex] = (0,) * _declared.SHEET_ROWS
    ) -> None:
        found = [u64(f"rows[{i}]", row) for i, row in enumerate(rows)]
        if len(found) != _declared.SHEET_ROWS:
            raise ValueError(
                f"rows must be {_declared.SHEET_ROWS} integers,"
                f" not {len(found)}"
            )
        self._rows = _Rows(*found)

    @property
    def rows(self) -> Tuple[int, ...]:
        """All rows: shards sound; shards refused, for each of `NUMBERS`;
        chunks, their bytes, unlisted bytes."""
        return tuple(self._rows)

    @property
    def sound(self) -> int:
        """How many shards are sound."""
        return self.rows[0]

    @property
    def refused(self) -> Dict[int, int]:
        """How many shards the check refused, by its number."""
        return dict(zip(self.NUMBERS, self.rows[1:]))

    @property
    def chunks(self) -> int:
        """How many chunks the sound shards list."""
        return self.rows[-3]

    @property
    def bytes(self) -> int:
        """The sizes of these chunks together, as stored; in a mesh those of
        the manifests."""
        return self.rows[-2]

    @property
    def unlisted(self) -> int:
        """How many bytes of the sound shards are unlisted."""
        return self.rows[-1]

    def add(self, shard: Stored) -> None:
        """Adds a `Shard` or a `Pair`, which is judged once: a sound one with
        what it holds, another to those refused with its number. Refusal 27
        where a total would pass 2^64 - 1; the sheet is then as it was."""
        if not isinstance(shard, Stored):
            raise TypeError(
                f"shard must be a Shard or a Pair, not {type(shard).__name__}"
            )
        call = getattr(library, shard._CALLS + "sheet_add")
        front = shard.sharding._struct(), shard.number
        with shard._lent() as loan:
            answer(call(byref(self._rows), *front, *loan.arguments))

    def join(self, other: Sheet) -> None:
        """Adds the sheet of other shards, row by row. Refusal 27 where a total
        would pass 2^64 - 1; this sheet is then as it was."""
        if not isinstance(other, Sheet):
            raise TypeError(
                f"other must be a Sheet, not {type(other).__name__}"
            )
        # The same rows are never lent for reading and for writing.
        rows = _Rows(*other.rows)
        answer(library.coronagamba_sheet_join(byref(self._rows), byref(rows)))

    # A sheet changes, and a class with this method alone has no hash.
    def __eq__(self, other: object) -> bool:
        if not isinstance(other, Sheet):
            return NotImplemented
        return self.rows == other.rows

    def __reduce__(self) -> Tuple[Any, ...]:
        # A copy has rows of its own.
        return type(self), (self.rows,)

    def __repr__(self) -> str:
        return f"Sheet({list(self.rows)})"
