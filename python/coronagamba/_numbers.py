"""Numbers that fit the library's.

ctypes cuts off what does not fit, so every number is tested before a call.
"""

from __future__ import annotations

import operator
from typing import Any, Iterable, Tuple


def _fitting(name: str, value: Any, least: int, most: int) -> int:
    try:
        number = int(operator.index(value))
    except TypeError:
        raise TypeError(
            f"{name} must be an integer, not {type(value).__name__}"
        ) from None
    if not least <= number <= most:
        raise OverflowError(
            f"{name} must be from {least} to {most}, not {number}"
        )
    return number


def u8(name: str, value: Any) -> int:
    """The value as a number of 8 bits."""
    return _fitting(name, value, 0, 2**8 - 1)


def u32(name: str, value: Any) -> int:
    """The value as a number of 32 bits."""
    return _fitting(name, value, 0, 2**32 - 1)


def u64(name: str, value: Any) -> int:
    """The value as a number of 64 bits."""
    return _fitting(name, value, 0, 2**64 - 1)


def item(name: str, value: Any) -> int:
    """A number of 64 bits that counts a manifest's items, as the library takes
    it. No manifest has an item of the greatest 32-bit number, so what does not
    fit is refused as it should be."""
    return min(u64(name, value), 2**32 - 1)


def flag(name: str, value: Any) -> int:
    """A wish, which is True or False and nothing that merely counts as one:
    1 where it is asked for, else 0."""
    if not isinstance(value, bool):
        raise TypeError(
            f"{name} must be True or False, not {type(value).__name__}"
        )
    return int(value)


def i32(name: str, value: Any) -> int:
    """The value as a signed number of 32 bits."""
    return _fitting(name, value, -(2**31), 2**31 - 1)


def i64(name: str, value: Any) -> int:
    """The value as a signed number of 64 bits."""
    return _fitting(name, value, -(2**63), 2**63 - 1)


def _three(name: str, values: Iterable[Any]) -> Tuple[Any, ...]:
    try:
        found = tuple(values)
    except TypeError:
        raise TypeError(
            f"{name} must be three integers, not {type(values).__name__}"
        ) from None
    if len(found) != 3:
        raise ValueError(f"{name} must be three integers, not {len(found)}")
    return found


def three_u32(name: str, values: Iterable[Any]) -> Tuple[int, int, int]:
    """Three values, along x, y and z, as numbers of 32 bits."""
    x, y, z = _three(name, values)
    return u32(f"{name} x", x), u32(f"{name} y", y), u32(f"{name} z", z)


def three_i32(name: str, values: Iterable[Any]) -> Tuple[int, int, int]:
    """Three values, along x, y and z, as signed numbers of 32 bits."""
    x, y, z = _three(name, values)
    return i32(f"{name} x", x), i32(f"{name} y", y), i32(f"{name} z", z)


def three_i64(name: str, values: Iterable[Any]) -> Tuple[int, int, int]:
    """Three values, along x, y and z, as signed numbers of 64 bits."""
    x, y, z = _three(name, values)
    return i64(f"{name} x", x), i64(f"{name} y", y), i64(f"{name} z", z)
