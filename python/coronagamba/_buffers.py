"""Bytes and numbers of other objects, lent to the library uncopied."""

from __future__ import annotations

import ctypes
import struct
from array import array
from ctypes import c_char_p, c_int, c_ssize_t, c_void_p
from itertools import chain
from types import TracebackType
from typing import TYPE_CHECKING, Any, Iterator, NoReturn, Optional, Tuple
from typing import Type, TypeVar

from ._numbers import three_u32, u64

if TYPE_CHECKING:
    from _typeshed import ReadableBuffer as ReadableBuffer
    from _typeshed import WriteableBuffer as WriteableBuffer

    Numbers = array[int]
else:
    ReadableBuffer = WriteableBuffer = object
    Numbers = array

_SIMPLE = 0
_WRITABLE = 1


class _PyBuffer(ctypes.Structure):
    """Py_buffer of Python's C interface."""

    _fields_ = [
        ("buf", c_void_p),
        ("obj", c_void_p),
        ("len", c_ssize_t),
        ("itemsize", c_ssize_t),
        ("readonly", c_int),
        ("ndim", c_int),
        ("format", c_char_p),
        ("shape", c_void_p),
        ("strides", c_void_p),
        ("suboffsets", c_void_p),
        ("internal", c_void_p),
    ]


# Prototypes of our own: those of ctypes.pythonapi belong to the whole program.
_get = ctypes.PYFUNCTYPE(
    c_int, ctypes.py_object, ctypes.POINTER(_PyBuffer), c_int
)(("PyObject_GetBuffer", ctypes.pythonapi))
_release = ctypes.PYFUNCTYPE(None, ctypes.POINTER(_PyBuffer))(
    ("PyBuffer_Release", ctypes.pythonapi)
)


class Lent:
    """The bytes of an object while a `with` block runs. The object exports
    its buffer for so long and cannot move or free it."""

    __slots__ = ("_name", "_data", "_flags", "_buffer")

    def __init__(self, name: str, data: Any, writable: bool = False) -> None:
        self._name = name
        self._data = data
        self._flags = _WRITABLE if writable else _SIMPLE
        self._buffer = _PyBuffer()

    def __enter__(self) -> Lent:
        try:
            _get(self._data, self._buffer, self._flags)
        except (BufferError, TypeError) as error:
            raise TypeError(
                f"{self._name} must be a C-contiguous"
                f"{' writable' if self._flags else ''} bytes-like object: "
                f"{error}"
            ) from None
        return self

    def __exit__(self, *_: object) -> None:
        _release(self._buffer)

    @property
    def address(self) -> int:
        """Where the bytes are; 0 may stand for no bytes."""
        return int(self._buffer.buf or 0)

    @property
    def count(self) -> int:
        """How many bytes there are."""
        return int(self._buffer.len)

    def pointer(self, item: Any) -> Any:
        """A pointer to items of this ctypes type; NULL for no bytes."""
        if self.count == 0:
            return None
        return ctypes.byref(item.from_address(self.address))

    @property
    def bytes(self) -> Any:
        """A pointer to the bytes."""
        return self.pointer(ctypes.c_uint8)

    def overlaps(self, other: Lent) -> bool:
        """Whether some byte belongs to both."""
        begin = max(self.address, other.address)
        return begin < min(
            self.address + self.count, other.address + other.count
        )


class Loan:
    """The bytes of one object or of several, lent together."""

    __slots__ = ("_all",)

    def __init__(self, *all: Lent) -> None:
        self._all = all

    def __enter__(self) -> Loan:
        for place, lent in enumerate(self._all):
            try:
                lent.__enter__()
            except BaseException:
                for earlier in self._all[:place]:
                    earlier.__exit__()
                raise
        return self

    def __exit__(self, *_: object) -> None:
        for lent in self._all:
            lent.__exit__()

    @property
    def arguments(self) -> Tuple[Any, ...]:
        """A pointer and a count for each."""
        found: Tuple[Any, ...] = ()
        for lent in self._all:
            found += (lent.bytes, lent.count)
        return found

    def overlaps(self, other: Lent) -> bool:
        """Whether some byte of one of them is another's."""
        return any(lent.overlaps(other) for lent in self._all)


class Uncopied:
    """What stands over bytes of a caller: neither copied nor pickled, as two
    objects would then release or write the same bytes."""

    __slots__ = ()

    def __reduce__(self) -> NoReturn:
        kind = type(self).__name__
        raise TypeError(
            f"a {kind} is neither copied nor pickled: make another one"
        )


Self = TypeVar("Self", bound="Releasing")


class Releasing(Uncopied):
    """What holds a caller's bytes until `release` or the end of a `with`
    block."""

    __slots__ = ()

    def release(self) -> None:
        """Lets the caller's bytes go."""
        raise NotImplementedError

    def __enter__(self: Self) -> Self:
        return self

    def __exit__(
        self,
        kind: Optional[Type[BaseException]],
        error: Optional[BaseException],
        trace: Optional[TracebackType],
    ) -> None:
        self.release()


class Held(Releasing):
    """A caller's bytes."""

    __slots__ = ("_view",)

    # The name by which a caller gives them.
    _NAME = "bytes"

    def __init__(self, bytes: ReadableBuffer) -> None:
        self._view = byte_view(self._NAME, bytes)

    def release(self) -> None:
        """Lets the caller's buffer go. Every later call raises ValueError."""
        self._view.release()

    def _lent(self) -> Lent:
        return Lent(self._NAME, self._view)

    def __repr__(self) -> str:
        return f"<{type(self).__name__}: {lengths(self._view)}>"


def lengths(*views: memoryview) -> str:
    """How many bytes these views have, for a reader."""
    try:
        return " and ".join(f"{view.nbytes} bytes" for view in views)
    except ValueError:
        return "released"


def byte_view(name: str, data: ReadableBuffer) -> memoryview:
    """A read-only view of an object's bytes."""
    try:
        view = memoryview(data)
    except TypeError:
        raise TypeError(
            f"{name} must be a bytes-like object, not {type(data).__name__}"
        ) from None
    if not view.c_contiguous:
        raise TypeError(f"{name} must be a C-contiguous bytes-like object")
    return view.toreadonly().cast("B")


def writable_view(name: str, data: WriteableBuffer) -> memoryview:
    """A view of an object's bytes that can be written to."""
    try:
        view = memoryview(data)
    except TypeError:
        raise TypeError(
            f"{name} must be a writable bytes-like object, not "
            f"{type(data).__name__}"
        ) from None
    if view.readonly or not view.c_contiguous:
        raise TypeError(
            f"{name} must be a C-contiguous writable bytes-like object"
        )
    return view.cast("B")


def own(item: Any, values: Numbers) -> Any:
    """A pointer to the items of an array that nobody else has; NULL for an
    empty one."""
    address, count = values.buffer_info()
    return ctypes.byref(item.from_address(address)) if count else None


def zeros(code: str, count: int) -> Numbers:
    """An array of that many zeros."""
    return array(code, [0]) * count


def u64s(name: str, values: Any) -> ReadableBuffer:
    """64-bit numbers: a buffer of them as it stands, that of other integers
    and any iterable of integers as an array."""
    view = _integers(name, values)
    if view is None:
        each = _iterator(name, values)
        return array("Q", (u64(f"{name}[{i}]", v) for i, v in enumerate(each)))
    if _stands(view, 8):
        return _aligned("Q", view)
    numbers = _unpacked(view)
    if _beyond(numbers, 8):
        for i, number in enumerate(numbers):
            u64(f"{name}[{i}]", number)
    return array("Q", numbers)


def u32_triples(name: str, values: Any) -> ReadableBuffer:
    """32-bit numbers, three for each item: a buffer of them as it stands, that
    of other integers and any iterable of triples as an array."""
    view = _integers(name, values)
    if view is None:
        each = enumerate(_iterator(name, values))
        triples = (three_u32(f"{name}[{i}]", v) for i, v in each)
        return array("I", chain.from_iterable(triples))
    if not _holds_triples(view):
        raise ValueError(f"{name} must hold x, y, z of each item in turn")
    if _stands(view, 4):
        return _aligned("I", view)
    numbers = _unpacked(view)
    if _beyond(numbers, 4):
        for i in range(0, len(numbers), 3):
            three_u32(f"{name}[{i // 3}]", numbers[i:i + 3])
    return array("I", numbers)


def _iterator(name: str, values: Any) -> Iterator[Any]:
    try:
        return iter(values)
    except TypeError:
        raise TypeError(
            f"{name} must be a buffer or an iterable of integers, not"
            f" {type(values).__name__}"
        ) from None


def _holds_triples(view: memoryview) -> bool:
    if view.ndim == 1:
        return len(view) % 3 == 0
    return (view.shape or ())[-1:] == (3,)


def _integers(name: str, values: Any) -> Optional[memoryview]:
    """A buffer whose items are integers of any width and byte order. None
    where there is no buffer. Plain bytes are no integers: whether they are
    numbers of 8 bits or parts of longer ones, only an array tells."""
    try:
        view = memoryview(values)
    except TypeError:
        return None
    except (BufferError, ValueError) as error:
        raise type(error)(f"{name} cannot be read: {error}") from None
    kind = view.format.lstrip("@=<>!")
    if kind not in _INTEGERS:
        raise TypeError(
            f"{name} must be integers, not items of the format {view.format!r}"
        )
    typed = hasattr(values, "dtype") or hasattr(values, "typecode")
    if view.itemsize == 1 and not typed:
        raise TypeError(f"{name} must be integers, not plain bytes")
    return view


# The formats of integers, those of signed ones in small letters.
_INTEGERS = tuple("bBhHiIlLqQnN")


def _signed(view: memoryview) -> bool:
    return view.format[-1].islower()


def _swapped(view: memoryview) -> bool:
    """Whether the greatest byte is the first; this module is for x86-64."""
    return view.format[0] in ">!"


def _stands(view: memoryview, width: int) -> bool:
    """Whether the items are unsigned numbers of so many bytes, one behind the
    other, as the library takes them."""
    other = _signed(view) or _swapped(view) or view.itemsize != width
    return view.c_contiguous and not other


def _unpacked(view: memoryview) -> Tuple[int, ...]:
    """The integers of a buffer. Their width is the item's: a letter has
    another one in `struct` than in ctypes."""
    letter = {1: "B", 2: "H", 4: "I", 8: "Q"}[view.itemsize]
    letter = letter.lower() if _signed(view) else letter
    order = ">" if _swapped(view) else "<"
    count = view.nbytes // view.itemsize
    return struct.unpack(f"{order}{count}{letter}", view.tobytes())


def _beyond(numbers: Tuple[int, ...], width: int) -> bool:
    """Whether a number is none of so many bytes."""
    least, most = min(numbers, default=0), max(numbers, default=0)
    return least < 0 or most >= 2 ** (8 * width)


def _aligned(code: str, view: memoryview) -> ReadableBuffer:
    """The numbers where they stand, or a copy: C takes no number from an
    address that is no multiple of its width."""
    with Lent("numbers", view) as lent:
        if lent.address % view.itemsize == 0:
            return view
    return array(code, view.tobytes())
