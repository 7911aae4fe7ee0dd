"""The shared object: where it is, and its functions with their declarations.
"""

from __future__ import annotations

import ctypes
import os
from pathlib import Path
from typing import List

from ._declared import FUNCTIONS, VERSION

VARIABLE = "CORONAGAMBA_LIBRARY"
FILE = "libcoronagamba.so"
COMMAND = "python/build"


def _candidates() -> List[Path]:
    """Where the object may be; a path that the user names stands alone."""
    named = os.environ.get(VARIABLE)
    if named:
        return [Path(os.path.abspath(named))]
    module = Path(__file__).resolve().parent
    return [module.parent.parent / "target" / "shared" / FILE, module / FILE]


def _find() -> Path:
    candidates = _candidates()
    for path in candidates:
        if path.is_file():
            return path
    tried = " nor ".join(str(path) for path in candidates)
    raise ImportError(
        f"the library is not there: no file {tried}. Make it with "
        f"{COMMAND}, or name its path in {VARIABLE}."
    )


def _open(path: Path) -> ctypes.CDLL:
    try:
        return ctypes.CDLL(str(path))
    except OSError as error:
        raise ImportError(
            f"{path} cannot be loaded: {error}. Make it again with {COMMAND}."
        ) from error


def _bind(library: ctypes.CDLL, path: Path) -> ctypes.CDLL:
    """Declares every function of the table, all of which must be there."""
    for name, (result, arguments) in FUNCTIONS.items():
        try:
            function = getattr(library, name)
        except AttributeError:
            raise ImportError(
                f"{path} has no {name}: it is older than this module. "
                f"Make it again with {COMMAND}."
            ) from None
        function.restype = result
        function.argtypes = arguments
    return library


def _same_version(library: ctypes.CDLL, path: Path) -> ctypes.CDLL:
    """The declarations belong to one version: with another, structs and
    answers may differ."""
    number = library.coronagamba_version()
    version = (number >> 32, number >> 16 & 0xFFFF, number & 0xFFFF)
    if version != VERSION:
        raise ImportError(
            f"{path} is of version {'.'.join(map(str, version))}, this module "
            f"of {'.'.join(map(str, VERSION))}. Make it again with {COMMAND}."
        )
    return library


def _load() -> ctypes.CDLL:
    path = _find()
    return _same_version(_bind(_open(path), path), path)


library = _load()
