"""Files, read into memory."""

from __future__ import annotations

import os
from typing import Tuple, Union

StrOrBytesPath = Union[str, bytes, os.PathLike[str], os.PathLike[bytes]]

# One byte more than a shard may have: the library refuses a longer file by
# these bytes as it would by all of them.
ENOUGH = 2**30 + 1


def read(name: str, path: StrOrBytesPath) -> Tuple[str, bytes]:
    """The path as text, and the file's bytes, at most `ENOUGH` of them. An
    OSError names the path."""
    # A number would be taken for an open file.
    try:
        told = os.fsdecode(path)
    except TypeError:
        raise TypeError(
            f"{name} must be a str or an os.PathLike, not"
            f" {type(path).__name__}"
        ) from None
    try:
        with open(told, "rb") as file:
            long = os.fstat(file.fileno()).st_size > ENOUGH
            return told, file.read(ENOUGH if long else -1)
    except OSError as error:
        # A read that fails does not know the path.
        if error.filename is None:
            error.filename = told
        raise
