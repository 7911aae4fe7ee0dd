"""numpy, for the calls that need it."""

from __future__ import annotations

from importlib import import_module
from typing import Any


def numpy_for(call: str, others: str) -> Any:
    """numpy, or an ImportError that names the call and those that do without
    it."""
    try:
        return import_module("numpy")
    except ImportError:
        raise ImportError(
            f"{call} needs numpy; {others} without it"
        ) from None
