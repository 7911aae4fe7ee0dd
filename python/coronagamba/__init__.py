"""A proved library for archives of sharded volume scans.

Every call takes any numbers and bytes and ends. A refusal is the exception
`Refused`, with its number from the archive's table; it leaves each lent
buffer as it was. An integer that the library's type cannot hold is an
OverflowError, and never cut off.

Bytes are taken from any C-contiguous bytes-like object without a copy. Other
threads run during a call, and must not change the bytes that it was lent.
"""

from ._declared import __version__
from .card import Card
from .grid import Bounds, Cell, Extents, Offset, Point, Volume
from .intake import Intake
from .labels import Labels
from .manifest import Corners, Header, Manifest, Node, Visit
from .pair import Half, Held, Pair
from .refusal import Absent, Refused
from .shard import Counts, Listed, Shard, Span
from .sharding import IDENTITY, MESH, MURMUR, VOLUME, Place, Sharding
from .sheet import Sheet

__all__ = [
    "IDENTITY",
    "MESH",
    "MURMUR",
    "VOLUME",
    "Absent",
    "Bounds",
    "Card",
    "Cell",
    "Corners",
    "Counts",
    "Extents",
    "Half",
    "Header",
    "Held",
    "Intake",
    "Labels",
    "Listed",
    "Manifest",
    "Node",
    "Offset",
    "Pair",
    "Place",
    "Point",
    "Refused",
    "Shard",
    "Sharding",
    "Sheet",
    "Span",
    "Visit",
    "Volume",
    "__version__",
]
