"""What an info file says, read by Python's own json: a second opinion.

json knows no depth, takes doubled names and some words that RFC 8259 has not;
what it lacks is added here. Lone surrogates and numbers of any length are its
own.
"""

import json

NOT_JSON, NO_SETTINGS = 19, 20
MOST_DEPTH = 32


class Refuse(Exception):
    """The number of a refusal."""


class Members(list):
    """The members of an object, in their order, doubled ones too."""


class Whole(str):
    """A number without fraction and exponent, as it is written."""


class Real(str):
    """Another number."""


def no_word(word):
    raise ValueError(f"{word} is not JSON")


def depth(value):
    """How deep a value reaches; 1 where nothing is in it."""
    inside = value
    if isinstance(value, Members):
        inside = [member for _, member in value]
    elif not isinstance(value, list):
        return 1
    return 1 + max(map(depth, inside), default=0)


def parsed(text):
    """The value that a text is."""
    try:
        value = json.loads(
            text.decode("utf-8", "strict"),
            object_pairs_hook=Members,
            parse_int=Whole,
            parse_float=Real,
            parse_constant=no_word,
        )
        if depth(value) > MOST_DEPTH:
            raise Refuse(NOT_JSON)
    except (ValueError, RecursionError):
        raise Refuse(NOT_JSON) from None
    return value


def need(holds):
    if not holds:
        raise Refuse(NO_SETTINGS)


def member(value, name, default=None):
    """The value of a used member, which stands there once; where it is not
    there, the default."""
    need(isinstance(value, Members))
    found = [item for given, item in value if given == name]
    need(len(found) == 1 or not found and default is not None)
    return found[0] if found else default


def whole(value, least, most):
    need(isinstance(value, Whole))
    # Python reads no number of thousands of digits.
    need(len(value) < 20)
    need(least <= int(value) <= most)
    return int(value)


def three(value, least, most):
    need(isinstance(value, list) and not isinstance(value, Members))
    need(len(value) == 3)
    return tuple(whole(number, least, most) for number in value)


def is_text(value):
    # Whole and Real are strings only to Python.
    return type(value) is str


def settings(text, scale):
    """Sharding, size, chunk and offset as numbers, or `Refuse`."""
    scales = member(parsed(text), "scales")
    need(isinstance(scales, list) and not isinstance(scales, Members))
    need(scale < len(scales))
    scale = scales[scale]
    size = three(member(scale, "size"), 0, 2**32 - 1)
    chunks = member(scale, "chunk_sizes")
    need(isinstance(chunks, list) and not isinstance(chunks, Members))
    need(len(chunks) == 1)
    chunk = three(chunks[0], 0, 2**32 - 1)
    zeros = [Whole("0")] * 3
    offset = member(scale, "voxel_offset", zeros)
    offset = three(offset, -(2**31), 2**31 - 1)
    spec = member(scale, "sharding")
    need(is_text(member(spec, "@type")))
    need(member(spec, "@type") == "neuroglancer_uint64_sharded_v1")
    for encoding in ("minishard_index_encoding", "data_encoding"):
        need(is_text(member(spec, encoding, "raw")))
        need(member(spec, encoding, "raw") == "raw")
    need(is_text(member(spec, "hash")))
    names = ["identity", "murmurhash3_x86_128"]
    preshift, minishard_bits, shard_bits = (
        whole(member(spec, f"{name}_bits"), 0, 255)
        for name in ("preshift", "minishard", "shard")
    )
    if member(spec, "hash") not in names:
        raise Refuse(1)
    hash = names.index(member(spec, "hash"))
    return (preshift, hash, minishard_bits, shard_bits), size, chunk, offset
