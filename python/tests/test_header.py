"""The ctypes declarations against include/coronagamba.h, both ways."""

import ctypes
import re
import unittest
from pathlib import Path

from coronagamba import _library
from coronagamba._declared import FUNCTIONS, STRUCTS

HEADER = Path(__file__).resolve().parents[2] / "include/coronagamba.h"

TYPES = {
    "uint8_t": ctypes.c_uint8,
    "uint32_t": ctypes.c_uint32,
    "uint64_t": ctypes.c_uint64,
    "int32_t": ctypes.c_int32,
    "int64_t": ctypes.c_int64,
    "size_t": ctypes.c_size_t,
    **STRUCTS,
}
STRUCT = re.compile(r"typedef struct \{(.*?)\} (\w+);")
FUNCTION = re.compile(r"(\w+) (coronagamba_\w+)\(([^()]*)\);")
PARAMETER = re.compile(r"(?:const )?(\w+) (\*?)(\w+)(?:\[(\d+)\])?")


def declarations():
    """The header without comments and directives, on one line."""
    text = re.sub(r"/\*.*?\*/", " ", HEADER.read_text(), flags=re.DOTALL)
    text = text.replace("\\\n", " ")
    text = re.sub(r"^#.*$", " ", text, flags=re.MULTILINE)
    return re.sub(r"\s+", " ", text)


def fields(body):
    """The fields of a struct: lines of a type and names."""
    found = []
    for line in filter(None, map(str.strip, body.split(";"))):
        kind, names = line.split(" ", 1)
        found += [(name.strip(), TYPES[kind]) for name in names.split(",")]
    return found


def argument_type(parameter):
    """The ctypes type of a parameter."""
    kind, star, _, length = PARAMETER.fullmatch(parameter.strip()).groups()
    if length:
        return ctypes.POINTER(TYPES[kind] * int(length))
    return ctypes.POINTER(TYPES[kind]) if star else TYPES[kind]


def argument_types(parameters):
    """The ctypes types of a function's parameters."""
    if parameters == "void":
        return ()
    return tuple(map(argument_type, parameters.split(",")))


class Header(unittest.TestCase):
    def test_every_struct_is_declared_alike(self):
        found = {name: body for body, name in STRUCT.findall(declarations())}
        self.assertEqual(found.keys(), STRUCTS.keys())
        for name, body in found.items():
            self.assertEqual(fields(body), STRUCTS[name]._fields_, name)

    def test_every_function_is_declared_alike(self):
        found = {
            name: (TYPES[result], argument_types(given))
            for result, name, given in FUNCTION.findall(declarations())
        }
        self.assertEqual(sorted(found), sorted(FUNCTIONS))
        for name, declared in found.items():
            self.assertEqual(declared, FUNCTIONS[name], name)

    def test_nothing_of_the_header_was_passed_over(self):
        named = set(re.findall(r"coronagamba_\w+", declarations()))
        self.assertEqual(named, set(FUNCTIONS) | set(STRUCTS))

    def test_the_object_has_these_declarations(self):
        for name, (result, arguments) in FUNCTIONS.items():
            function = getattr(_library.library, name)
            self.assertIs(function.restype, result, name)
            self.assertEqual(tuple(function.argtypes), arguments, name)
