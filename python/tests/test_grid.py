"""Grids, keys, bounds and chunk names."""

import ctypes
import dataclasses
import itertools
import random
import struct
import unittest
from array import array

from coronagamba import Bounds, Cell, Extents, Offset, Point, Refused, Volume

UNIT = (1, 1, 1)
CASE = Volume((5, 3, 1), UNIT)
SHIFTED = Volume(size=(100, 1, 1), chunk=(64, 1, 1), offset=(-64, 0, 0))
CELLS = [(4, 2, 0), (3, 1, 0), (0, 0, 0)]
KEYS = [24, 7, 0]


def key(grid, cell):
    """The key by the scope's rule: for each rising bit, and x, y, z in turn,
    an axis whose grid size is above 2^i gives its bit i."""
    bits = (
        cell[axis] >> i & 1
        for i in range(32)
        for axis in range(3)
        if 2**i < grid[axis]
    )
    return sum(bit << place for place, bit in enumerate(bits))


class Grids(unittest.TestCase):
    def test_sizes(self):
        volume = Volume((6446, 6643, 8090), (64, 64, 64))
        self.assertEqual(volume.grid(), Extents(101, 104, 127))
        self.assertEqual(volume.key((100, 103, 126)).bit_length(), 21)
        self.assertEqual(SHIFTED.grid(), (2, 1, 1))

    def test_a_volume_is_a_value(self):
        same = Volume([5, 3, 1], Extents(1, 1, 1), Offset(0, 0, 0))
        self.assertEqual(CASE, same)
        self.assertEqual(hash(CASE), hash(same))
        self.assertNotEqual(CASE, SHIFTED)
        self.assertEqual(CASE.size.x, 5)
        self.assertEqual(
            dataclasses.replace(CASE, offset=(1, 2, 3)).offset, Offset(1, 2, 3)
        )
        with self.assertRaises(dataclasses.FrozenInstanceError):
            CASE.size = (1, 1, 1)


class Keys(unittest.TestCase):
    def test_the_scopes_case(self):
        self.assertEqual(CASE.key((4, 2, 0)), 24)
        self.assertEqual(CASE.key(Cell(3, 1, 0)), 7)
        self.assertEqual(CASE.cell(24), Cell(4, 2, 0))
        for refused in (20, 32):
            with self.assertRaises(Refused) as caught:
                CASE.cell(refused)
            self.assertEqual(caught.exception.number, 4)

    def test_one_cell(self):
        single = Volume(UNIT, UNIT)
        self.assertEqual(single.key((0, 0, 0)), 0)
        self.assertEqual(single.cell(0), (0, 0, 0))
        with self.assertRaises(Refused):
            single.cell(1)

    def test_64_bits(self):
        widest = Volume((2**22, 2**21, 2**21), UNIT)
        last = Cell(2**22 - 1, 2**21 - 1, 2**21 - 1)
        self.assertEqual(widest.key(last), 2**64 - 1)
        self.assertEqual(widest.cell(2**64 - 1), last)

    def test_there_and_back(self):
        cells = itertools.product(range(5), range(3), range(1))
        keys = {CASE.key(cell): cell for cell in cells}
        self.assertEqual(len(keys), 15)
        for number, cell in keys.items():
            self.assertEqual(CASE.cell(number), cell)

    def test_by_the_rule(self):
        rng = random.Random(3)
        for _ in range(300):
            grid = [rng.randrange(1, 2 ** rng.randrange(1, 22)) for _ in "xyz"]
            volume = Volume(grid, UNIT)
            cells = [[rng.randrange(n) for n in grid] for _ in range(5)]
            expected = [key(grid, cell) for cell in cells]
            self.assertEqual([volume.key(cell) for cell in cells], expected)
            self.assertEqual(volume.keys(cells).tolist(), expected)
            self.assertEqual(
                [list(volume.cell(number)) for number in expected], cells
            )


class ManyKeys(unittest.TestCase):
    def test_cells_of_every_kind(self):
        flat = list(itertools.chain.from_iterable(CELLS))
        packed = struct.pack("<9I", *flat)
        for given in (
            CELLS,
            iter(CELLS),
            [Cell(*cell) for cell in CELLS],
            array("I", flat),
            memoryview(packed).cast("I"),
            memoryview(packed).cast("I", [3, 3]),
            (ctypes.c_uint32 * 9)(*flat),
        ):
            with self.subTest(kind=type(given)):
                found = CASE.keys(given)
                self.assertEqual(found, array("Q", KEYS))
                self.assertEqual(found.typecode, "Q")

    def test_cells_that_are_not_aligned(self):
        packed = struct.pack("<3I", 4, 2, 0)
        for start in range(4):
            cells = memoryview(bytes(start) + packed)[start:].cast("I")
            self.assertEqual(CASE.keys(cells).tolist(), [24])

    def test_no_cells(self):
        for given in ([], array("I")):
            self.assertEqual(CASE.keys(given), array("Q"))

    def test_no_whole_cells(self):
        twelve = memoryview(array("I", range(12))).cast("B")
        for given in (
            array("I", [1]),
            array("I", [1, 2, 3, 4]),
            twelve.cast("I", [3, 4]),
            twelve.cast("I", [6, 2]),
        ):
            with self.assertRaisesRegex(ValueError, "^cells must hold"):
                CASE.keys(given)
        # One triple too short beside one too long.
        with self.assertRaisesRegex(ValueError, r"^cells\[0\] must be three"):
            CASE.keys([(0, 0), (0, 0, 0, 0)])

    def test_integers_of_every_width(self):
        flat = list(itertools.chain.from_iterable(CELLS))
        doubled = [number for number in flat for _ in range(2)]
        for given in (
            *(array(code, flat) for code in "bBhHilLqQ"),
            (ctypes.c_int64 * 9)(*flat),
            (ctypes.c_uint16.__ctype_be__ * 9)(*flat),
            memoryview(array("I", doubled))[::2],
            memoryview(array("q", flat)).cast("B").cast("q", [3, 3]),
        ):
            with self.subTest(kind=type(given)):
                self.assertEqual(CASE.keys(given), array("Q", KEYS))

    def test_a_number_of_a_buffer_that_is_out_of_range(self):
        for given, name in (
            (array("b", [0, 0, -1]), "cells[0] z"),
            (array("q", [0, 0, 0, 0, 2**32, 0]), "cells[1] y"),
            (array("Q", [2**64 - 1, 0, 0]), "cells[0] x"),
        ):
            with self.assertRaises(OverflowError) as caught:
                CASE.keys(given)
            told = str(caught.exception)
            self.assertTrue(told.startswith(f"{name} must be from 0 "), told)

    def test_buffers_of_no_numbers(self):
        for given in (bytes(12), bytearray(12), array("d", [0, 0, 0])):
            with self.assertRaisesRegex(TypeError, "^cells must be integers"):
                CASE.keys(given)
        with self.assertRaisesRegex(TypeError, "^cells must be a buffer or"):
            CASE.keys(7)
        with self.assertRaisesRegex(ValueError, "^cells must hold"):
            CASE.keys(array("q", [1, 2]))


class Rows(unittest.TestCase):
    def test_the_scopes_case(self):
        found = CASE.row_keys(3, 5, 2, 0)
        self.assertEqual(found, array("Q", [13, 24]))
        self.assertEqual(found.typecode, "Q")

    def test_rows_without_cells(self):
        for start, stop in ((0, 0), (5, 5), (4, 1), (2**32 - 1, 0)):
            self.assertEqual(CASE.row_keys(start, stop, 9, 9), array("Q"))

    def test_as_the_cells_of_the_row(self):
        rng = random.Random(9)
        for _ in range(300):
            grid = [rng.randrange(1, 2 ** rng.randrange(1, 22)) for _ in "xyz"]
            volume = Volume(grid, UNIT)
            start, y, z = (rng.randrange(n) for n in grid)
            stop = min(start + rng.randrange(40), grid[0])
            cells = [(x, y, z) for x in range(start, stop)]
            found = volume.row_keys(start, stop, y, z)
            self.assertEqual(found, volume.keys(cells))
            self.assertEqual(found.tolist(), [key(grid, at) for at in cells])

    def test_refusals_and_numbers(self):
        wide = Volume((2**22, 2**22, 2**21), UNIT)
        for volume, row, number in (
            (Volume((0, 1, 1), UNIT), (0, 0, 0, 0), 2),
            (CASE, (0, 6, 0, 0), 2),
            (CASE, (0, 2**32 - 1, 0, 0), 2),
            (CASE, (0, 5, 3, 0), 2),
            (CASE, (0, 5, 0, 1), 2),
            (wide, (0, 0, 0, 0), 3),
        ):
            with self.assertRaises(Refused) as caught:
                volume.row_keys(*row)
            self.assertEqual(caught.exception.number, number)
        with self.assertRaisesRegex(OverflowError, "^stop must be from"):
            CASE.row_keys(0, 2**32, 0, 0)
        with self.assertRaisesRegex(OverflowError, "^start must be from"):
            CASE.row_keys(-1, 2, 0, 0)
        with self.assertRaisesRegex(TypeError, "^y must be an integer"):
            CASE.row_keys(0, 1, 0.5, 0)


class Covers(unittest.TestCase):
    def test_cells_of_a_box(self):
        # By hand: cells 1,0 and 1,1 and 2,0 and 2,1 of grid 5,3,1.
        found = CASE.cover((1, 0, 0), (3, 2, 1))
        self.assertEqual(found, array("Q", [1, 3, 4, 6]))
        self.assertEqual(found.typecode, "Q")
        self.assertEqual(SHIFTED.cover((-1, 0, 0), (1, 1, 1)).tolist(), [0, 1])
        self.assertEqual(SHIFTED.cover((35, 0, 0), (99, 9, 9)).tolist(), [1])

    def test_boxes_without_cells(self):
        for lower, upper in (
            ((5, 0, 0), (5, 1, 1)),
            ((5, 0, 0), (-5, 1, 1)),
            ((36, 0, 0), (99, 1, 1)),
            ((-99, 0, 0), (-64, 1, 1)),
            ((2**63 - 1,) * 3, (-(2**63),) * 3),
        ):
            self.assertEqual(SHIFTED.cover(lower, upper).tolist(), [])

    def test_by_each_cell(self):
        volume = Volume((7, 5, 3), (2, 3, 1), (-3, 0, 4))
        cells = list(itertools.product(range(4), range(2), range(3)))
        rng = random.Random(4)
        for _ in range(300):
            lower = [rng.randrange(-5, 9) for _ in "xyz"]
            upper = [rng.randrange(-5, 9) for _ in "xyz"]
            expected = sorted(
                key((4, 2, 3), cell)
                for cell in cells
                if all(
                    max(b, l) < min(e, u)
                    for b, e, l, u in zip(*volume.bounds(cell), lower, upper)
                )
            )
            found = volume.cover(iter(lower), upper, len(expected))
            self.assertEqual(found.tolist(), expected)
            if expected:
                with self.assertRaises(Refused) as caught:
                    volume.cover(lower, upper, len(expected) - 1)
                self.assertEqual(caught.exception.number, 13)

    def test_more_keys_than_the_first_room(self):
        volume = Volume((20, 20, 20), UNIT)
        found = volume.cover((1, 1, 1), (20, 20, 20))
        expected = itertools.product(range(1, 20), repeat=3)
        self.assertEqual(
            found.tolist(), sorted(key((20, 20, 20), at) for at in expected)
        )

    def test_a_large_grid_is_refused_at_once(self):
        volume = Volume((2**21,) * 3, UNIT)
        with self.assertRaises(Refused) as caught:
            volume.cover((-(2**63),) * 3, (2**63 - 1,) * 3, 10)
        self.assertEqual(caught.exception.number, 13)

    def test_refusals_and_numbers(self):
        for volume, number in (
            (Volume((0, 1, 1), UNIT), 2),
            (Volume((2**22, 2**22, 2**21), UNIT), 3),
        ):
            with self.assertRaises(Refused) as caught:
                volume.cover((0, 0, 0), (0, 0, 0))
            self.assertEqual(caught.exception.number, number)
        with self.assertRaisesRegex(OverflowError, "^lower x must be from"):
            CASE.cover((2**63, 0, 0), (0, 0, 0))
        with self.assertRaisesRegex(ValueError, "^upper must be three"):
            CASE.cover((0, 0, 0), (0, 0))
        with self.assertRaisesRegex(OverflowError, "^most must be from"):
            CASE.cover((0, 0, 0), (0, 0, 0), -1)


class CellBounds(unittest.TestCase):
    def test_the_scopes_case(self):
        self.assertEqual(
            SHIFTED.bounds((0, 0, 0)), Bounds(Point(-64, 0, 0), Point(0, 1, 1))
        )
        self.assertEqual(
            SHIFTED.bounds((1, 0, 0)), ((0, 0, 0), (36, 1, 1))
        )

    def test_sums_beyond_32_bits(self):
        most = Volume([2**32 - 1] * 3, [2**32 - 2] * 3, [2**31 - 1] * 3)
        begin, end = most.bounds((1, 1, 1))
        self.assertEqual(begin.x, 2**31 - 1 + 2**32 - 2)
        self.assertEqual(end.z, 2**31 - 1 + 2**32 - 1)

    def test_names(self):
        self.assertEqual(SHIFTED.chunk_name((0, 0, 0)), "-64-0_0-1_0-1")
        self.assertEqual(SHIFTED.chunk_name((1, 0, 0)), "0-36_0-1_0-1")

    def test_the_longest_names(self):
        low = Volume([2**32 - 1] * 3, [1] * 3, [-(2**31)] * 3)
        self.assertEqual(
            low.chunk_name((0, 0, 0)),
            "_".join(["-2147483648--2147483647"] * 3),
        )
        high = Volume([2**32 - 1] * 3, [1] * 3, [2**31 - 1] * 3)
        self.assertEqual(
            high.chunk_name([2**32 - 2] * 3),
            "_".join(["6442450941-6442450942"] * 3),
        )
