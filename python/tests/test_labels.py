"""Labels inside a chunk: each voxel, the raw form, and numpy's array of it."""

import struct
import sys
import unittest
from unittest import mock

from coronagamba import Labels, Refused

from .labels import WIDTHS, encode, voxels

try:
    import numpy
except ImportError:
    numpy = None

WORKED = struct.pack("<6I", 1, 0x01000003, 2, 0xA5, 7, 9)
TWO = {"size": (2, 2, 2), "block": (2, 2, 2), "channels": 1, "bits": 32}
# Extents that no block divides.
SHAPE = {"size": (5, 4, 3), "block": (3, 2, 2), "channels": 2}


def label_at(bits, kinds):
    """Labels by voxel and channel, of so many kinds."""

    def label(voxel, channel):
        x, y, z = voxel
        kind = (x + 3 * y + 7 * z + 5 * channel) % kinds
        return 2**bits - 1 - kind * kind

    return label


def shaped(bits, width):
    """Labels in a chunk whose blocks have at least this width, and what they
    are, x fastest, then y, z and channel."""
    label = label_at(bits, 1 if width == 0 else 9)
    chunk = encode(label, **SHAPE, bits=bits, least=width)
    expected = [
        label(voxel, channel)
        for channel in range(SHAPE["channels"])
        for voxel in voxels(SHAPE["size"])
    ]
    return Labels(chunk, **SHAPE, bits=bits), expected


def raw(labels, bits):
    code = "I" if bits == 32 else "Q"
    return struct.pack(f"<{len(labels)}{code}", *labels)


class Voxels(unittest.TestCase):
    def test_the_worked_chunk(self):
        labels = Labels(WORKED, **TWO)
        expected = [9, 7, 9, 7, 7, 9, 7, 9]
        told = [labels.label(voxel) for voxel in voxels((2, 2, 2))]
        self.assertEqual(told, expected)
        self.assertEqual(labels.unpacked_length(), 32)
        self.assertEqual(labels.unpacked(), raw(expected, 32))

    def test_all_widths(self):
        for bits in (32, 64):
            for width in WIDTHS:
                with self.subTest(bits=bits, width=width):
                    labels, expected = shaped(bits, width)
                    told = [
                        labels.label(voxel, channel)
                        for channel in range(2)
                        for voxel in voxels(labels.size)
                    ]
                    self.assertEqual(told, expected)
                    self.assertEqual(labels.unpacked(), raw(expected, bits))

    def test_the_shape_is_told(self):
        labels = Labels(WORKED, **TWO)
        self.assertEqual((labels.size, labels.block), ((2, 2, 2), (2, 2, 2)))
        self.assertEqual((labels.channels, labels.bits), (1, 32))


class Refusals(unittest.TestCase):
    def assert_refused(self, number, call):
        with self.assertRaises(Refused) as caught:
            call()
        self.assertEqual(caught.exception.args, (number, None, None))

    def test_every_cut(self):
        label = label_at(64, 9)
        chunk = encode(label, **SHAPE, bits=64)
        kept = bytes([7]) * (2 * 60 * 8)
        for end in range(len(chunk)):
            labels = Labels(chunk[:end], **SHAPE, bits=64)
            out = bytearray(kept)
            self.assert_refused(28, lambda: labels.unpack(out))
            self.assert_refused(28, labels.view)
            self.assertEqual(out, kept)

    def test_29_goes_before_28_and_both_before_13(self):
        chunk = bytearray(encode(label_at(32, 9), **SHAPE, bits=32))
        labels = Labels(bytes(chunk), **SHAPE, bits=32)
        self.assert_refused(13, lambda: labels.unpack(bytearray(479)))
        # The width of the first channel's last block.
        chunk[4 * (2 + 2 * 7) + 3] = 3
        for end in (len(chunk), len(chunk) - 1):
            labels = Labels(chunk[:end], **SHAPE, bits=32)
            self.assert_refused(29, lambda: labels.unpack(bytearray()))
            self.assert_refused(29, labels.unpacked)
        self.assert_refused(29, lambda: labels.label((4, 3, 2)))
        self.assertEqual(labels.label((0, 0, 0)), 2**32 - 1)

    def test_voxels_and_channels_outside(self):
        labels = Labels(WORKED, **TWO)
        for voxel in ((2, 0, 0), (0, 2, 0), (0, 0, 2), (2**32 - 1, 0, 0)):
            self.assert_refused(2, lambda: labels.label(voxel))
        self.assert_refused(2, lambda: labels.label((0, 0, 0), 1))

    def test_shapes_without_voxels(self):
        for name, value in (
            ("size", (2, 0, 2)),
            ("block", (2, 2, 0)),
            ("channels", 0),
        ):
            labels = Labels(WORKED, **{**TWO, name: value})
            for call in (
                lambda: labels.label((0, 0, 0)),
                labels.unpacked_length,
                lambda: labels.unpack(bytearray(99)),
                labels.unpacked,
                labels.view,
            ):
                with self.subTest(name=name):
                    self.assert_refused(2, call)

    def test_extents_beyond_all_memory(self):
        most = (2**32 - 1,) * 3
        labels = Labels(
            bytes(10), size=most, block=(1, 1, 1), channels=2**32 - 1, bits=64
        )
        self.assert_refused(13, labels.unpacked_length)
        self.assert_refused(28, labels.unpacked)
        # One block of width 0 has them all.
        chunk = struct.pack("<4I", 1, 2, 0, 5)
        for size in (most, most[:2] + (1,)):
            labels = Labels(chunk, size=size, block=size, channels=1, bits=32)
            self.assertEqual(labels.label((2**32 - 2, 7, 0)), 5)
            self.assert_refused(13, labels.unpacked)


class Outputs(unittest.TestCase):
    def test_nothing_past_the_raw_form_is_touched(self):
        labels, expected = shaped(64, 4)
        form = raw(expected, 64)
        out = bytearray(b"\xee" * (len(form) + 9))
        self.assertEqual(labels.unpack(out), len(form))
        self.assertEqual(out, form + b"\xee" * 9)

    def test_an_output_that_is_the_chunk(self):
        data = bytearray(WORKED + bytes(32))
        labels = Labels(memoryview(data)[: len(WORKED)], **TWO)
        with self.assertRaisesRegex(ValueError, "overlaps"):
            labels.unpack(memoryview(data)[8:])
        self.assertEqual(labels.unpack(memoryview(data)[len(WORKED) :]), 32)

    def test_what_is_no_output(self):
        labels = Labels(WORKED, **TWO)
        for out in (bytes(32), "text", None):
            with self.assertRaisesRegex(TypeError, "^out must be"):
                labels.unpack(out)

    def test_a_view_of_four_axes(self):
        for bits in (32, 64):
            labels, expected = shaped(bits, 1)
            view = labels.view()
            self.assertEqual(view.shape, (2, 3, 4, 5))
            self.assertEqual(view.itemsize, bits // 8)
            told = [
                view[channel, z, y, x]
                for channel in range(2)
                for x, y, z in voxels(labels.size)
            ]
            self.assertEqual(told, expected)
            self.assertEqual(view[1, 2, 0, 4], labels.label((4, 0, 2), 1))

    def test_the_buffer_is_let_go(self):
        data = bytearray(WORKED)
        with Labels(data, **TWO) as labels:
            with self.assertRaises(BufferError):
                data.append(0)
        data.append(0)
        with self.assertRaises(ValueError):
            labels.label((0, 0, 0))


class Arguments(unittest.TestCase):
    def test_nothing_has_a_default(self):
        for name in TWO:
            rest = {key: TWO[key] for key in TWO if key != name}
            with self.assertRaisesRegex(TypeError, name):
                Labels(WORKED, **rest)

    def test_what_does_not_fit(self):
        for error, name, value in (
            (OverflowError, "size", (2**32, 1, 1)),
            (OverflowError, "block", (1, -1, 1)),
            (OverflowError, "channels", 2**32),
            (ValueError, "size", (1, 1)),
            (ValueError, "bits", 16),
            (ValueError, "bits", 1),
            (TypeError, "bits", 32.0),
            (TypeError, "channels", "1"),
        ):
            with self.subTest(name=name, value=value):
                with self.assertRaisesRegex(error, f"^{name}"):
                    Labels(WORKED, **{**TWO, name: value})
        labels = Labels(WORKED, **TWO)
        for error, arguments in (
            (OverflowError, ((0, 0, 2**32),)),
            (OverflowError, ((0, 0, 0), -1)),
            (ValueError, ((0, 0),)),
            (TypeError, (0,)),
        ):
            with self.assertRaises(error):
                labels.label(*arguments)
        with self.assertRaisesRegex(TypeError, "^chunk must be"):
            Labels("text", **TWO)


class StandIn:
    """The two calls of numpy that an array takes, over a memoryview."""

    def __init__(self, raw, dtype):
        self.view = memoryview(raw).cast({"<u4": "I", "<u8": "Q"}[dtype])

    def reshape(self, axes):
        return self.view.cast("B").cast(self.view.format, axes)


class Array(unittest.TestCase):
    def test_numpy_is_asked_for_the_right_array(self):
        module = mock.Mock(spec=["frombuffer"], frombuffer=StandIn)
        for bits in (32, 64):
            labels, _ = shaped(bits, 2)
            with mock.patch.dict(sys.modules, numpy=module):
                self.assertEqual(labels.array(), labels.view())

    def test_without_numpy_it_says_so(self):
        labels = Labels(WORKED, **TWO)
        with mock.patch.dict(sys.modules, numpy=None):
            with self.assertRaisesRegex(ImportError, "array needs numpy"):
                labels.array()
            self.assertEqual(labels.view()[0, 0, 0, 0], 9)


if numpy is not None:

    class Numpy(unittest.TestCase):
        def test_an_array(self):
            for bits, kind in ((32, numpy.uint32), (64, numpy.uint64)):
                labels, expected = shaped(bits, 4)
                found = labels.array()
                self.assertEqual(found.dtype, kind)
                self.assertEqual(found.shape, (2, 3, 4, 5))
                self.assertTrue(found.flags.c_contiguous)
                self.assertEqual(found.ravel().tolist(), expected)
                self.assertEqual(found.T[4, 0, 2, 1], labels.label((4, 0, 2), 1))
                self.assertEqual(found.tolist(), labels.view().tolist())

        def test_an_output(self):
            labels, expected = shaped(32, 4)
            out = numpy.zeros(len(expected), numpy.uint32)
            self.assertEqual(labels.unpack(out), out.nbytes)
            self.assertEqual(out.tolist(), expected)
