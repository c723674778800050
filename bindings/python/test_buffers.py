"""Tests of the buffers that ticklocust.py takes and refuses, with numpy where it is installed."""

from __future__ import annotations

import re
import unittest
from array import array
from typing import Any, Callable

import ticklocust as t
from ticklocust import Kind, Refused

try:
    import numpy
except ImportError:
    numpy = None


class MaskedArray(bytearray):
    """Stands for numpy's, which is found by its name: a buffer that has a mask beside it."""

    mask = False


class Buffers(unittest.TestCase):
    def test_any_buffer_to_read(self) -> None:
        kinds = [bytes, bytearray, memoryview, lambda b: array("B", b), lambda b: memoryview(b)[:]]
        for kind in kinds:
            self.assertEqual(t.count(1, kind(b"\xff\0\0\x01")), 9)
        data = array("f", [21.0] * 8)
        for temperatures in (data, memoryview(data), data.tobytes(), bytearray(data.tobytes())):
            self.assertEqual(t.reading(0, 3, temperatures, bytes(8)), (Kind.FRESH, 21.0, 0))

    def test_nothing_is_copied(self) -> None:
        data = array("f", [0.0] * 9)
        part = memoryview(data)[1:]
        with t._lend(t._read("part", part, t._FLOATS)) as ((pointer, length),):
            self.assertEqual((pointer, length), (data.buffer_info()[0] + 4, 8))
        t.day(0, 0, array("f", [16.0] * 8), b"\0", part, bytearray(8))
        self.assertEqual(list(data), [0.0] + [16.0] * 8)
        frame = bytearray(3)
        t.grow(0, 1, b"\x01", memoryview(frame)[1:2])
        self.assertEqual(frame, b"\0\xbf\0")

    def test_what_is_lent_is_held_and_given_back(self) -> None:
        mask = bytearray(1)
        with t._lend(t._written("mask", mask)):
            self.assertRaises(BufferError, mask.append, 1)
        mask.append(1)
        self.assertRaises(Refused, t.count, 0, mask)
        mask.append(1)

    def test_wrong_buffers(self) -> None:
        same, other = bytearray(4), bytearray(4)
        for words in ((same, same, other), (same, other, other), (other, same, same)):
            self.assertRaises(ValueError, t.grow, 1, 1, *words)
        self.assertRaises(ValueError, t.join, 1, same, other, memoryview(other))
        self.assertEqual(t.join(1, same, same, other), bytes(4))
        self.assertRaises(BufferError, t.grow, 1, 1, same, bytes(4))
        self.assertRaises(BufferError, t.count, 1, memoryview(bytes(8))[::2])
        self.assertRaises(TypeError, t.count, 1, "text")
        self.assertRaises(TypeError, t.count, 1, array("I", [1]))
        ages = bytearray(8)
        self.assertRaises(TypeError, t.reading, 0, 0, array("d", [21.0] * 8), ages)
        self.assertRaises(TypeError, t.reading, 0, 0, array("i", [21] * 8), ages)
        odd = memoryview(bytearray(33))[1:].cast("f")
        self.assertRaises(ValueError, t.reading, 0, 0, odd, ages)

    def masked(self, name: str, fill: str, call: Callable[..., Any], *words: Any) -> None:
        """The call is a TypeError that names the buffer and how to fill it; nothing is written."""
        before = [bytes(word) if hasattr(word, "__len__") else word for word in words]
        wanted = rf"^{name} is a masked array.*: {name} = {name}\.filled\({re.escape(fill)}\)$"
        with self.assertRaisesRegex(TypeError, wanted):
            call(*words)
        after = [bytes(word) if hasattr(word, "__len__") else word for word in words]
        self.assertEqual(after, before)

    def test_masked_arrays(self) -> None:
        plain, ages = array("f", [21.0] * 8), bytearray(8)
        temperatures, byte = MaskedArray(plain.tobytes()), MaskedArray(b"\1")
        nan = 'float("nan")'
        self.masked("news", nan, t.day, 0, 30, temperatures, b"\0", plain, ages)
        self.masked("news", nan, t.day, 0, 30, memoryview(temperatures), b"\0", plain, ages)
        self.masked("cloud", "VALUE", t.day, 0, 30, plain.tobytes(), byte, plain, ages)
        self.masked("temperatures", nan, t.day, 0, 30, plain.tobytes(), b"\0", temperatures, ages)
        self.masked("ages", "VALUE", t.reading, 0, 0, plain, MaskedArray(8))
        self.masked("temperatures", nan, t.reading, 0, 0, temperatures, ages)
        self.masked("mask", "VALUE", t.grow, 0, 1, byte)
        self.masked("out", "VALUE", t.grow, 0, 1, b"\1", byte)
        self.masked("b", "VALUE", t.join, 0, b"\1", byte)
        self.masked("border", "VALUE", t.fill, 0, byte, 1)
        self.masked("cells", "VALUE", t.border_write, 4, MaskedArray(4))
        self.masked("stored", "VALUE", t.border_read, MaskedArray(b"\x04\0\0"))

        class Derived(MaskedArray):
            pass

        self.masked("mask", "VALUE", t.count, 0, Derived(b"\1"))

    @unittest.skipUnless(numpy, "numpy is not installed")
    def test_numpy_masked(self) -> None:
        ma = numpy.ma
        plain = numpy.full(8, 16.0, dtype=numpy.float32)
        temperatures, ages = plain.copy(), numpy.full(8, 255, dtype=numpy.uint8)
        for mask in (ma.nomask, [False] * 8, [True] + [False] * 7):
            news = ma.array(plain, mask=mask)
            self.masked("news", 'float("nan")', t.day, 0, 30, news, b"\0", temperatures, ages)
        filled = news.filled(float("nan"))
        self.assertEqual(t.day(0, 30, filled, b"\0", temperatures, ages).count, 7)
        self.assertEqual(t.reading(0, 0, temperatures, ages).kind, Kind.GAP)
        self.assertEqual(bytes(t.border_write(4, numpy.array([0, 13, 3]))), b"\x04\x00\x02\x0b")

    @unittest.skipUnless(numpy, "numpy is not installed")
    def test_numpy(self) -> None:
        temperatures = numpy.full(9, 21.0, dtype=numpy.float32)
        ages = numpy.zeros(8, dtype=numpy.uint8)
        news = numpy.full((2, 4), 16.0, dtype=numpy.float32)
        cloud = numpy.array([1], dtype=numpy.uint8)
        self.assertEqual(t.day(0, 30, news, cloud, temperatures[1:], ages).count, 7)
        self.assertEqual(temperatures.tolist(), [21.0, 21.0] + [16.0] * 7)
        self.assertEqual(t.reading(0, 0, temperatures[1:], ages), (Kind.CARRIED, 21.0, 1))
        self.assertRaises(TypeError, t.reading, 0, 0, temperatures[1:].astype("f8"), ages)
        self.assertRaises(TypeError, t.reading, 0, 0, temperatures[1:].astype(">f4"), ages)
        wide = numpy.zeros(8, dtype=numpy.uint8)
        self.assertRaises((BufferError, ValueError), t.count, 1, wide[::2])
        cells = numpy.zeros(4097, dtype=numpy.uint32)
        level, front = t.border_read(b"\x04\x00\x02\x0b", cells)
        self.assertEqual((level, list(front), list(cells[:3])), (4, [0, 13, 3], [0, 13, 3]))
        self.assertEqual(bytes(t.border_write(4, cells[:3])), b"\x04\x00\x02\x0b")


if __name__ == "__main__":
    unittest.main()
