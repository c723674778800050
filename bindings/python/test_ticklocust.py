"""Tests of ticklocust.py: every call, every refusal with every buffer compared, and kinds."""

from __future__ import annotations

import doctest
import pickle
import threading
import unittest
from array import array
from itertools import repeat
from typing import Any, Callable

import ticklocust as t
from ticklocust import Kind, Latitude, Longitude, Reading, Refused, Summary

NAN = float("nan")


def load_tests(loader: Any, tests: unittest.TestSuite, ignore: Any) -> unittest.TestSuite:
    tests.addTests(doctest.DocTestSuite(t))
    return tests


class Calls(unittest.TestCase):
    def test_places(self) -> None:
        self.assertEqual(t.cell_at(1, Latitude(22_500_000), Longitude(29_999_999)), 2)
        self.assertEqual(t.cell_at(14, Latitude(-1), Longitude(0)), 1_252_698_794)
        self.assertEqual(t.centre(0, 7), (Latitude(-30_000_000), Longitude(-45_000_000)))
        self.assertEqual((t.step(4, 187, 5), t.step(4, 187, "T")), (1211, 1211))
        for number, letter in enumerate("tlrew"):
            self.assertEqual(t.step(4, 0, letter), t.step(4, 0, number))
        self.assertEqual(t.code(4, 187, 1211), 5)
        self.assertEqual(t.touching(0, 0), (1, 2, 3, 4, 5, 7))
        self.assertEqual(len(t.touching(4, 187)), 12)

    def test_borders(self) -> None:
        level, cells = t.border_read(b"\x04\x00\x02\x0b")
        self.assertEqual((level, list(cells)), (4, [0, 13, 3]))
        self.assertEqual(bytes(t.border_write(level, cells)), b"\x04\x00\x02\x0b")
        room = array("I", [7] * 5)
        t.border_read(b"\x04\x00\x02\x0b", room)
        self.assertEqual(list(room), [0, 13, 3, 7, 7])

    def test_border_of_any_cells(self) -> None:
        given: list[Any] = [[0, 13, 3], (0, 13, 3), iter([0, 13, 3]), array("I", [0, 13, 3])]
        given += [array("q", [0, 13, 3]), array("H", [0, 13, 3]), array("I", [0, 13, 3]).tobytes()]
        for cells in given:
            self.assertEqual(bytes(t.border_write(4, cells)), b"\x04\x00\x02\x0b")
        # Read no further than it takes to refuse.
        for number, cells in ((5, []), (9, repeat(0)), (4, [2**40]), (7, range(0, 400, 200))):
            with self.assertRaises(Refused) as caught:
                t.border_write(4, cells)
            self.assertEqual(caught.exception.number, number)
        self.assertRaises(ValueError, t.border_write, 4, [-1])
        for wrong in ("text", [0.0], [None], 5, array("f", [0.0])):
            self.assertRaises(TypeError, t.border_write, 4, wrong)

    def test_masks(self) -> None:
        self.assertEqual(t.grow(0, 1, b"\x01"), b"\xbf")
        self.assertEqual(t.shrink(0, 1, b"\xbf"), b"\x01")
        self.assertEqual(t.join(0, b"\x01", b"\x05"), b"\x05")
        self.assertEqual(t.count(1, b"\xff\0\0\x01"), 9)
        self.assertTrue(t.within(0, b"\x01", b"\x05"))
        self.assertFalse(t.within(0, b"\x01", b"\x04"))
        self.assertEqual(t.within(0, b"\x01", b"\x04").lacking, 0)
        self.assertEqual(t.fill(0, b"\x1a", 6), b"\x1b")

    def test_charts(self) -> None:
        temperatures, ages = array("f", [21.0] * 8), bytearray(8)
        news = array("f", [16.0, 16.5, 17.0, 17.5, 16.0, 16.0, NAN, 45.5])
        summary = t.day(0, 30, news, b"\x31", temperatures, ages)
        self.assertEqual(summary, Summary(count=3, coldest=16.5, warmest=17.5))
        self.assertEqual(ages, bytes([1, 0, 0, 0, 1, 1, 1, 1]))
        self.assertEqual(t.reading(0, 0, temperatures, ages), (Kind.CARRIED, 21.0, 1))
        self.assertEqual(t.reading(0, 1, temperatures, ages), (Kind.FRESH, 16.5, 0))
        ages[0] = 31
        self.assertEqual(t.reading(0, 0, temperatures, ages), (Kind.GAP, None, None))
        said = [str(t.reading(0, cell, temperatures, ages)) for cell in (0, 1, 4)]
        self.assertEqual(said, ["gap", "fresh 16.5", "carried 21.0, 1 day"])

    def test_threads(self) -> None:
        """Calls at once, each with buffers of its own."""
        wrong = []

        def run(cell: int) -> None:
            mask = bytearray(4096)
            mask[cell // 8] = 1 << cell % 8
            for rings in (1, 2, 1):
                grown = t.grow(6, rings, mask)
                back = t.shrink(6, rings, grown)
                if t.count(6, back) < 1 or not t.within(6, mask, back):
                    wrong.append(cell)

        threads = [threading.Thread(target=run, args=(cell,)) for cell in (0, 9_999, 30_000)]
        for thread in threads:
            thread.start()
        for thread in threads:
            thread.join()
        self.assertEqual(wrong, [])


class Refusals(unittest.TestCase):
    def refused(self, number: int, call: Callable[..., Any], *words: Any) -> None:
        """The call is refused by that number and every buffer stays as it was."""
        before = [bytes(word) if hasattr(word, "__len__") else word for word in words]
        with self.assertRaises(Refused) as caught:
            call(*words)
        self.assertEqual(caught.exception.number, number)
        self.assertTrue(str(caught.exception).startswith(f"refused {number}: "))
        after = [bytes(word) if hasattr(word, "__len__") else word for word in words]
        self.assertEqual(after, before)

    def test_each_kind(self) -> None:
        mask, out, work = bytearray(b"\x0f" * 4), bytearray(b"\xa5" * 4), bytearray(b"\x5a" * 4)
        cells, stored = array("I", [77] * 9), bytearray(b"\xa5" * 9)
        far = array("I", [0, 200])
        self.refused(1, t.grow, 9, 1, mask, out, work)
        self.refused(2, t.cell_at, 1, Latitude(90_000_001), Longitude(180_000_000))
        self.refused(3, t.cell_at, 1, Latitude(0), Longitude(180_000_000))
        self.refused(4, t.fill, 1, mask, 32, out)
        self.refused(5, t.join, 1, mask, mask[:3], out)
        self.refused(6, t.shrink, 1, 65, mask, out, work)
        self.refused(7, t.border_write, 4, far, stored)
        self.refused(8, t.fill, 1, mask, 0, out)
        self.refused(9, t.border_write, 4, array("I", [0] * 4098), stored)
        self.refused(9, t.border_read, b"\x04\x00\x81\x20", cells)
        self.refused(10, t.border_read, b"\x04\x00\x02", cells)
        self.refused(11, t.border_read, b"\x84\x00", cells)
        self.refused(12, t.border_read, b"\x04\x00\x02\x4b", cells)

    def test_each_buffer(self) -> None:
        mask, out, work = bytearray(4), bytearray(b"\xa5" * 4), bytearray(b"\x5a" * 4)
        news, cloud = array("f", [16.0] * 8), bytearray(1)
        temperatures, ages = array("f", [21.0] * 8), bytearray(range(8))
        self.refused(5, t.grow, 1, 1, mask[:3], out, work)
        self.refused(5, t.grow, 1, 1, mask, out[:3], work)
        self.refused(5, t.shrink, 1, 1, mask, out, work[:3])
        self.refused(5, t.fill, 1, mask, 0, out[:3])
        self.refused(5, t.count, 1, b"")
        self.refused(5, t.within, 1, mask, mask[:3])
        self.refused(5, t.border_write, 4, array("I"), out)
        self.refused(5, t.border_write, 4, array("I", [0, 13, 3]), out[:3])
        self.refused(5, t.border_read, b"\x04\x00\x02\x0b", array("I", [7, 7]))
        self.refused(5, t.day, 0, 30, news[:7], cloud, temperatures, ages)
        self.refused(5, t.day, 0, 30, news, mask, temperatures, ages)
        self.refused(5, t.day, 0, 30, news, cloud, temperatures[:7], ages)
        self.refused(5, t.day, 0, 30, news, cloud, temperatures, ages[:7])
        self.refused(6, t.day, 0, 31, news, cloud, temperatures, ages)
        self.refused(4, t.reading, 0, 8, temperatures, ages)
        self.refused(5, t.reading, 0, 0, temperatures.tobytes()[:31], ages)

    def test_numbers_past_32_bits(self) -> None:
        self.refused(1, t.centre, 2**32 + 1, 0)
        self.refused(2, t.cell_at, 1, Latitude(2**40), Longitude(0))
        self.refused(3, t.cell_at, 1, Latitude(0), Longitude(-(2**40)))
        self.refused(4, t.centre, 1, 2**32)
        self.refused(6, t.grow, 0, 2**32, b"\1")
        self.refused(7, t.step, 1, 0, 2**32)
        for call in (lambda: t.centre(-1, 0), lambda: t.step(1, 0, -1)):
            self.assertRaises(ValueError, call)
        self.assertRaises(TypeError, t.centre, 1.0, 0)

    def test_a_refusal_is_a_value_error(self) -> None:
        with self.assertRaises(ValueError) as caught:
            t.mask_len(9)
        self.assertTrue(str(caught.exception).startswith("refused 1: the level is above"))
        again = pickle.loads(pickle.dumps(caught.exception))
        self.assertEqual((type(again), again.number), (Refused, 1))

    def test_codes_that_are_none(self) -> None:
        for wrong in ("x", "", "tl", "5"):
            with self.assertRaisesRegex(ValueError, "t, l, r, e, w, T, E, W") as caught:
                t.step(1, 0, wrong)
            self.assertNotIsInstance(caught.exception, Refused)
        self.assertRaises(TypeError, t.step, 1, 0, b"t")


class Kinds(unittest.TestCase):
    def test_latitude_and_longitude_are_kept_apart(self) -> None:
        here = Latitude(22_500_000), Longitude(30_000_000)
        self.assertRaises(TypeError, t.cell_at, 1, *reversed(here))
        self.assertRaises(TypeError, t.cell_at, 1, 22_500_000, 30_000_000)
        self.assertRaises(TypeError, t.cell_at, 1, Latitude(22.5), Longitude(0))
        self.assertNotEqual(Latitude(1), Longitude(1))
        self.assertRaises(TypeError, lambda: here[0] < here[1])

    def test_a_reading_is_no_number(self) -> None:
        said = Reading(Kind.FRESH, 21.0, 0)
        for use in (float, int, round, abs, lambda r: r + 1, lambda r: r < 20, lambda r: -r):
            self.assertRaises(TypeError, use, said)
        self.assertRaises(TypeError, float, said.kind)
        self.assertNotEqual(Kind.FRESH, 0)


if __name__ == "__main__":
    unittest.main()
