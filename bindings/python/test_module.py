"""Tests of what ticklocust.py has beside its calls: bounds, lengths, version, types, example."""

from __future__ import annotations

import ast
import importlib.util
import os
import re
import subprocess
import sys
import unittest
from array import array
from pathlib import Path

import ticklocust as t
from ticklocust import Refused

HERE = Path(__file__).resolve().parent
ROOT = HERE.parent.parent
EXAMPLE = ROOT / "examples/python/chart.py"


class Bounds(unittest.TestCase):
    def test_lengths(self) -> None:
        self.assertEqual([t.mask_len(level) for level in (0, 5, 8)], [1, 1024, 65_536])
        self.assertEqual([t.chart_len(level) for level in (0, 5, 8)], [8, 8192, 524_288])
        for length in (t.mask_len, t.chart_len):
            self.assertRaises(Refused, length, t.MAX_MASK_LEVEL + 1)
            self.assertRaises(ValueError, length, -1)

    def test_bounds_are_those_of_the_calls(self) -> None:
        t.centre(t.MAX_CELL_LEVEL, 0)
        self.assertRaises(Refused, t.centre, t.MAX_CELL_LEVEL + 1, 0)
        t.grow(0, t.MAX_RINGS, b"\1")
        self.assertRaises(Refused, t.grow, 0, t.MAX_RINGS + 1, b"\1")
        chart = array("f", [21.0] * 8), b"\0", array("f", [21.0] * 8), bytearray(8)
        t.day(0, t.MAX_DAYS, *chart)
        self.assertRaises(Refused, t.day, 0, t.MAX_DAYS + 1, *chart)
        there_and_back = [0, 13] * (t.MAX_BORDER_CELLS // 2) + [0]
        stored = t.border_write(14, there_and_back)
        self.assertEqual(len(t.border_read(stored)[1]), t.MAX_CODES + 1)
        self.assertLessEqual(len(stored), t.MAX_BORDER_BYTES)

    def test_the_version_is_the_crate_s(self) -> None:
        crate = (ROOT / "bindings/rust/Cargo.toml").read_text(encoding="utf-8")
        self.assertIn(f'version = "{t.__version__}"', crate)

    def test_what_the_header_bounds(self) -> None:
        header = (ROOT / "include/ticklocust.h").read_text(encoding="utf-8")
        bounds = re.findall(r"TICKLOCUST_(MAX_\w+) = (\d+)", header)
        self.assertEqual(len(bounds), 5)
        for name, value in bounds:
            self.assertEqual(getattr(t, name), int(value))


class Types(unittest.TestCase):
    def test_everything_is_annotated(self) -> None:
        for file in (HERE / "ticklocust.py", EXAMPLE):
            for node in ast.walk(ast.parse(file.read_text(encoding="utf-8"))):
                if isinstance(node, ast.FunctionDef):
                    self.assertIsNotNone(node.returns, node.name)
                    given = [*node.args.args, *node.args.kwonlyargs, node.args.vararg]
                    bare = [a.arg for a in given if a and not a.annotation and a.arg != "self"]
                    self.assertEqual(bare, [], node.name)

    def test_no_field_hides_a_method_of_tuple(self) -> None:
        for kind in vars(t).values():
            if isinstance(kind, type) and issubclass(kind, tuple):
                self.assertEqual({"count", "index"} & set(kind._fields), set(), kind)

    @unittest.skipUnless(importlib.util.find_spec("mypy"), "mypy is not installed")
    def test_mypy(self) -> None:
        command = [sys.executable, "-m", "mypy", "--strict", "--cache-dir", os.devnull]
        paths = [str(HERE / "ticklocust.py"), str(EXAMPLE)]
        said = subprocess.run(command + paths, stdout=subprocess.PIPE, text=True)
        self.assertEqual(said.returncode, 0, said.stdout)

    def test_the_example(self) -> None:
        where = {**os.environ, "PYTHONPATH": str(HERE)}
        said = subprocess.check_output([sys.executable, str(EXAMPLE)], env=where, text=True)
        cloud, fresh, carried = said.splitlines()
        self.assertEqual(cloud, "11 of 32 cells are under cloud")
        self.assertEqual(fresh, "21 fresh, 16.0 to 16.0")
        self.assertEqual(carried, "cell 28: carried 21.0, 1 day")


if __name__ == "__main__":
    unittest.main()
