"""Checks docs/RULES.md.

- Each definition that it names is a public one of the file that it names.
- Its table of levels is what demo/levels.py prints. That the areas add up to the sphere, and that
  those of the table are the smallest and the largest, is checked to level 6.
- Each section of it that a file of the repository cites is there."""

from __future__ import annotations

import re
import subprocess
import sys
from math import isclose, pi
from pathlib import Path

root = Path(__file__).resolve().parent.parent
sys.path.insert(0, str(root / "demo"))

import levels  # noqa: E402

RULES = (root / "docs/RULES.md").read_text(encoding="utf-8")
CITED = re.compile(r"RULES\.md(?:`|\))?,(?:\s|[*/#!-])+((?:\d+(?:\.\d+)?(?:, | and )?)+)")


def check(holds: bool, words: str) -> None:
    if not holds:
        sys.exit(f"docs/RULES.md: {words}")


def definitions() -> int:
    """The names after each file, in the paragraphs that begin with Definitions."""
    named, file, text = 0, "", ""
    for paragraph in re.findall(r"^\*\*Definitions\.\*\*(.*?)(?:\n\n|\Z)", RULES, re.M | re.S):
        for name in re.findall(r"`([^`]+)`", paragraph):
            if name.startswith("crates/"):
                file, text = name, (root / name).read_text(encoding="utf-8")
                continue
            public = rf"^(?:\w+ )?pub (?:data |record )?{re.escape(name)}\s"
            check(bool(re.search(public, text, re.M)), f"{file} has no public {name}")
            named += 1
    sections = len(re.findall(r"^## \d+\. ", RULES, re.M))
    paragraphs = RULES.count("\n**Definitions.**")
    check(paragraphs == sections, f"{paragraphs} of {sections} sections name definitions")
    return named


def level_table() -> None:
    table = "\n".join(levels.table())
    check(table in RULES, "the table of levels is not what demo/levels.py prints")
    for level in range(7):
        n = 2**level
        rows = [(levels.area(n, a, True), levels.area(n, a, False)) for a in range(n)]
        octant = sum((n - a) * up + (n - 1 - a) * down for a, (up, down) in enumerate(rows))
        whole = 4 * pi * levels.RADIUS**2
        check(isclose(8 * octant, whole, rel_tol=1e-8), f"the areas of level {level} don't add up")
        areas = [up for up, _ in rows] + [down for _, down in rows[:-1]]
        check(min(areas) == rows[0][0], f"level {level}: up cells of row 0 are not the smallest")
        check(max(areas) == rows[-1][0], f"level {level}: the cell at the pole is not the largest")


def citations() -> int:
    """Sections are cited as docs/RULES.md, 7 or docs/RULES.md, 1.5."""
    headings = set(re.findall(r"^##+ (\d+(?:\.\d+)?)\.? ", RULES, re.M))
    files = subprocess.check_output(["git", "ls-files"], cwd=root, text=True).split()
    cited = 0
    for name in files:
        if name.endswith(".svg") or not (root / name).is_file():
            continue
        for found in CITED.findall((root / name).read_text(encoding="utf-8", errors="replace")):
            for section in re.findall(r"\d+(?:\.\d+)?", found):
                check(section in headings, f"{name} cites section {section}, which isn't there")
                cited += 1
    return cited


named = definitions()
level_table()
print(f"{named} definitions, {citations()} citations")
print("3 passed")
