"""Prints the table of levels in docs/RULES.md, 1.5: how many cells a level has, how large they are
on a sphere of 6,371 km, and how many bytes a mask and a chart take.

At the share u of the way from the equator to the pole, an octant spans N (1 - u) columns (R in
docs/RULES.md, 2). So the length of a column there is `column(u)` times that at the equator, and the
area of a cell is the integral of its width over its row. It depends on the row and on up or down,
and not on the column of the cell."""

from __future__ import annotations

from math import cos, pi
from typing import Callable, List

RADIUS = 6371.0  # of the sphere, in km
QUARTER = RADIUS * pi / 2  # from the equator to the pole, in km
LEVELS, MASK_LEVELS = range(15), range(9)
PARTS = 64  # of a row in Simpson's rule: all printed digits are right, also at level 0

HEAD = [
    "| level | cells | height, km | width, km | area, km² | mask, bytes | chart, bytes |",
    "|---:|---:|---:|---:|---:|---:|---:|",
]


def column(u: float) -> float:
    return pi / 2 if u == 1 else cos(u * pi / 2) / (1 - u)


def integral(f: Callable[[float], float]) -> float:
    """Simpson's rule from 0 to 1."""
    weights = [1 if i in (0, PARTS) else 4 if i % 2 else 2 for i in range(PARTS + 1)]
    return sum(weight * f(i / PARTS) for i, weight in enumerate(weights)) / (3 * PARTS)


def width(n: int, t: int) -> float:
    """The length of a cell's side on the parallel T = t, in km."""
    return QUARTER / n * column(t / n)


def area(n: int, a: int, up: bool) -> float:
    """The area of a cell of row a, in square km."""
    row = integral(lambda x: (1 - x if up else x) * column((a + x) / n))
    return (QUARTER / n) ** 2 * row


def figure(value: float) -> str:
    """Four digits, or all those before the point."""
    return f"{value:,.0f}" if value >= 1000 else f"{value:#.4g}"


def row(level: int) -> str:
    n = 2**level
    size = f"{figure(width(n, 0))} to {figure(width(n, n - 1))}"
    areas = f"{figure(area(n, 0, True))} to {figure(area(n, n - 1, True))}"
    if level == 0:
        size, areas = figure(width(n, 0)), figure(area(n, 0, True))
    bytes_ = [f"{4**level:,}", f"{40 * 4**level:,}"] if level in MASK_LEVELS else ["–", "–"]
    words = [str(level), f"{8 * 4**level:,}", figure(QUARTER / n), size, areas, *bytes_]
    return f"| {' | '.join(words)} |"


def table() -> List[str]:
    return [*HEAD, *map(row, LEVELS)]


if __name__ == "__main__":
    print("\n".join(table()))
