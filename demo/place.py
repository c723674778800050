"""Where a cell lies in its octant (docs/RULES.md, 1.4), found from the centre that the library
gives, and where its codes lead."""

from __future__ import annotations

from typing import Dict, List, NamedTuple, Tuple

import ticklocust

Q = 90_000_000


class Place(NamedTuple):
    """Octant, whether it is an up cell, row a from the equator, column b from the west edge."""

    octant: int
    up: bool
    a: int
    b: int

    def __str__(self) -> str:
        return f"{'up' if self.up else 'down'}({self.a},{self.b})"

    def corners(self) -> List[Tuple[int, int]]:
        """Its corners as (T, R) (docs/RULES.md, 5)."""
        a, b = self.a, self.b
        if self.up:
            return [(a, b), (a + 1, b), (a, b + 1)]
        return [(a + 1, b), (a, b + 1), (a + 1, b + 1)]


def place(level: int, cell: int) -> Place:
    latitude, longitude = ticklocust.centre(level, cell)
    n, p, m = 2**level, abs(latitude.microdegrees), (longitude.microdegrees + 2 * Q) % Q
    t, r = n * p * Q, n * m * (Q - p)  # T and R, both times Q * Q
    a, b = t // Q**2, r // Q**2
    return Place(cell // 4**level, t + r < (a + b + 1) * Q**2, a, b)


def digits(level: int, cell: int) -> str:
    """The digits of a cell, without its octant."""
    return "".join(str(cell // 4**i % 4) for i in reversed(range(level)))


def codes(level: int, cell: int) -> Dict[str, int]:
    """The codes that a cell has, with the cells that they lead to."""
    found = {}
    for code, letter in enumerate(ticklocust.CODES):
        try:
            found[letter] = ticklocust.step(level, cell, code)
        except ticklocust.Refused:
            pass  # the cell has no such code
    return found
