"""Draws octant 0 at level 2 in four panels: its cells with their digits and numbers, and the steps
from an up cell, from a down cell and from two corner cells. Cells, places and steps are the
library's."""

from __future__ import annotations

from typing import Dict, List

from place import Place, codes, digits, place
from svg import BOLD, GREY, HEAD, INK, MIDDLE, PALE, Point
from svg import arrow, between, circle, document, middle, polygon, text

LEVEL, N = 2, 4
SIDE, ROW = 112, 97  # a cell's side and height, in pixels
WIDTH, HEIGHT = 1140, 1112
LEFTS, BOTTOMS = (78, 604), (532, 1044)
START = "#56b4e9"
# How far aside the label of a step out of the octant stands, and its anchor.
OUTSIDE = {"T": (0, MIDDLE), "W": (16, 'text-anchor="end"'), "E": (-16, 'text-anchor="start"')}

PLACES: Dict[int, Place] = {cell: place(LEVEL, cell) for cell in range(8 * 4**LEVEL)}
OCTANT = [cell for cell, at in PLACES.items() if at.octant == 0]
CELL = {str(PLACES[cell]): cell for cell in OCTANT}


class Panel:
    """One drawing of the octant: its west corner, and what is drawn so far."""

    def __init__(self, left: int, bottom: int, title: str) -> None:
        self.left, self.bottom = left, bottom
        self.drawn = [text((left - 40, bottom - N * ROW - 42), title, 17, BOLD)]

    def point(self, t: float, r: float) -> Point:
        return self.left + SIDE * (r + t / 2), self.bottom - ROW * t

    def corners(self, cell: int) -> List[Point]:
        return [self.point(t, r) for t, r in PLACES[cell].corners()]

    def middle(self, cell: int) -> Point:
        return middle(self.corners(cell))

    def outlines(self, starts: List[int]) -> None:
        for cell in OCTANT:
            fill = START if cell in starts else "#fff" if PLACES[cell].up else PALE
            style = f'fill="{fill}" stroke="{INK}" stroke-width="1"'
            self.drawn.append(polygon(self.corners(cell), style))
        for cell in starts:
            style = f'fill="none" stroke="{INK}" stroke-width="3" stroke-linejoin="round"'
            self.drawn.append(polygon(self.corners(cell), style))

    def label(self, at: Point, words: str, below: str, anchor: str = MIDDLE) -> None:
        """A word with a smaller one below it."""
        x, y = at
        self.drawn.append(text((x, y + 3), words, 18, f"{anchor} {BOLD}"))
        self.drawn.append(text((x, y + 18), below, 12, f'{anchor} fill="{GREY}"'))

    def across(self, cell: int, code: str) -> Point:
        """The middle of a corner cell, mirrored in the edge of the octant that a code crosses."""
        ends = {"T": [(0, 0), (0, N)], "W": [(0, 0), (N, 0)], "E": [(0, N), (N, 0)]}[code]
        (x0, y0), (x1, y1) = (self.point(*end) for end in ends)
        x, y = self.middle(cell)
        dx, dy = x1 - x0, y1 - y0
        share = ((x - x0) * dx + (y - y0) * dy) / (dx * dx + dy * dy)
        return 2 * (x0 + share * dx) - x, 2 * (y0 + share * dy) - y

    def step(self, cell: int, code: str, to: int) -> None:
        """The arrow of one step; at its end the code and the digits of the cell reached."""
        octant, words = PLACES[to].octant, digits(LEVEL, to)
        start = self.middle(cell)
        end = self.across(cell, code) if octant else self.middle(to)
        reach = 0.8 if code in "ew" else 0.62
        self.drawn.append(arrow(between(start, end, 0.12), between(start, end, reach)))
        if octant:
            x, y = end
            aside, anchor = OUTSIDE[code]
            self.label((x + aside, y), code, f"octant {octant}, {words}", anchor)
        else:
            self.label(end, code, words)


def numbers(panel: Panel) -> None:
    """The cells with digits and numbers; the rows, the columns and the edges of the octant."""
    panel.outlines([])
    for cell in OCTANT:
        panel.label(panel.middle(cell), digits(LEVEL, cell), f"cell {cell}")
    grey = f'fill="{GREY}"'
    for i in range(N):
        x, y = panel.point(i + 0.5, 0)
        panel.drawn.append(text((x - 40, y - 8), f"row {i}", 13, f'text-anchor="end" {grey}'))
        x, y = panel.point(0, i + 0.5)
        panel.drawn.append(text((x, y + 18), f"column {i}", 13, f"{MIDDLE} {grey}"))
    x, y = panel.point(N, 0)
    panel.drawn.append(text((x, y - 10), "north pole", 13, f"{MIDDLE} {grey}"))
    x, y = panel.point(0, N / 2)
    panel.drawn.append(text((x, y + 38), "equator", 13, f"{MIDDLE} {grey}"))
    x, y = panel.point(0, 0)
    panel.drawn.append(text((x, y + 38), "0°", 13, f"{MIDDLE} {grey}"))
    x, y = panel.point(0, N)
    panel.drawn.append(text((x, y + 38), "90° E", 13, f"{MIDDLE} {grey}"))


def steps(panel: Panel, starts: List[int]) -> None:
    """The steps from some cells along all codes that they have."""
    panel.outlines(starts)
    found = {cell: codes(LEVEL, cell) for cell in starts}
    named = {*starts, *(to for reached in found.values() for to in reached.values())}
    for cell in OCTANT:
        if cell not in named:
            x, y = panel.middle(cell)
            style = f'{MIDDLE} fill="{GREY}"'
            panel.drawn.append(text((x, y + 18), digits(LEVEL, cell), 12, style))
    for cell, reached in found.items():
        panel.drawn.append(circle(panel.middle(cell), 4, f'fill="{INK}"'))
        for code, to in reached.items():
            panel.step(cell, code, to)


def draw() -> str:
    up, down = CELL["up(1,1)"], CELL["down(0,1)"]
    west, east = CELL["up(0,0)"], CELL[f"up(0,{N - 1})"]
    named = [f"{PLACES[cell]}, digits {digits(LEVEL, cell)}" for cell in (up, down)]
    corner = f"corner cells {PLACES[west]} and {PLACES[east]}"
    panels = [
        Panel(LEFTS[0], BOTTOMS[0], "The cells: digits and numbers"),
        Panel(LEFTS[1], BOTTOMS[0], f"Steps from {named[0]}"),
        Panel(LEFTS[0], BOTTOMS[1], f"Steps from {named[1]}"),
        Panel(LEFTS[1], BOTTOMS[1], f"Steps from the {corner}"),
    ]
    numbers(panels[0])
    for panel, starts in zip(panels[1:], ([up], [down], [west, east])):
        steps(panel, starts)
    body = [text((34, 44), "Octant 0 at level 2", 22, BOLD)]
    words = "Up cells are white, down cells grey. An arrow leads to the cell with the code's letter."
    body.append(text((34, 68), words, 14, f'fill="{GREY}"'))
    desc = (
        "Four triangles, each octant 0 cut into sixteen cells in four rows from the equator to the "
        "pole. The first gives the digits and the number of each cell. The others show as arrows "
        f"where the codes lead from {named[0]}, from {named[1]} and from the {corner}."
    )
    body += [piece for panel in panels for piece in panel.drawn]
    return document((WIDTH, HEIGHT), "Octant 0 at level 2", desc, HEAD, body)
