"""Draws the triangles around 90° W, a panel for each way of masking the cloud: fresh, carried and
gap with the ages in the cells. The meridian is upright and parallels are level: across is R, down is T
(docs/RULES.md, 2)."""

from __future__ import annotations

from typing import Dict, List, Mapping, NamedTuple, Tuple

from place import Q
from svg import BOLD, GREY, INK, MIDDLE, Point
from svg import between, circle, document, line, middle, polygon, text
from synthetic import LATITUDE, LIMIT, LONGITUDE, N, PATCH, PLACES, POSITION, RINGS, SEA
from synthetic import columns, marked
from ticklocust import Kind, Reading

COLUMNS, ROWS = range(-3, 4), range(18, 27)
SIDE = 38
LEFT, TOP, GAP = 58, 200, 34
PANEL_WIDTH, PANEL_HEIGHT = SIDE * len(COLUMNS), SIDE * len(ROWS)
WIDTH = LEFT + 3 * PANEL_WIDTH + 2 * GAP + 24
BOTTOM = TOP + PANEL_HEIGHT
HEIGHT = BOTTOM + 148

FILL = {Kind.FRESH: "#a9d9f5", Kind.CARRIED: "#e69f00", Kind.GAP: "#e6e6e6"}
FALSE = "#b04300"
PATTERNS = (
    '<pattern id="cloud" width="6" height="6" patternUnits="userSpaceOnUse" '
    'patternTransform="rotate(45)"><path d="M0 0V6" stroke="#000" stroke-opacity="0.35" '
    'stroke-width="1.6"/></pattern>'
    '<pattern id="carried" width="6" height="6" patternUnits="userSpaceOnUse">'
    '<circle cx="3" cy="3" r="0.9" fill="#000" fill-opacity="0.45"/></pattern>'
)

Cells = Mapping[int, Tuple[Reading, bool]]


class Panel(NamedTuple):
    """A way of masking the cloud: its title, a word on it, and what each cell shown says, with
    whether that is false."""

    title: str
    how: str
    cells: Cells


def words(said: Reading) -> str:
    """A reading with its unit."""
    if said.kind is Kind.GAP:
        return "gap"
    days = f", {said.days} day{'' if said.days == 1 else 's'}" if said.days else ""
    return f"{said.kind.value} {said.temperature} °C{days}"


def corners(cell: int) -> List[Point]:
    """A cell's corners in a panel: columns from 90° W, rows from the equator."""
    at = PLACES[cell]
    return [(x, t) for x, (t, _) in zip(columns(at), at.corners())]


def shown(cell: int) -> bool:
    points = corners(cell)
    return all(COLUMNS[0] <= x <= COLUMNS[-1] + 1 for x, _ in points) and all(
        ROWS[0] <= y <= ROWS[-1] + 1 for _, y in points
    )


SHOWN = [cell for cell in PLACES if shown(cell)]


def triangle(points: List[Point], said: Reading, false: bool, clouded: bool) -> List[str]:
    """A cell with its age. Carried cells are dotted, to be told from fresh ones in grey print."""
    drawn = [polygon(points, f'fill="{FILL[said.kind]}" stroke="#fff" stroke-width="1.4"')]
    if said.kind is Kind.CARRIED:
        drawn.append(polygon(points, 'fill="url(#carried)"'))
    if clouded:
        drawn.append(polygon(points, 'fill="url(#cloud)"'))
    x, y = middle(points)
    if false:
        inner = [between((x, y), point, 0.8) for point in points]
        style = f'fill="none" stroke="{FALSE}" stroke-width="3" stroke-linejoin="round"'
        drawn.append(polygon(inner, style))
    age = "–" if said.kind is Kind.GAP else str(said.days)
    halo = f'paint-order="stroke" stroke="{FILL[said.kind]}" stroke-width="3"'
    style = f"{MIDDLE} {halo}" + (f" {BOLD}" if false else "")
    return [*drawn, text((x, y + 4), age, 11, style)]


def panel(left: float, shown: Panel, cloud: bytearray) -> List[str]:
    def place(points: List[Point]) -> List[Point]:
        return [(left + SIDE * (x - COLUMNS[0]), TOP + SIDE * (y - ROWS[0])) for x, y in points]

    drawn = [text((left, TOP - 58), shown.title, 16, BOLD)]
    drawn.append(text((left, TOP - 39), shown.how, 13, f'fill="{GREY}"'))
    for cell, (said, false) in shown.cells.items():
        drawn += triangle(place(corners(cell)), said, false, marked(cloud, cell))
    ((meridian, _),) = place([(0, 0)])
    upright = [(meridian, TOP - 8), (meridian, BOTTOM)]
    drawn.append(line(upright, f'stroke="{INK}" stroke-width="2.5"'))
    drawn.append(text((meridian, TOP - 13), "90° W", 12, f'{MIDDLE} fill="{GREY}"'))
    drawn.append(dot(*place([position()])))
    here, false = shown.cells[POSITION]
    drawn.append(text((left, BOTTOM + 24), f"at the dot: {words(here)}", 14, BOLD))
    last = f"true: last seen 31 days ago, limit {LIMIT}"
    why = f"false: the sea there is {SEA} °C" if false else last
    return [*drawn, text((left, BOTTOM + 43), why, 13, f'fill="{FALSE if false else GREY}"')]


def position() -> Point:
    """The position, in a panel's columns and rows."""
    p, m = -LATITUDE.microdegrees, LONGITUDE.microdegrees + Q
    return N * m * (Q - p) / Q**2, N * p / Q


def dot(at: Point) -> str:
    return circle(at, 4, f'fill="{INK}" stroke="#fff" stroke-width="1.5"')


def parallels() -> List[str]:
    """The parallels' names, at the left of the first panel."""
    drawn = []
    for degrees in (27, 30, 33, 36):
        y = TOP + SIDE * (N * degrees / 90 - ROWS[0])
        drawn.append(line([(LEFT - 9, y), (LEFT - 2, y)], f'stroke="{GREY}"'))
        style = f'text-anchor="end" fill="{GREY}"'
        drawn.append(text((LEFT - 13, y + 4), f"{degrees}° S", 12, style))
    return drawn


def legend(lefts: List[float]) -> List[str]:
    fresh, carried, gap = (
        Reading(Kind.FRESH, SEA, 0),
        Reading(Kind.CARRIED, SEA, 7),
        Reading(Kind.GAP, None, None),
    )
    rows = [
        [("0: fresh, seen this morning", fresh, False, False),
         ("dotted: carried, with its days", carried, False, False),
         ("–: gap, nothing is known", gap, False, False)],
        [("called fresh, but false", fresh, True, False),
         ("hatched: cloud mask before growing", gap, False, True),
         ("the position, 27.6° S 89.7° W", None, False, False)],
    ]  # fmt: skip
    drawn = []
    for y, row in zip((BOTTOM + 64, BOTTOM + 102), rows):
        for x, (meaning, said, false, clouded) in zip(lefts, row):
            if said is None:
                drawn.append(dot((x + 14, y + 14)))
            else:
                points: List[Point] = [(x, y), (x, y + 32), (x + 32, y)]
                drawn += triangle(points, said, false, clouded)
            drawn.append(text((x + 36, y + 19), meaning, 13))
    return drawn


STORY = (
    "One cloud, three masks of it. Under the thin edge of the cloud, two cells wide, the satellite",
    f"sees no sea, and the provider has filled the pass with {PATCH} °C, the value of last month’s",
    "warm patch. The numbers are the days since a cell was last seen. Synthetic data.",
)


def draw(panels: Dict[str, Panel], cloud: bytearray) -> str:
    """The picture: always the same bytes for the same charts."""
    lefts = [LEFT + i * (PANEL_WIDTH + GAP) for i in range(len(panels))]
    body = [text((LEFT, 40), "The morning of 14 April, at 90° W", 22, BOLD)]
    body += [text((LEFT, 66 + 20 * i), row, 14, f'fill="{GREY}"') for i, row in enumerate(STORY)]
    for left, shown in zip(lefts, panels.values()):
        body += panel(left, shown, cloud)
    body += [*parallels(), *legend(lefts)]
    title = "The chart around 90° W, with three masks of the same cloud"
    desc = (
        f"{' '.join(STORY)} In the first two panels cells east of the meridian call {PATCH} °C "
        f"fresh. In the third, with a mask grown by {RINGS} rings over the meridian, they are carried "
        "or a gap."
    )
    return document((WIDTH, HEIGHT), title, desc, PATTERNS, body)
