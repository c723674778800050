"""Draws the eight octants on the globe, seen from above 0° and from above 180° on the equator,
with the cells of level 2 and where T, E and W lead. Cells, centres and steps are the library's."""

from __future__ import annotations

from math import cos, radians, sin
from typing import Iterator, List, Tuple

import ticklocust
from place import Place, codes, place
from svg import BOLD, GREY, HEAD, INK, MIDDLE, PALE, Point
from svg import arrow, between, circle, document, line, polygon, text

LEVEL, N = 2, 4
RADIUS = 210
WIDTH, HEIGHT = 1160, 600
MIDDLES: Tuple[Point, Point] = ((310, 322), (850, 322))
BEGINNINGS = (0, 90, -180, -90)  # the longitudes at which the octants begin, in degrees
PARTS = 8  # of a cell's side, which is a curve on the globe

PLACES = [place(LEVEL, cell) for cell in range(8 * 4**LEVEL)]


class Disc:
    """One side of the globe in orthographic projection: its middle on the page, the longitude in
    its middle, and the octants to be seen."""

    def __init__(self, middle: Point, longitude: int, octants: List[int]) -> None:
        self.middle, self.longitude, self.octants = middle, longitude, octants

    def point(self, latitude: float, longitude: float) -> Point:
        phi, turn = radians(latitude), radians(longitude - self.longitude)
        x, y = self.middle
        return x + RADIUS * cos(phi) * sin(turn), y - RADIUS * sin(phi)

    def centre(self, level: int, cell: int) -> Point:
        latitude, longitude = ticklocust.centre(level, cell)
        return self.point(latitude.microdegrees / 1e6, longitude.microdegrees / 1e6)

    def cell(self, at: Place) -> str:
        """The outline of a cell."""
        fill = "#fff" if at.up else PALE
        points = [self.point(*position(at.octant, t, r)) for t, r in outline(at)]
        return polygon(points, f'fill="{fill}" stroke="{GREY}" stroke-width="0.8"')

    def step(self, cell: int, code: str) -> List[str]:
        """The arrow of a step. One that leaves this side of the globe ends outside the disc."""
        to = codes(LEVEL, cell)[code]
        octant, start = PLACES[to].octant, self.centre(LEVEL, cell)
        side = 1 if start[0] > self.middle[0] else -1
        if octant in self.octants:
            end = self.centre(LEVEL, to)
            x, y = between(start, end, 0.75)
            label = (x - side * 14, y + 6) if code == "T" else (x, y - 9)
            return [arrow(start, end), text(label, code, 18, f"{MIDDLE} {BOLD}")]
        end = start[0] + side * 56, start[1]
        anchor = f'text-anchor="{"start" if side > 0 else "end"}"'
        x, y = end[0] + side * 6, end[1] + 5
        words = f'<tspan {BOLD} font-size="18">{code}</tspan> to {octant}'
        return [arrow(start, end), text((x, y), words, 14, anchor)]

    def draw(self) -> List[str]:
        drawn = [self.cell(at) for at in PLACES if at.octant in self.octants]
        x, y = self.middle
        edge = f'stroke="{INK}" stroke-width="2.5"'
        drawn.append(circle(self.middle, RADIUS, f'fill="none" {edge}'))
        drawn.append(line([(x - RADIUS, y), (x + RADIUS, y)], edge))
        drawn.append(line([(x, y - RADIUS), (x, y + RADIUS)], edge))
        for octant in self.octants:
            x, y = self.centre(0, octant)
            drawn.append(circle((x, y), 19, f'fill="#fff" stroke="{INK}"'))
            drawn.append(text((x, y + 9), str(octant), 26, f"{MIDDLE} {BOLD}"))
        for octant in self.octants:
            for cell, code in shown(octant):
                drawn += self.step(cell, code)
        return drawn + self.names()

    def names(self) -> List[str]:
        """The meridians, the poles and the equator."""
        x, y = self.middle
        west, east = (name(self.longitude + turn) for turn in (-90, 90))
        grey = f'fill="{GREY}"'
        return [
            text((x, y - RADIUS - 12), "north pole", 13, f"{MIDDLE} {grey}"),
            text((x, y + RADIUS + 20), "south pole", 13, f"{MIDDLE} {grey}"),
            text((x, y + RADIUS + 40), f"meridian {name(self.longitude)}", 14, MIDDLE),
            text((x - RADIUS - 8, y - 8), west, 14, 'text-anchor="end"'),
            text((x - RADIUS - 8, y + 14), "equator", 13, f'text-anchor="end" {grey}'),
            text((x + RADIUS + 8, y - 8), east, 14),
        ]


def name(longitude: int) -> str:
    degrees = (longitude + 180) % 360 - 180
    if degrees in (0, -180):
        return f"{abs(degrees)}°"
    return f"{abs(degrees)}° {'E' if degrees > 0 else 'W'}"


def position(octant: int, t: float, r: float) -> Tuple[float, float]:
    """Latitude and longitude of the point T, R of an octant (docs/RULES.md, 2, turned round)."""
    south = -1 if octant >= 4 else 1
    turn = 90 * r / (N - t) if t < N else 0
    return south * 90 * t / N, BEGINNINGS[octant % 4] + turn


def outline(at: Place) -> Iterator[Tuple[float, float]]:
    """Points (T, R) along the sides of a cell."""
    corners = at.corners()
    for start, end in zip(corners, corners[1:] + corners[:1]):
        for i in range(PARTS):
            yield between(start, end, i / PARTS)


def shown(octant: int) -> Iterator[Tuple[int, str]]:
    """The steps that are drawn: T from every octant, E in the north and W in the south."""
    crossing = Place(octant, True, 0, 2 if octant < 4 else 1)
    yield PLACES.index(crossing), "T"
    edge = Place(octant, True, 1, N - 2) if octant < 4 else Place(octant, True, 1, 0)
    yield PLACES.index(edge), "E" if octant < 4 else "W"


def draw() -> str:
    discs = [Disc(MIDDLES[0], 0, [3, 0, 7, 4]), Disc(MIDDLES[1], 180, [1, 2, 5, 6])]
    title = "The eight octants on the globe"
    words = (
        "Cells of level 2, up cells white and down cells grey. T crosses the equator, E and W cross "
        "a meridian; E is drawn in the north and W in the south."
    )
    desc = (
        "Two discs. The first is the globe seen from above 0 degrees on the equator, with octants 3 "
        "and 0 in the north and 7 and 4 in the south. The second is seen from above 180 degrees, with "
        "1 and 2 in the north and 5 and 6 in the south. Arrows show where the codes T, E and W lead."
    )
    body = [
        text((34, 44), title, 22, BOLD),
        text((34, 68), words, 14, f'fill="{GREY}"'),
        *(piece for disc in discs for piece in disc.draw()),
    ]
    return document((WIDTH, HEIGHT), title, desc, HEAD, body)
