"""The synthetic data of the demonstration: a sea around 90° W in the south, a cloud whose edge is
that meridian, and the satellite passes of a month. Nothing here was measured."""

from __future__ import annotations

from array import array
from datetime import date, timedelta
from typing import List

import ticklocust
from place import Place, place
from ticklocust import Latitude, Longitude

LEVEL = 6
N = 2**LEVEL
CELLS = 8 * 4**LEVEL
WEST, EAST = 6, 7  # the octants on both sides of 90° W, in the south

LATITUDE, LONGITUDE = Latitude(-27_600_000), Longitude(-89_700_000)
POSITION = ticklocust.cell_at(LEVEL, LATITUDE, LONGITUDE)

SEEN = date(2026, 3, 14)  # the warm patch is seen
TODAY = date(2026, 4, 14)  # the last pass
DAYS = [SEEN + timedelta(days=i) for i in range((TODAY - SEEN).days + 1)]
LIMIT = 30  # days for which a temperature is carried
RINGS = 2  # the width of the cloud's thin edge, and the rings by which a mask is grown

SEA, PATCH, CLOUD_TOP = 16.0, 21.0, 4.0  # °C

PLACES = {cell: place(LEVEL, cell) for cell in range(WEST * 4**LEVEL, (EAST + 1) * 4**LEVEL)}


def columns(at: Place) -> List[int]:
    """The columns of a cell's corners, counted from 90° W; west of it they are negative."""
    return [r if at.octant == EAST else t + r - N for t, r in at.corners()]


def marked(mask: bytes | bytearray, cell: int) -> bool:
    return bool(mask[cell // 8] >> cell % 8 & 1)


def cloud(day: date) -> bytearray:
    """A bank of cloud west of 90° W, from the day after the patch was seen. Its southern end moves
    south, a row at a time."""
    mask = bytearray(CELLS // 8)
    if day == SEEN:
        return mask
    moves = (date(2026, 3, 22), date(2026, 3, 30), date(2026, 4, 8))
    last_row = 19 + sum(day >= move for move in moves)
    for cell, at in PLACES.items():
        if at.octant == WEST and 8 <= at.a <= last_row and min(columns(at)) >= -14:
            mask[cell // 8] |= 1 << cell % 8
    return mask


def sea(day: date) -> array[float]:
    """The sea: on the first day a warm patch on both sides of 90° W, which is gone on the next."""
    temperatures = array("f", [SEA]) * CELLS
    if day == SEEN:
        for cell, at in PLACES.items():
            if 16 <= at.a <= 22 and all(-5 <= x <= 5 for x in columns(at)):
                temperatures[cell] = PATCH
    return temperatures


def morning_pass(day: date) -> array[float]:
    """What the satellite delivers: the sea, and where the cloud is the cold of its top. Under the
    thin edge of the cloud, two cells wide and not in the cloud mask, it sees no sea, and the
    provider fills the pass with the value of last month's warm patch."""
    temperatures, thick = sea(day), cloud(day)
    thin = ticklocust.grow(LEVEL, RINGS, thick)
    for cell in range(CELLS):
        if marked(thick, cell):
            temperatures[cell] = CLOUD_TOP
        elif marked(thin, cell):
            temperatures[cell] = PATCH
    return temperatures
