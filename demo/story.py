"""Replays a month on synthetic data with three masks of cloud, prints what each chart says just
east of 90° W, and draws the last morning:  story.py PICTURE"""

from __future__ import annotations

import sys
from array import array
from datetime import date
from typing import Callable, NamedTuple

import ticklocust
from picture import SHOWN, Panel, draw, words
from synthetic import CELLS, DAYS, LEVEL, LIMIT, PATCH, POSITION, RINGS, SEA, TODAY
from synthetic import cloud, morning_pass, sea
from ticklocust import Kind, Reading

Grow = Callable[[bytearray], bytearray]


def ungrown(mask: bytearray) -> bytearray:
    return mask


def octant_by_octant(mask: bytearray) -> bytearray:
    """The mistake: each octant's part is grown by itself and cut off at the edge of the octant."""
    octant = len(mask) // 8
    out = bytearray(len(mask))
    for start in range(0, len(mask), octant):
        part = slice(start, start + octant)
        alone = bytearray(len(mask))
        alone[part] = mask[part]
        out[part] = ticklocust.grow(LEVEL, RINGS, alone)[part]
    return out


def by_ticklocust(mask: bytearray) -> bytearray:
    return ticklocust.grow(LEVEL, RINGS, mask)


class Way(NamedTuple):
    """A way of masking the cloud, with a word on it for the picture."""

    how: str
    grow: Grow


WAYS = {
    "Mask not grown": Way("0 rings", ungrown),
    "Grown octant by octant": Way(f"{RINGS} rings, cut off at the meridian", octant_by_octant),
    "Grown by Ticklocust": Way(f"{RINGS} rings, over the meridian", by_ticklocust),
}


class Chart:
    """A chart, kept by one way of masking cloud."""

    def __init__(self, grow: Grow) -> None:
        self.grow = grow
        self.temperatures, self.ages = array("f", bytes(4 * CELLS)), bytearray(b"\xff" * CELLS)

    def take(self, news: array[float], mask: bytearray) -> None:
        ticklocust.day(LEVEL, LIMIT, news, self.grow(mask), self.temperatures, self.ages)

    def says(self, cell: int) -> Reading:
        return ticklocust.reading(LEVEL, cell, self.temperatures, self.ages)


def false(said: Reading, true: float) -> bool:
    """Whether a reading calls a temperature fresh that isn't the true one."""
    return said.kind is Kind.FRESH and said.temperature != true


BEFORE = f"""\
A month at 90 W. The sea, the cloud and the satellite's passes are synthetic data. The charts are
computed from them by the library's calls, at level {LEVEL}, with {CELLS:,} cells.

14 March: a warm patch of {PATCH} °C is seen on both sides of the meridian 90 W. The next day it is
gone, the sea is {SEA} °C everywhere, and a bank of cloud lies west of 90 W for the rest of the month.
The cloud mask ends at the meridian, but the thin edge of the cloud reaches two cells past the mask
on every side. There the satellite sees no sea, and the provider has filled the passes with {PATCH} °C,
the value of last month's patch.

What the chart says at 27.6 S, 89.7 W, just east of 90 W (temperatures are carried for at most
{LIMIT} days): with a cloud mask that is not grown, with one grown by {RINGS} rings in each octant by
itself, and with one grown by {RINGS} rings by Ticklocust.
"""


def main(picture: str) -> None:
    charts = {name: Chart(way.grow) for name, way in WAYS.items()}
    false_days = dict.fromkeys(charts, 0)
    print(BEFORE)
    print(row("", list(charts)), end="\n\n")
    for day in DAYS:
        news, mask, true = morning_pass(day), cloud(day), sea(day)[POSITION]
        said = []
        for name, chart in charts.items():
            chart.take(news, mask)
            reading = chart.says(POSITION)
            false_days[name] += false(reading, true)
            said.append(words(reading) + ("  (false)" if false(reading, true) else ""))
        print(row(date_name(day), said))
    print(f"\nDays on which {PATCH} °C was called fresh while the sea was {SEA} °C:")
    for name, count in false_days.items():
        print(f"  {name:24}{count:2} of {len(DAYS) - 1}")
    with open(picture, "w", encoding="utf-8", newline="\n") as file:
        file.write(draw({name: panel(name, charts[name]) for name in charts}, cloud(TODAY)))
    print(f"\nThe charts of {date_name(TODAY)} are drawn in {picture}")


def panel(name: str, chart: Chart) -> Panel:
    readings = {cell: chart.says(cell) for cell in SHOWN}
    cells = {cell: (said, false(said, SEA)) for cell, said in readings.items()}
    return Panel(name, WAYS[name].how, cells)


def row(name: str, words: list[str]) -> str:
    return (f"{name:12}" + "".join(f"{word:25}" for word in words)).rstrip()


def date_name(day: date) -> str:
    return f"{day.day} {day:%B}"


if __name__ == "__main__":
    main(sys.argv[1])
