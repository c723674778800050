"""One day of a chart of level 1: a cloud, grown by a ring, and what a cell reads afterwards.

In the repository: PYTHONPATH=bindings/python python3 examples/python/chart.py"""

from __future__ import annotations

from array import array

from ticklocust import Latitude, Longitude, Reading, Summary
from ticklocust import cell_at, chart_len, count, day, grow, mask_len, reading, step

LEVEL = 1


def mask_of(cells: list[int]) -> bytearray:
    """The mask that marks these cells."""
    mask = bytearray(mask_len(LEVEL))
    for cell in cells:
        mask[cell // 8] |= 1 << cell % 8
    return mask


def main() -> None:
    cells = chart_len(LEVEL)
    # Yesterday the sea had 21.0 degrees Celsius everywhere; today's pass says 16.0.
    temperatures, ages = array("f", [21.0] * cells), bytearray(cells)
    news = array("f", [16.0] * cells)
    cell: int = cell_at(LEVEL, Latitude(-27_600_000), Longitude(-89_700_000))
    cloud: bytearray = grow(LEVEL, 1, mask_of([cell]))
    print(f"{count(LEVEL, cloud)} of {cells} cells are under cloud")
    # A temperature is carried for two days.
    summary: Summary = day(LEVEL, 2, news, cloud, temperatures, ages)
    print(f"{summary.count} fresh, {summary.coldest} to {summary.warmest}")
    beside: int = step(LEVEL, cell, "r")
    said: Reading = reading(LEVEL, beside, temperatures, ages)
    print(f"cell {beside}: {said}")


if __name__ == "__main__":
    main()
