"""SVG as text: the same bytes for the same drawing. Where colours mean something, a shape, a pattern
or a word says it too, for grey print and for colour-blind readers."""

from __future__ import annotations

from typing import Iterable, List, Tuple

INK, GREY, PALE = "#1a1a1a", "#555555", "#ececec"
FONT = "Helvetica, Arial, 'DejaVu Sans', sans-serif"
MIDDLE = 'text-anchor="middle"'
BOLD = 'font-weight="bold"'

Point = Tuple[float, float]


def number(value: float) -> str:
    """A coordinate, with at most two digits after the point."""
    text = f"{value:.2f}".rstrip("0").rstrip(".")
    return "0" if text == "-0" else text


def pair(point: Point) -> str:
    return f"{number(point[0])},{number(point[1])}"


def polygon(points: Iterable[Point], style: str) -> str:
    return f'<polygon points="{" ".join(map(pair, points))}" {style}/>'


def line(points: Iterable[Point], style: str) -> str:
    return f'<polyline points="{" ".join(map(pair, points))}" fill="none" {style}/>'


def circle(at: Point, radius: float, style: str) -> str:
    return f'<circle cx="{number(at[0])}" cy="{number(at[1])}" r="{number(radius)}" {style}/>'


def text(at: Point, words: str, size: int, style: str = "") -> str:
    style = f" {style}" if style else ""
    return f'<text x="{number(at[0])}" y="{number(at[1])}" font-size="{size}"{style}>{words}</text>'


def between(start: Point, end: Point, share: float) -> Point:
    return start[0] + share * (end[0] - start[0]), start[1] + share * (end[1] - start[1])


def middle(points: List[Point]) -> Point:
    return sum(x for x, _ in points) / len(points), sum(y for _, y in points) / len(points)


def arrow(start: Point, end: Point) -> str:
    """An arrow between two points; the document defines its head."""
    return line([start, end], f'stroke="{INK}" stroke-width="2" marker-end="url(#head)"')


HEAD = (
    '<marker id="head" viewBox="0 0 10 10" refX="8" refY="5" markerWidth="6" markerHeight="6" '
    f'orient="auto"><path d="M0 0L10 5L0 10Z" fill="{INK}"/></marker>'
)


def document(size: Tuple[int, int], title: str, desc: str, defs: str, body: List[str]) -> str:
    """The whole file. Title and description are what a screen reader says."""
    width, height = size
    return "\n".join([
        f'<svg xmlns="http://www.w3.org/2000/svg" viewBox="0 0 {width} {height}" '
        f'width="{width}" height="{height}" font-family="{FONT}" fill="{INK}" role="img" '
        'aria-labelledby="title desc">',
        f'<title id="title">{title}</title>',
        f'<desc id="desc">{desc}</desc>',
        f"<defs>{defs}</defs>",
        f'<rect width="{width}" height="{height}" fill="#fff"/>',
        *body,
        "</svg>",
    ]) + "\n"  # fmt: skip
