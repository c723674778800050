r"""Triangular cells of the globe, masks of cloud on them, and charts of sea temperature in degrees
Celsius, where every temperature has an age: the proved library libticklocust, through ctypes.

Each function makes one call of include/ticklocust.h. It returns its result or raises Refused, a
ValueError whose `number` is that of the table in docs/RULES.md, 9; a refused call leaves every
buffer as it was. The sections of that page: positions 2, centres 3, codes 4, touching 5, masks 6,
charts 7, borders 8. Bounds are MAX_CELL_LEVEL and the like; mask_len and chart_len give lengths.

Buffers are bytes, bytearray, memoryview, array.array or numpy arrays. They are contiguous and are
never copied. Masks, ages and stored borders are bytes; temperatures are 32-bit floats ('f') and
cells 32-bit unsigned integers ('I'), or the bytes of either as in a file. A buffer that a call
writes is writable and overlaps no other buffer of the call. If none is passed for a result, the
call makes one. Other threads run during a call; they must not change its buffers.

A numpy masked array raises TypeError, even if no element is masked: a buffer carries no mask, so
masked cells would become fresh. array.filled(float("nan")) makes plain temperatures, which are out
of range where they were masked. Only border_write takes cells that are not a buffer, in a list.

    >>> cell = cell_at(1, Latitude(22_500_000), Longitude(30_000_000))
    >>> cell, centre(1, cell)
    (0, (Latitude(microdegrees=30000000), Longitude(microdegrees=45000000)))

fill needs 330 KiB of stack, grow and shrink need 250 KiB each, border_read 20 KiB, border_write
8 KiB and every other call 4 KiB, besides what Python needs. A thread with less stack (set by
threading.stack_size) crashes the process: no exception can report it. Frames are probed page by
page, so an overflow hits the guard page and writes nothing beyond it.

Not covered by the proofs:
- This module: it is tested.
- The bits of a NaN. The proofs know a single NaN; that a refused call leaves the bits of every NaN
  as they were is tested.
- Other floating-point modes. If flush-to-zero or denormals-are-zero is set, as C extensions built
  with -ffast-math may do, day can give 0.0 where the coldest or the warmest temperature is a
  subnormal number. Call with the default mode.
- The stack: its use is measured.

The shared object is the file named by TICKLOCUST_SO if that is set. Otherwise libticklocust.so is
searched for beside this file, two folders up (an installed PREFIX/lib), in the repository's
target/bindings, and where the system searches. This command makes it from the archive:

    gcc -shared -o libticklocust.so \
        -Wl,--whole-archive libticklocust.a -Wl,--no-whole-archive
"""

from __future__ import annotations

import ctypes
import enum
import operator
import os
from array import array
from contextlib import contextmanager
from ctypes import byref, c_float, c_int32, c_size_t, c_uint32, c_void_p
from dataclasses import dataclass
from itertools import islice
from pathlib import Path
from typing import TYPE_CHECKING, Any, Iterable, Iterator, NamedTuple, TypeVar, overload

if TYPE_CHECKING:
    from _typeshed import ReadableBuffer, WriteableBuffer

__all__ = [
    "CODES", "Kind", "Latitude", "Longitude", "MAX_BORDER_BYTES", "MAX_BORDER_CELLS",
    "MAX_CELL_LEVEL", "MAX_CODES", "MAX_DAYS", "MAX_MASK_LEVEL", "MAX_RINGS", "Reading", "Refused",
    "Summary", "Within", "border_read", "border_write", "cell_at", "centre", "chart_len", "code",
    "count", "day", "fill", "grow", "join", "mask_len", "reading", "shrink", "step", "touching",
    "within",
]  # fmt: skip
__version__ = "0.1.0"

CODES = "tlrewTEW"
"""The letters of the codes 0 to 7; T, E and W cross the edge of an octant."""
MAX_CELL_LEVEL = 14
"""The highest level of cells and borders."""
MAX_MASK_LEVEL = 8
"""The highest level of masks and charts."""
MAX_RINGS = 64
"""The most rings by which a mask is grown or shrunk."""
MAX_DAYS = 30
"""The most days for which a temperature is carried."""
MAX_CODES = 4096
"""The most codes in a border."""
MAX_BORDER_CELLS = MAX_CODES + 1
"""The most cells in a border: a length for border_read's buffer."""
MAX_BORDER_BYTES = 1544
"""The most bytes in a stored border: a length for border_write's buffer."""

_NO_CELL = 0xFFFFFFFF
_TOUCHING = 12

_SENTENCES = {
    1: "the level is above its bound: 14 for cells and borders, 8 for masks and charts",
    2: "the latitude is outside its range: -90000000 to 90000000 millionths of a degree",
    3: "the longitude is outside its range: -180000000 to 179999999 millionths of a degree",
    4: "the cell number is not below 8 x 4^level",
    5: "a slice is not of its exact length; for borders it is too short, or there are no cells",
    6: "the rings are above 64, or the days above 30",
    7: "there is no such step: the code is above 7 or absent there, or no code joins the two "
    "cells",
    8: "the outside cell is marked",
    9: "there are more than 4096 codes",
    10: "the bytes end early",
    11: "a stored number is not in its form: shortest, at most five bytes, below 2^32",
    12: "pad bits are not zero, or bytes are left over",
}


class Refused(ValueError):
    """A call was refused. `number` is that of the table in docs/RULES.md, 9: 1 to 12."""

    number: int

    def __init__(self, number: int) -> None:
        super().__init__(number)
        self.number = number

    def __str__(self) -> str:
        return f"refused {self.number}: {_SENTENCES[self.number]}"


@dataclass(frozen=True, order=True)
class Latitude:
    """A latitude in millionths of a degree, -90,000,000 to 90,000,000; south is negative."""

    microdegrees: int


@dataclass(frozen=True, order=True)
class Longitude:
    """A longitude in millionths of a degree, -180,000,000 to 179,999,999; west is negative."""

    microdegrees: int


class Kind(enum.Enum):
    """The kind of a reading."""

    FRESH = "fresh"
    CARRIED = "carried"
    GAP = "gap"


class Reading(NamedTuple):
    """What a chart says about a cell: FRESH with a temperature in degrees Celsius and 0 days,
    CARRIED with a temperature and 1 to 30 days, or GAP with None for both. It can't be used as a
    number."""

    kind: Kind
    temperature: float | None
    days: int | None

    def __str__(self) -> str:
        if self.kind is Kind.GAP:
            return "gap"
        if self.kind is Kind.FRESH:
            return f"fresh {self.temperature}"
        return f"carried {self.temperature}, {self.days} day{'' if self.days == 1 else 's'}"


@dataclass(frozen=True)
class Summary:
    """The fresh cells of a chart after a day, with temperatures in degrees Celsius. If no cell is
    fresh, count is 0 and both temperatures are 0.0."""

    count: int
    coldest: float
    warmest: float


@dataclass(frozen=True)
class Within:
    """Whether every cell of one mask is in another: true, or false with `lacking`, the lowest cell
    that is not."""

    lacking: int | None

    def __bool__(self) -> bool:
        return self.lacking is None


# The shared object.

_SLICE = (c_void_p, c_size_t)
_WORD = ctypes.POINTER(c_uint32)
_SIGNED = ctypes.POINTER(c_int32)
_FLOAT = ctypes.POINTER(c_float)
_CALLS: dict[str, tuple[Any, ...]] = {
    "cell_at": (c_uint32, c_int32, c_int32, _WORD),
    "centre": (c_uint32, c_uint32, _SIGNED, _SIGNED),
    "step": (c_uint32, c_uint32, c_uint32, _WORD),
    "code": (c_uint32, c_uint32, c_uint32, _WORD),
    "touching": (c_uint32, c_uint32, *_SLICE, _WORD),
    "border_read": (*_SLICE, *_SLICE, _WORD, _WORD),
    "border_write": (c_uint32, *_SLICE, *_SLICE, _WORD),
    "grow": (c_uint32, c_uint32, *_SLICE, *_SLICE, *_SLICE),
    "shrink": (c_uint32, c_uint32, *_SLICE, *_SLICE, *_SLICE),
    "join": (c_uint32, *_SLICE, *_SLICE, *_SLICE),
    "count": (c_uint32, *_SLICE, _WORD),
    "within": (c_uint32, *_SLICE, *_SLICE, _WORD),
    "fill": (c_uint32, *_SLICE, c_uint32, *_SLICE),
    "reading": (c_uint32, c_uint32, *_SLICE, *_SLICE, _WORD, _FLOAT, _WORD),
    "day": (c_uint32, c_uint32, *_SLICE, *_SLICE, *_SLICE, *_SLICE, _WORD, _FLOAT, _FLOAT),
}


def _load() -> ctypes.CDLL:
    name = "libticklocust.so"
    named = os.environ.get("TICKLOCUST_SO")
    here = Path(__file__).resolve().parent
    above = here.parent.parent
    folders = [here, above, above / "target" / "bindings"]
    found = (str(folder / name) for folder in folders if (folder / name).is_file())
    try:
        library = ctypes.CDLL(named or next(found, name))
    except OSError as error:
        raise ImportError(f"{error}; this module's docstring says how to make {name}") from None
    for call, types in _CALLS.items():
        function = getattr(library, f"ticklocust_{call}")
        function.argtypes, function.restype = types, c_uint32
    return library


_library = _load()


def _call(name: str, *words: Any) -> None:
    number = getattr(_library, f"ticklocust_{name}")(*words)
    if number:
        raise Refused(number)


# Numbers and buffers in the form of the C interface.


def _whole(name: str, value: int) -> int:
    """A number of 32 bits. A larger one becomes the largest, which is refused in the same way."""
    value = operator.index(value)
    if value < 0:
        raise ValueError(f"{name} is negative: {value}")
    return min(value, 0xFFFFFFFF)


def _microdegrees(
    value: Latitude | Longitude, kind: type[Latitude] | type[Longitude]
) -> int:
    if not isinstance(value, kind):
        raise TypeError(f"a {kind.__name__} is needed, not {value!r}")
    return max(-(2**31), min(operator.index(value.microdegrees), 2**31 - 1))


def _code(code: int | str) -> int:
    if not isinstance(code, str):
        return _whole("code", code)
    if len(code) != 1 or code not in CODES:
        raise ValueError(f"code is not one of the letters {', '.join(CODES)}: {code!r}")
    return CODES.index(code)


class _Py_buffer(ctypes.Structure):
    """CPython's view of a buffer, unchanged since 3.3."""

    _fields_ = [
        ("buf", c_void_p), ("obj", c_void_p), ("len", ctypes.c_ssize_t),
        ("itemsize", ctypes.c_ssize_t), ("readonly", ctypes.c_int), ("ndim", ctypes.c_int),
        ("format", ctypes.c_char_p), ("shape", c_void_p), ("strides", c_void_p),
        ("suboffsets", c_void_p), ("internal", c_void_p),
    ]  # fmt: skip


_get_buffer = ctypes.pythonapi.PyObject_GetBuffer
_get_buffer.argtypes = (ctypes.py_object, ctypes.POINTER(_Py_buffer), ctypes.c_int)
_release_buffer = ctypes.pythonapi.PyBuffer_Release
_release_buffer.argtypes, _release_buffer.restype = (ctypes.POINTER(_Py_buffer),), None
_WRITABLE, _FORMAT, _CONTIGUOUS = 0x1, 0x4, 0x38
_BYTES, _FLOATS, _WORDS = ("B", 1), ("f", 4), ("I", 4)
_nowhere = ctypes.c_uint64()


class _Lent(NamedTuple):
    name: str
    buffer: Any
    element: tuple[str, int]
    written: bool


def _read(name: str, buffer: ReadableBuffer, element: tuple[str, int] = _BYTES) -> _Lent:
    return _Lent(name, buffer, element, False)


def _written(name: str, buffer: WriteableBuffer, element: tuple[str, int] = _BYTES) -> _Lent:
    return _Lent(name, buffer, element, True)


@contextmanager
def _lend(*lent: _Lent) -> Iterator[list[tuple[int, int]]]:
    """The pointer and the length of each buffer, which can't be moved or resized meanwhile."""
    views: list[_Py_buffer] = []
    try:
        for one in lent:
            _check_plain(one)
            view = _Py_buffer()
            flags = _FORMAT | _CONTIGUOUS | (_WRITABLE if one.written else 0)
            _get_buffer(one.buffer, byref(view), flags)
            views.append(view)
        for i, one in enumerate(lent):
            for j, other in enumerate(lent):
                if i != j and one.written and _overlap(views[i], views[j]):
                    raise ValueError(f"{one.name} overlaps {other.name}")
        yield [_slice(one, view) for one, view in zip(lent, views)]
    finally:
        for view in views:
            _release_buffer(byref(view))


def _check_plain(lent: _Lent) -> None:
    """Refuses masked arrays, by the name of their class: numpy may not be installed."""
    # A memoryview of a masked array is one too.
    owner = lent.buffer.obj if isinstance(lent.buffer, memoryview) else lent.buffer
    if any(kind.__name__ == "MaskedArray" for kind in type(owner).__mro__):
        name, value = lent.name, 'float("nan")' if lent.element == _FLOATS else "VALUE"
        raise TypeError(
            f"{name} is a masked array, and its mask would be ignored; make it a plain array: "
            f"{name} = {name}.filled({value})"
        )


def _overlap(a: _Py_buffer, b: _Py_buffer) -> bool:
    if not (a.len and b.len):
        return False
    return bool(a.buf < b.buf + b.len and b.buf < a.buf + a.len)


def _holds(format: str, letter: str) -> bool:
    """Whether a buffer of this format holds such elements, or bytes."""
    return format.lstrip("@=<") in ("B", "b", "c", letter)


def _slice(lent: _Lent, view: _Py_buffer) -> tuple[int, int]:
    letter, size = lent.element
    format = (view.format or b"B").decode()
    if not _holds(format, letter) or view.itemsize not in (1, size):
        raise TypeError(f"{lent.name} has elements '{format}', not '{letter}' or bytes")
    # Bytes that end within an element count as length 0, which is refused.
    length = 0 if view.len % size else view.len // size
    # An empty buffer may have a null pointer.
    pointer = view.buf if length else ctypes.addressof(_nowhere)
    if pointer % size:
        raise ValueError(f"{lent.name} does not begin at a multiple of {size} bytes")
    return pointer, length


# Cells.


def cell_at(level: int, latitude: Latitude, longitude: Longitude) -> int:
    """The cell at a position. Level 0 to 14. Refused: 1, 2, 3."""
    cell = c_uint32()
    at = _microdegrees(latitude, Latitude), _microdegrees(longitude, Longitude)
    _call("cell_at", _whole("level", level), *at, byref(cell))
    return cell.value


def centre(level: int, cell: int) -> tuple[Latitude, Longitude]:
    """The centre of a cell. Level 0 to 14. Refused: 1, 4."""
    latitude, longitude = c_int32(), c_int32()
    words = _whole("level", level), _whole("cell", cell)
    _call("centre", *words, byref(latitude), byref(longitude))
    return Latitude(latitude.value), Longitude(longitude.value)


def step(level: int, cell: int, code: int | str) -> int:
    """The cell that a code leads to, given by its letter or number. Level 0 to 14.
    Refused: 1, 4, 7."""
    to = c_uint32()
    words = _whole("level", level), _whole("cell", cell), _code(code)
    _call("step", *words, byref(to))
    return to.value


def code(level: int, start: int, to: int) -> int:
    """The code that leads from one cell to another. Level 0 to 14. Refused: 1, 4, 7."""
    found = c_uint32()
    words = _whole("level", level), _whole("start", start), _whole("to", to)
    _call("code", *words, byref(found))
    return found.value


def touching(level: int, cell: int) -> tuple[int, ...]:
    """The cells that touch a cell, in ascending order. Level 0 to 14. Refused: 1, 4."""
    cells, count = (c_uint32 * _TOUCHING)(), c_uint32()
    words = _whole("level", level), _whole("cell", cell)
    _call("touching", *words, ctypes.addressof(cells), _TOUCHING, byref(count))
    return tuple(cells[: count.value])


# Borders.


def border_read(
    stored: ReadableBuffer, cells: WriteableBuffer | None = None
) -> tuple[int, memoryview]:
    """Reads a stored border into the first places of `cells`; returns its level and these places.
    Refused: for the level 10 or 11, then 1; for the start cell 10 or 11, then 4; for the number of
    codes 10 or 11, then 9; then 10, 12, 5, 7."""
    cells = array("I", bytes(4 * MAX_BORDER_CELLS)) if cells is None else cells
    level, count = c_uint32(), c_uint32()
    with _lend(_read("stored", stored), _written("cells", cells, _WORDS)) as (a, b):
        _call("border_read", *a, *b, byref(level), byref(count))
    return level.value, memoryview(cells).cast("B").cast("I")[: count.value]


def _cells(cells: Any) -> Any:
    """A buffer of cells as it is; the numbers of any other iterable in a buffer of their own."""
    _check_plain(_read("cells", cells, _WORDS))
    try:
        if _holds(memoryview(cells).format, "I"):
            return cells
    except TypeError:
        pass  # It is no buffer.
    # One cell more than a border can have is enough to be refused by 9.
    return array("I", [_whole("a cell", cell) for cell in islice(cells, MAX_BORDER_CELLS + 1)])


def border_write(
    level: int,
    cells: ReadableBuffer | Iterable[int],
    stored: WriteableBuffer | None = None,
) -> memoryview:
    """Writes a border in its stored form into the first bytes of `stored`; returns these bytes.
    `cells` is a buffer, or any iterable of numbers. Level 0 to 14.
    Refused: 1, 5 (no cells), 9, 4, 7, 5 (`stored` is too short)."""
    stored = bytearray(MAX_BORDER_BYTES) if stored is None else stored
    length = c_uint32()
    with _lend(_read("cells", _cells(cells), _WORDS), _written("stored", stored)) as (a, b):
        _call("border_write", _whole("level", level), *a, *b, byref(length))
    return memoryview(stored).cast("B")[: length.value]


# Masks.

_Out = TypeVar("_Out", bound="WriteableBuffer")
"""The type of a buffer for the result; if none is passed, the result is a bytearray."""


def mask_len(level: int) -> int:
    """The number of bytes in a mask, 4^level. Level 0 to 8. Refused: 1."""
    level = _whole("level", level)
    if level > MAX_MASK_LEVEL:
        raise Refused(1)
    return 1 << 2 * level


def _like(mask: ReadableBuffer) -> bytearray:
    return bytearray(memoryview(mask).nbytes)


def _rings(
    name: str,
    level: int,
    rings: int,
    mask: ReadableBuffer,
    out: WriteableBuffer | None,
    work: WriteableBuffer | None,
) -> WriteableBuffer:
    out = _like(mask) if out is None else out
    work = _like(mask) if work is None else work
    with _lend(_read("mask", mask), _written("out", out), _written("work", work)) as (a, b, c):
        _call(name, _whole("level", level), _whole("rings", rings), *a, *b, *c)
    return out


@overload
def grow(
    level: int,
    rings: int,
    mask: ReadableBuffer,
    out: None = None,
    work: WriteableBuffer | None = None,
) -> bytearray: ...
@overload
def grow(
    level: int, rings: int, mask: ReadableBuffer, out: _Out, work: WriteableBuffer | None = None
) -> _Out: ...
def grow(
    level: int,
    rings: int,
    mask: ReadableBuffer,
    out: WriteableBuffer | None = None,
    work: WriteableBuffer | None = None,
) -> WriteableBuffer:
    """The mask of the cells at most `rings` touching steps, 0 to 64, from a marked cell; `work`
    holds zeros afterwards. Level 0 to 8. Refused: 1, 5, 6."""
    return _rings("grow", level, rings, mask, out, work)


@overload
def shrink(
    level: int,
    rings: int,
    mask: ReadableBuffer,
    out: None = None,
    work: WriteableBuffer | None = None,
) -> bytearray: ...
@overload
def shrink(
    level: int, rings: int, mask: ReadableBuffer, out: _Out, work: WriteableBuffer | None = None
) -> _Out: ...
def shrink(
    level: int,
    rings: int,
    mask: ReadableBuffer,
    out: WriteableBuffer | None = None,
    work: WriteableBuffer | None = None,
) -> WriteableBuffer:
    """The mask of the cells from which every cell within `rings` touching steps, 0 to 64, is
    marked; `work` holds zeros afterwards. Level 0 to 8. Refused: 1, 5, 6."""
    return _rings("shrink", level, rings, mask, out, work)


@overload
def join(level: int, a: ReadableBuffer, b: ReadableBuffer, out: None = None) -> bytearray: ...
@overload
def join(level: int, a: ReadableBuffer, b: ReadableBuffer, out: _Out) -> _Out: ...
def join(
    level: int, a: ReadableBuffer, b: ReadableBuffer, out: WriteableBuffer | None = None
) -> WriteableBuffer:
    """The mask of the cells marked in `a` or in `b`. Level 0 to 8. Refused: 1, 5."""
    out = _like(a) if out is None else out
    with _lend(_read("a", a), _read("b", b), _written("out", out)) as (first, second, third):
        _call("join", _whole("level", level), *first, *second, *third)
    return out


def count(level: int, mask: ReadableBuffer) -> int:
    """The number of marked cells. Level 0 to 8. Refused: 1, 5."""
    number = c_uint32()
    with _lend(_read("mask", mask)) as (a,):
        _call("count", _whole("level", level), *a, byref(number))
    return number.value


def within(level: int, a: ReadableBuffer, b: ReadableBuffer) -> Within:
    """Whether every cell marked in `a` is marked in `b`. Level 0 to 8. Refused: 1, 5."""
    lacking = c_uint32()
    with _lend(_read("a", a), _read("b", b)) as (first, second):
        _call("within", _whole("level", level), *first, *second, byref(lacking))
    return Within(None if lacking.value == _NO_CELL else lacking.value)


@overload
def fill(level: int, border: ReadableBuffer, outside: int, out: None = None) -> bytearray: ...
@overload
def fill(level: int, border: ReadableBuffer, outside: int, out: _Out) -> _Out: ...
def fill(
    level: int, border: ReadableBuffer, outside: int, out: WriteableBuffer | None = None
) -> WriteableBuffer:
    """The mask of the cells that the outside cell can't reach by direct steps through unmarked
    cells, the border included. Level 0 to 8. Refused: 1, 4, 5, 8."""
    out = _like(border) if out is None else out
    with _lend(_read("border", border), _written("out", out)) as (a, b):
        _call("fill", _whole("level", level), *a, _whole("outside", outside), *b)
    return out


# Charts.


def chart_len(level: int) -> int:
    """The number of temperatures in a chart, and of ages, 8 x 4^level. Level 0 to 8. Refused: 1."""
    return 8 * mask_len(level)


def reading(
    level: int, cell: int, temperatures: ReadableBuffer, ages: ReadableBuffer
) -> Reading:
    """What a chart says about a cell: fresh at age 0, carried at ages 1 to 30, and a gap if the age
    is above 30 or the temperature is not in range, -5.0 to 45.0; NaN is not. Level 0 to 8.
    Refused: 1, 4, 5."""
    kind, temperature, days = c_uint32(), c_float(), c_uint32()
    words = _whole("level", level), _whole("cell", cell)
    with _lend(_read("temperatures", temperatures, _FLOATS), _read("ages", ages)) as (a, b):
        _call("reading", *words, *a, *b, byref(kind), byref(temperature), byref(days))
    if kind.value == 2:
        # The temperature is a NaN and the days are 255; neither is passed on.
        return Reading(Kind.GAP, None, None)
    return Reading((Kind.FRESH, Kind.CARRIED)[kind.value], temperature.value, days.value)


def day(
    level: int,
    limit: int,
    news: ReadableBuffer,
    cloud: ReadableBuffer,
    temperatures: WriteableBuffer,
    ages: WriteableBuffer,
) -> Summary:
    """One day of a chart, `temperatures` and `ages`, which are rewritten: new temperatures, the
    mask of the clouded cells, and `limit`, the number of days, 0 to 30, for which a temperature is
    carried. Level 0 to 8. Refused: 1, 5, 6."""
    number, coldest, warmest = c_uint32(), c_float(), c_float()
    lent = (
        _read("news", news, _FLOATS),
        _read("cloud", cloud),
        _written("temperatures", temperatures, _FLOATS),
        _written("ages", ages),
    )
    with _lend(*lent) as (a, b, c, d):
        words = _whole("level", level), _whole("limit", limit), *a, *b, *c, *d
        _call("day", *words, byref(number), byref(coldest), byref(warmest))
    return Summary(number.value, coldest.value, warmest.value)
