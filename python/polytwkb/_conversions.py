"""Tables to streams, and streams to tables, headers and blobs."""
from __future__ import annotations

import functools
import mmap
import operator
import struct
from array import array
from typing import Any, Callable, Dict, List, NamedTuple, Optional, Protocol, Tuple, TypeVar, Union

from ._library import CLimits, filled, library, options_of, some_bytes
from ._offsets import Packed
from ._reading import of_counts, offsets_read
from ._reasons import Status
from ._refused import of_report


class Conversion:
    """The numbers of the conversions, as in include/polytwkb.h."""

    PACK = 0
    UNPACK = 1
    SHOW = 2
    GEOJSON = 3
    HEADERS = 4


class NumpyArray(Protocol):
    """What an array of numpy is known by: it has a buffer too."""

    @property
    def __array_interface__(self) -> Dict[str, Any]:
        ...


Buffer = Union[bytes, bytearray, memoryview, "array[Any]", mmap.mmap, NumpyArray]
_Result = TypeVar("_Result")


class Limits(NamedTuple):
    """The most that one geometry may have, its members included. A call that is given a number out of its range raises
    ValueError, and TypeError for what is no `Limits` and for a number that is not whole."""

    nest: int = 16
    """Collections that a geometry may be in, 0 to 32."""
    nodes: int = 1 << 20
    """Rows, 1 to 2^20."""
    points: int = 1 << 24
    """Points, 0 to 2^24."""


class Header(NamedTuple):
    """A TWKB header in a stream, as `polytwkb show` lists it."""

    level: int
    """How many collections it is in: 0 for a blob."""
    offset: int
    """Where it begins, in bytes from the start of the stream."""
    kind: str
    """point, linestring, polygon, multipoint, multilinestring, multipolygon or collection."""
    precision: int
    """Decimals of the coordinates, -8 to 7."""
    metadata: int
    """The metadata byte."""
    length: int
    """Bytes, from its first byte to the last of its geometry."""
    points: int
    """Points of its geometry."""


# The formats of buffers of numbers.
_NUMBERS = set("cbB?hHiIlLqQnNefd")
_RANGES = ((0, 32), (1, 1 << 20), (0, 1 << 24))
_STYLES = {"full": 0, "plain": 1}
# Tables have two to three times as many bytes as their streams, and GeoJSON and headers of most up to seven. What is not
# written takes no memory.
_ROOM, _LARGE_ROOM = 4, 8
# A header as the library writes it: offset, length, points, level, kind, precision, metadata.
_HEADER = struct.Struct("<QQQIBbBx")
_KINDS = ("", "point", "linestring", "polygon", "multipoint", "multilinestring", "multipolygon", "collection")


def _limits(limits: Optional[Limits]) -> CLimits:
    """The limits as C has them: ctypes would cut a number that is too large."""
    if limits is None:
        limits = Limits()
    elif not isinstance(limits, tuple) or len(limits) != 3:
        raise TypeError(f"limits are a polytwkb.Limits, not {type(limits).__name__}")
    numbers = [operator.index(limit) for limit in limits]
    for name, number, (least, most) in zip(Limits._fields, numbers, _RANGES):
        if not least <= number <= most:
            raise ValueError(f"{name} is from {least} to {most}, not {number}")
    return CLimits(*numbers)


def _bytes(given: Any, what: str) -> bytes:
    """The bytes of a buffer. Those of one that can change are copied, since the library runs beside other threads."""
    if isinstance(given, bytes):
        return given
    try:
        view = memoryview(given)
    except (TypeError, ValueError):
        raise TypeError(f"{what}, not {type(given).__name__}") from None
    if view.format.lstrip("@=<>!") not in _NUMBERS:
        raise TypeError(f"{what}, not {type(given).__name__} with items of format {view.format!r}")
    return view.tobytes()


def style_of(style: str) -> int:
    """The number of a style."""
    if not isinstance(style, str):
        raise TypeError(f"a style is a str, not {type(style).__name__}")
    if style not in _STYLES:
        raise ValueError(f"a style is 'full' or 'plain', not {style!r}")
    return _STYLES[style]


def is_chosen(name: str, word: str, other: str) -> bool:
    """Whether an option, which is 'raise' or another word, is the other one."""
    if not isinstance(word, str):
        raise TypeError(f"{name} is a str, not {type(word).__name__}")
    if word not in ("raise", other):
        raise ValueError(f"{name} is 'raise' or {other!r}, not {word!r}")
    return word == other


def table_bytes(table: Union[str, Buffer]) -> bytes:
    """The bytes of a table."""
    return (
        table.encode("utf-8", "surrogatepass") if isinstance(table, str) else _bytes(table, "a table is a str or bytes")
    )


def _converted(
    conversion: int,
    given: bytes,
    room: int,
    result: Callable[[memoryview], _Result],
    limits: Optional[Limits],
    style: int = 0,
) -> _Result:
    """What `result` makes of the bytes that a conversion writes."""
    call = functools.partial(library.polytwkb_convert, conversion)
    options = options_of(_limits(limits), style)
    report, output = filled(call, given, len(given), room, some_bytes, options, len(options))
    found = result(memoryview(output)[: report.sent])
    if report.status == Status.REFUSED:
        raise of_report(report, found)
    return found


def _listed(
    conversion: int, blobs: Buffer, times: int, result: Callable[[memoryview], _Result], limits: Optional[Limits]
) -> _Result:
    """What `result` makes of what is written for a stream: so many times as many bytes, by a first guess."""
    given = _bytes(blobs, "a stream of blobs is bytes")
    return _converted(conversion, given, times * len(given) + 64, result, limits)


def _text(output: memoryview) -> str:
    return str(output, "ascii")


def _headers(output: memoryview) -> List[Header]:
    return [
        Header(level, offset, _KINDS[kind], precision, metadata, length, points)
        for offset, length, points, level, kind, precision, metadata in _HEADER.iter_unpack(output)
    ]


def pack(table: Union[str, Buffer], *, style: str = "full", limits: Optional[Limits] = None) -> bytes:
    """Packs a table to a stream of blobs: with sizes and boxes, or ``"plain"``, without either.

    Raises Refused at the first record that is wrong; its `output` has the blobs of the geometries before. Raises TypeError
    if the table is no str and no buffer, ValueError for another style.
    """
    number, given = style_of(style), table_bytes(table)
    return _converted(Conversion.PACK, given, len(given) + 64, bytes, limits, number)


def unpack(blobs: Buffer, *, limits: Optional[Limits] = None) -> str:
    """Unpacks a stream of blobs to a table.

    Raises Refused at the first item that is wrong; its `output` has the table of the blobs before. Raises TypeError for
    what is no buffer.
    """
    return _listed(Conversion.UNPACK, blobs, _ROOM, _text, limits)


def to_geojson(blobs: Buffer, *, limits: Optional[Limits] = None) -> str:
    """The geometries of a stream of blobs as text of GeoJSON, a line for each: ``text.splitlines()`` is a list of them.

    Coordinates are exact decimals, so no number is rounded to a float: 7.5 at precision 5 is ``7.5``. Members with ids
    give the geometry a member ``ids``, before its coordinates. A point without coordinates has ``[]``.

    Raises Refused at the first item that is wrong; its `output` has the lines of the blobs before. Raises TypeError for
    what is no buffer.
    """
    return _listed(Conversion.GEOJSON, blobs, _LARGE_ROOM, _text, limits)


def show(blobs: Buffer, *, limits: Optional[Limits] = None) -> List[Header]:
    """The headers in a stream, in their order. A header of level 0 is that of a blob, those of higher levels are inside it.

    Raises Refused at the first item that is wrong; its `output` has the headers of the blobs before. Raises TypeError for
    what is no buffer.
    """
    return _listed(Conversion.HEADERS, blobs, _LARGE_ROOM, _headers, limits)


def split(blobs: Buffer, *, limits: Optional[Limits] = None) -> List[bytes]:
    """The blobs of a stream, each as bytes of its own. Those of a `Packed` that have sizes are found by them, without
    reading the stream.

    Raises Refused at the first item that is wrong; its `output` has the blobs before. Raises TypeError for what is no
    buffer.
    """
    if isinstance(blobs, Packed) and limits is None:
        return [blob for blob in blobs.blobs if blob is not None]
    given = _bytes(blobs, "a stream of blobs is bytes")
    counts, offsets = offsets_read(given, _limits(limits))
    found = [given[start:end] for start, end in zip(offsets, offsets[1:])]
    if counts.status == Status.REFUSED:
        raise of_counts(counts, found)
    return found


def _lines(headers: List[Header]) -> bytes:
    """The lines of `show`."""
    return "".join(
        f"{h.level} {h.offset} {h.kind} {h.precision} {h.metadata:02X} {h.length} {h.points}\n" for h in headers
    ).encode()


# Each conversion of the command: what it does, its call, and the bytes of what that returns.
COMMANDS: Dict[str, Tuple[str, Callable[..., Any], Callable[[Any], bytes]]] = {
    "pack": (
        "Reads a table and writes a stream of blobs, one for each geometry",
        lambda given, words, limits: pack(given, style=words.style, limits=limits),
        bytes,
    ),
    "unpack": (
        "Reads a stream of blobs and writes a table, the header line first",
        lambda given, words, limits: (to_geojson if words.geojson else unpack)(given, limits=limits),
        str.encode,
    ),
    "show": (
        "Reads a stream of blobs and writes a line for each TWKB header in it",
        lambda given, words, limits: show(given, limits=limits),
        _lines,
    ),
}
