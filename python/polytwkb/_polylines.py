"""Lists of points to encoded polylines and back."""
from __future__ import annotations

from array import array
from typing import Any, Callable, List, Optional, Tuple, TypeVar, Union

from ._columns import POINT
from ._conversions import Buffer, _bytes
from ._degrees import degrees_of
from ._library import encode_in_place, filled, library, some_bytes
from ._memory import borrowed
from ._points import PointsLike, outside, units_of, whole_view
from ._reasons import Status
from ._refused import Refused
from ._rounding import power

_GO_ON = bytes(range(95, 127))


def encode(points: PointsLike, *, precision: Optional[int] = None) -> str:
    """The encoded polyline of points (x, y): x is the longitude and y the latitude, though the text has the latitude first.

    Without a precision, coordinates are whole numbers and pass unchanged: pairs, or a buffer of signed 64-bit integers x, y, x, y, ..
    (flat, as an array of type ``"q"``, or of two columns), which is faster. With a precision from -8 to 7, coordinates are decimal degrees:
    pairs (int, float, Decimal, Fraction), or a buffer of floats in the same forms, which is faster. Each becomes the whole number nearest
    to it times 10^precision, of two the one farther from 0, as in Google's algorithm, whose precision is 5. A float that is the nearest
    one to a half counts as that half, up to 10^14 units: docs/FORMATS.md has the rule.

    Raises Refused, with the point from 0 as its place, if a coordinate is outside -2^62 to 2^62 - 1; ValueError if one is not finite, or
    for a precision out of range; TypeError for other types, other shapes and masked arrays. No one may write to integers in a buffer
    meanwhile, no loop of numpy and no other process either: they are read in place.
    """
    precision = None if precision is None else power(precision)
    if precision is None and not isinstance(points, bytes):
        view = whole_view(points, "give a precision")
        if view is not None:
            return _encoded_buffer(view)
    units, more = units_of(points, precision)
    return _encoded(library.polytwkb_encode, units.buffer_info()[0] if units else b"", len(units) // 2, more)


def _encoded_buffer(view: memoryview) -> str:
    """The polyline of the points in a buffer: not copied, if that can be."""
    given = borrowed(view if view.c_contiguous else memoryview(view.tobytes()))
    call = library.polytwkb_encode if isinstance(given, bytes) else encode_in_place
    return _encoded(call, given, view.nbytes // POINT)


def _encoded(call: Callable[..., Any], flat: Any, count: int, more: bool = False) -> str:
    """The polyline of so many points; there are more, if the one after these is out of range. Four characters a number are the first guess."""
    report, text = filled(call, flat, count, 8 * count + 26, some_bytes)
    if report.status == Status.REFUSED or more:
        raise outside(report.place if report.status == Status.REFUSED else count)
    return str(memoryview(text)[: report.sent], "ascii")


def _some_points(count: int) -> array[int]:
    """Room for so many points, and for one where that is 0."""
    return array("q", (0,)) * (2 * max(count, 1))


_Result = TypeVar("_Result")


def _decoded(text: Union[str, Buffer], result: Callable[[array[int]], _Result]) -> _Result:
    """What `result` makes of the coordinates of a text, x before y."""
    given = (
        text.encode("utf-8", "surrogatepass") if isinstance(text, str) else _bytes(text, "a polyline is a str or bytes")
    )
    numbers = len(given.translate(None, _GO_ON))
    report, flat = filled(library.polytwkb_decode, given, len(given), numbers // 2, _some_points)
    del flat[2 * report.sent :]
    if report.status == Status.REFUSED:
        place = report.text_offset
        raise Refused(report.reason, f"polyline at {place}", place, place, 0, result(flat))
    return result(flat)


def decode_flat(text: Union[str, Buffer]) -> array[int]:
    """The points of an encoded polyline as an array of type ``"q"``: x, y, x, y, .. (longitude before latitude).

    Raises Refused, with the byte of the text as its place, if the text is no polyline; TypeError for what is no str and no
    buffer.
    """
    return _decoded(text, lambda flat: flat)


def decode(text: Union[str, Buffer], *, precision: Optional[int] = None) -> List[Tuple[Any, Any]]:
    """The points (x, y) of an encoded polyline: x is the longitude and y the latitude, though the text has the latitude first.

    Without a precision they are whole numbers; with one, from -8 to 7, floats in degrees: each the one nearest to its whole number times
    10^-precision. Raises Refused, with the byte of the text as its place, if the text is no polyline; ValueError for a precision out of
    range; TypeError for what is no str and no buffer.
    """
    if precision is None:
        return _decoded(text, lambda flat: list(zip(flat[::2], flat[1::2])))
    decimals = power(precision)

    def degrees(flat: array[int]) -> List[Tuple[Any, Any]]:
        numbers = degrees_of(memoryview(flat), decimals)
        return list(zip(numbers[::2], numbers[1::2]))

    return _decoded(text, degrees)
