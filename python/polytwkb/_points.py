"""Points as they are given, as pairs or in a buffer, to whole numbers in a buffer; units to degrees and back."""
from __future__ import annotations

import math
import operator
from array import array
from decimal import Decimal
from itertools import islice
from typing import Any, Iterable, Iterator, List, Optional, Tuple, Type, Union

from ._columns import POINT, Points, in_columns, points_on
from ._conversions import Buffer
from ._degrees import degrees_of
from ._library import library
from ._memory import address_of, memory_of
from ._reasons import Reason, Status
from ._refused import Refused
from ._rounding import NotFinite, nearest, power, rounded

LEAST, MOST = -(1 << 62), (1 << 62) - 1
# Numbers that are converted at once.
_PIECE = 1 << 13

PointsLike = Union[Points, Buffer, "array[Any]", Iterable[Tuple[Any, Any]]]


def outside(place: int) -> Refused:
    """The refusal of a point."""
    return Refused(Reason.POLYLINE_RANGE, f"point {place}", place, 0, 0, "")


def view_of(given: Any) -> Optional[memoryview]:
    """A view of a buffer, or None if it is none, as is an array of objects."""
    if isinstance(given, Points):
        return given.view
    try:
        view = memoryview(given)
    except (TypeError, ValueError):
        return None
    if hasattr(given, "mask"):
        raise TypeError(
            "an array is masked, and what is under a mask is no number: its method filled or compressed makes one without"
        )
    # The buffer of an array of objects has their addresses.
    return None if "O" in view.format else view


def is_of(view: memoryview, formats: Iterable[str], size: int) -> bool:
    return view.format.lstrip("@=<") in formats and view.itemsize == size


def is_of_floats(view: memoryview) -> bool:
    """Whether a view has floats of 64 or 32 bits."""
    return is_of(view, "d", 8) or is_of(view, "f", 4)


def _checked(view: memoryview) -> memoryview:
    """The view of a buffer that has x and y of each point, flat or in two columns."""
    if (
        view.nbytes % (2 * view.itemsize) != 0
        or view.ndim not in (1, 2)
        or view.ndim == 2
        and (view.shape or (0, 0))[1] != 2
    ):
        raise TypeError("a buffer of points has x and y of each: one dimension, or two columns")
    return view


def whole_view(points: Any, of_floats: str) -> Optional[memoryview]:
    """A view of a buffer of signed 64-bit integers; None if it is no buffer. It says of a buffer of floats what to do."""
    view = view_of(points)
    if view is None:
        return None
    if is_of(view, ("d", "f", "e"), view.itemsize):
        raise TypeError(f"a buffer of points has signed 64-bit integers here, not floats: {of_floats}")
    if not is_of(view, ("q", "l"), 8):
        raise TypeError(f"a buffer of points has signed 64-bit integers, not items of format {view.format!r}")
    return _checked(view)


def flat_of(view: memoryview) -> memoryview:
    """The items of a view in their order, in one dimension."""
    if view.ndim == 1 and view.c_contiguous and view.format in "qdfl":
        return view
    if not view.nbytes:
        return memoryview(array(view.format[-1]))
    flat = view if view.c_contiguous else memoryview(view.tobytes())
    return flat.cast("B").cast(view.format[-1])


def floats_view(points: Any) -> Optional[memoryview]:
    """The floats of a buffer of points, in one dimension; None if it is no buffer of floats."""
    view = view_of(points)
    return flat_of(_checked(view)) if view is not None and is_of_floats(view) else None


def own_floats(floats: memoryview) -> bytes:
    """The floats of a view in one dimension, of 64 bits, in memory that no one writes to."""
    return floats.tobytes() if floats.format == "d" else array("d", floats).tobytes()


def unit(number: Any, precision: Optional[int]) -> int:
    """The units of a coordinate."""
    try:
        return operator.index(number) if precision is None else nearest(number, precision)
    except TypeError:
        known = (
            "is no whole number: give a precision"
            if isinstance(number, (float, Decimal))
            else f"is a number, not {type(number).__name__}"
        )
        raise TypeError(f"a coordinate {known}") from None


def placed(fault: Exception, where: str) -> Exception:
    """The TypeError or ValueError that says where it is."""
    kind: Type[Exception] = TypeError if isinstance(fault, TypeError) else ValueError
    return kind(f"{where}: {fault}")


def clipped(number: int) -> int:
    """The number; if 64 bits cannot hold it, one that is out of the range of coordinates too."""
    return min(max(number, LEAST - 1), MOST + 1)


def _one_by_one(numbers: List[Any], precision: Optional[int], first: int) -> array[int]:
    """The units of coordinates, up to the first point that has one of more than 64 bits; `first` is the place of the first point."""
    units = array("q")
    for place, pair in enumerate(zip(numbers[::2], numbers[1::2]), first):
        try:
            units.extend(array("q", [unit(number, precision) for number in pair]))
        except (TypeError, ValueError) as fault:
            raise placed(fault, f"point {place}") from None
        except OverflowError:
            break
    return units


def _at_once(numbers: Any, precision: Optional[int]) -> Optional[array[int]]:
    """The units of coordinates; None if they have to be made one by one. Those that are rounded are in range."""
    if precision is not None:
        return rounded(numbers, precision)
    try:
        return array("q", map(operator.index, numbers))
    except (TypeError, OverflowError):
        return None


def _check_range(units: Iterable[int], first: int) -> None:
    """Raises Refused at the first unit that is out of range."""
    for place, number in enumerate(units):
        if not LEAST <= number <= MOST:
            raise outside(first + place // 2)


def pieces_of_pairs(points: Iterable[Any]) -> Iterator[List[Any]]:
    """Lists of coordinates x, y, x, y, .. of pairs. What is no pair raises TypeError after the coordinates before it."""
    points, done = iter(points), 0
    for piece in iter(lambda: list(islice(points, _PIECE // 2)), []):
        numbers: List[Any] = []
        fault = None
        try:
            for x, y in piece:
                numbers += (x, y)
        except (TypeError, ValueError):
            place = len(numbers) // 2
            fault = TypeError(f"point {done + place} is a pair of numbers, not {piece[place]!r}")
        yield numbers
        if fault:
            raise fault
        done += len(piece)


def _pieces(points: Any, precision: Optional[int]) -> Iterator[Any]:
    """Lists or views of coordinates."""
    view = view_of(points)
    if view is None:
        return pieces_of_pairs(points)
    if precision is not None and is_of_floats(view):
        flat = flat_of(_checked(view))
        return (flat[start : start + _PIECE] for start in range(0, len(flat), _PIECE))
    if isinstance(points, memoryview):
        return pieces_of_pairs(listed(view))
    return pieces_of_pairs(points)


def listed(view: memoryview) -> List[Any]:
    """The points of a view as lists: a view of two columns has no rows to give."""
    try:
        return view.tolist()
    except (NotImplementedError, ValueError):
        raise TypeError(f"points are pairs of numbers, not items of format {view.format!r}") from None


def units_of(points: Any, precision: Optional[int], in_range: bool = False) -> Tuple[array[int], bool]:
    """The coordinates of points as units, flat, up to the first point that has one of more than 64 bits, and whether there is such a point.
    Without a precision coordinates are whole numbers. Raises Refused for one that has a precision and is out of range, if that is asked.
    """
    if isinstance(points, (str, bytes)):
        raise TypeError(f"points are pairs of numbers, not {type(points).__name__}")
    units = array("q")
    for numbers in _pieces(points, precision):
        some, first = _at_once(numbers, precision), len(units) // 2
        if some is None:
            some = _one_by_one(list(numbers), precision, first)
            _check_range(some if in_range else (), first)
        units.frombytes(memoryview(some).cast("B"))
        if len(some) < len(numbers):
            return units, True
    return units, False


def _of_floats(floats: memoryview, precision: int) -> Points:
    """The units of floats, all at once."""
    own, count = own_floats(floats), len(floats)
    memory = memory_of(max(8 * count, POINT))
    report = library.polytwkb_round(own, count, precision, address_of(memory), count)
    if report.status == Status.REFUSED:
        number = memoryview(own).cast("d")[report.place]
        if math.isfinite(number):
            raise outside(report.place // 2)
        raise placed(NotFinite(report.place, number), f"point {report.place // 2}")
    return points_on(memoryview(memory)[: max(8 * count, POINT)].cast("q"), count // 2)


def in_units(points: PointsLike, precision: int) -> Points:
    """Points in decimal degrees as whole numbers of units of 10^-precision, rounded as `encode` rounds: `Points` of shape
    (n, 2) and type int64, which `numpy.asarray` takes without a copy.

    Points are a buffer of floats (float64, float32), flat or of two columns, or pairs (int, float, Decimal, Fraction).
    Raises Refused, with the point from 0 as its place, if a coordinate is outside -2^62 to 2^62 - 1; ValueError if one
    is not finite, or for a precision outside -8 to 7; TypeError for other types, other shapes and masked arrays.
    """
    precision, floats = power(precision), floats_view(points)
    if floats is not None:
        return _of_floats(floats, precision)
    units, more = units_of(points, precision, in_range=True)
    if more:
        raise outside(len(units) // 2)
    return in_columns(units)


def in_degrees(points: PointsLike, precision: int) -> Points:
    """Points in whole numbers of units of 10^-precision as decimal degrees, each the float nearest to it: `Points` of
    shape (n, 2) and type float64, which `numpy.asarray` takes without a copy. All points have one precision; `read`
    gives degrees of rows whose precisions differ.

    Points are a buffer of signed 64-bit integers, flat or of two columns, as ``read(.., degrees=False)`` gives it, or
    pairs of whole numbers. Raises Refused, with the point from 0 as its place, if a whole number has more than 64 bits;
    ValueError for a precision outside -8 to 7; TypeError for floats and other types, other shapes and masked arrays.
    """
    precision = power(precision)
    view = whole_view(points, "in_degrees is given units, and makes floats of them")
    if view is not None:
        return in_columns(degrees_of(flat_of(view), precision))
    flat, more = units_of(points, None)
    if more:
        raise outside(len(flat) // 2)
    return in_columns(degrees_of(memoryview(flat), precision))
