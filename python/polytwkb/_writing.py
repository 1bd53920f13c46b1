"""Rows and points in arrays as streams of blobs."""
from __future__ import annotations

import operator
import re
from array import array
from collections.abc import Mapping
from itertools import accumulate
from numbers import Integral
from typing import Any, Dict, NamedTuple, Optional, Sequence, Tuple, TypeVar, Union

from ._columns import POINT
from ._conversions import Buffer, Limits, _limits, style_of
from ._degrees import to_units
from ._gaps import gapped
from ._library import CLimits, library, write_in_place
from ._memory import Memory, address_of, borrowed, copied, memory_of
from ._offsets import Packed, packed_with
from ._points import PointsLike, clipped, floats_view, own_floats, pieces_of_pairs, placed, unit, view_of, whole_view
from ._reasons import Reason, Status
from ._refused import Refused
from ._rounding import NotFinite
from ._rows import NO_PRECISION, ROW, Rows

# The most bytes that a row and a point have in a blob: a header of 2, a size and a count of 10 each, a box of 40 and an id of 10; two numbers.
_MOST_OF_ROW, _MOST_OF_POINT = 72, 20
_FORMAT = re.compile(r"T\{[=<]?[ql]:id:[=<]?[QL]:counts:[=<]?I:depth:[=<]?H:kind:[=<]?\?:has_id:[=<]?b:precision:\}")
CODES = {"id": "q", "counts": "Q", "depth": "I", "kind": "H", "has_id": "B", "precision": "b"}
_LEFT_OUT = {"depth": 0, "precision": NO_PRECISION, "id": 0, "has_id": 0}
# Formats of buffers that have the items of another code.
_SAME = {"l": "q", "L": "Q", "?": "B"}

Column = Union[int, Sequence[Any], Buffer, "array[Any]", Any]
_Found = TypeVar("_Found")
RowsLike = Union[Rows, Buffer, "Mapping[str, Column]", Any]


def _numbers(name: str, values: Any) -> array[int]:
    """The numbers of a column in an array."""
    values = values.to_numpy() if hasattr(values, "to_numpy") else values
    view, code = view_of(values), CODES[name]
    form = view.format.lstrip("@=<") if view is not None and view.ndim == 1 else ""
    if view is not None and _SAME.get(form, form) == code:
        return array(code, view.tobytes())
    try:
        return array(code, values if view is None else view.tolist())
    except OverflowError:
        raise ValueError(f"the column {name!r} has a number that is out of range") from None
    except (TypeError, NotImplementedError):
        raise TypeError(f"the column {name!r} is a list or a buffer of whole numbers") from None


def _with_ids(columns: Dict[str, Any]) -> Dict[str, Any]:
    """The columns with one that says which rows have an id."""
    ids = columns.get("id")
    if ids is None or "has_id" in columns:
        return columns
    if isinstance(ids, Integral) or view_of(ids) is not None:
        return {**columns, "has_id": 1}
    ids = gapped(list(ids))
    return {
        **columns,
        "id": [0 if number is None else number for number in ids],
        "has_id": [int(number is not None) for number in ids],
    }


def rows_of(columns: Mapping[str, Any]) -> Rows:
    """Rows of their columns by name, each of which has the numbers of all rows, or one number for all."""
    unknown = set(columns) - set(CODES)
    if unknown or not {"kind", "counts"} <= set(columns):
        raise TypeError(
            f"rows have a kind and counts, and may have {', '.join(_LEFT_OUT)}: not the columns {', '.join(map(str, columns))}"
        )
    columns = _with_ids(dict(columns))
    numbers = {
        name: _numbers(name, values)
        for name, values in columns.items()
        if name == "counts" or not isinstance(values, Integral)
    }
    count = len(numbers["counts"])
    records = memoryview(bytearray(ROW * max(count, 1)))
    for name, (code, first, step) in Rows.places.items():
        if name not in numbers:
            numbers[name] = _numbers(name, (columns.get(name, _LEFT_OUT.get(name)),)) * count
        if len(numbers[name]) != count:
            raise ValueError(f"the columns 'counts' and {name!r} have {count} and {len(numbers[name])} rows")
        if count:
            records.cast(code)[first : first + step * count : step] = memoryview(numbers[name]).cast("B").cast(code)
    return Rows(records, count=count)


def _own_rows(rows: Any) -> Rows:
    """The rows that are given, in memory of their own."""
    if isinstance(rows, Rows):
        return Rows(copied(rows.records))
    view = view_of(rows)
    if view is None:
        if not isinstance(rows, Mapping) and not (hasattr(rows, "keys") and hasattr(rows, "to_numpy")):
            raise TypeError(
                f"rows are polytwkb.Rows, an array of Rows.dtype, columns by name or a frame, not {type(rows).__name__}"
            )
        return rows_of(dict(rows))
    if not (
        view.itemsize == 1 and view.format in ("B", "b", "c") or view.itemsize == ROW and _FORMAT.fullmatch(view.format)
    ):
        raise TypeError(f"an array of rows is one of Rows.dtype, not of items of format {view.format!r}")
    if view.ndim != 1 or view.nbytes % ROW:
        raise ValueError(f"an array of rows has one dimension, and {ROW} bytes for each row")
    return Rows(copied(_contiguous(view, "rows")))


def _contiguous(view: memoryview, what: str) -> memoryview:
    if not view.c_contiguous:
        raise ValueError(f"{what} lie one after the other in memory: numpy.ascontiguousarray makes them so")
    return view


def _place_of(rows: Rows, point: int) -> str:
    """The row that has a point, and the number of the point in it; after the last row there may be more points."""
    start = 0
    for row, end in enumerate(accumulate(rows.counts)):
        if point < end:
            return _point_in(row, point - start)
        start = end
    return _point_in(len(rows), point - start)


def _point_in(row: int, point: int) -> str:
    return f"row {row}: point {point}"


def _rounded(rows: Rows, degrees: Union[bytes, array[float]]) -> memoryview:
    """The units of floats."""
    try:
        return to_units(rows, degrees)
    except NotFinite as fault:
        raise ValueError(f"{_place_of(rows, fault.place // 2)}: {fault}") from None


def _precisions(rows: Rows) -> Any:
    """For each point in turn, the precision of its geometry; None if that is none, or if there is no more row."""
    precision = None
    for own, count in zip(rows.precision, rows.counts):
        precision = own if own != NO_PRECISION else precision
        valid = precision is not None and -8 <= precision <= 7
        for _ in range(count):
            yield precision if valid else None
    while True:
        yield None


def _of_pairs(rows: Rows, points: Any) -> memoryview:
    """The units of pairs of whole numbers; or of pairs of degrees, if one of them is no whole number."""
    if isinstance(points, str) or not hasattr(points, "__iter__"):
        raise TypeError(f"points are pairs of numbers, not {type(points).__name__}")
    numbers = [number for piece in pieces_of_pairs(points) for number in piece]
    try:
        return memoryview(array("q", map(operator.index, numbers)))
    except (TypeError, OverflowError):
        pass
    kinds = set(map(type, numbers))
    if kinds == {float}:
        return _rounded(rows, array("d", numbers))
    units, are_whole = array("q"), all(issubclass(kind, Integral) for kind in kinds)
    for place, (pair, precision) in enumerate(zip(zip(numbers[::2], numbers[1::2]), _precisions(rows))):
        precision = None if are_whole else 0 if precision is None else precision
        try:
            units.extend([clipped(unit(number, precision)) for number in pair])
        except (TypeError, ValueError) as fault:
            raise placed(fault, _place_of(rows, place)) from None
    return memoryview(units)


class Units(NamedTuple):
    """The coordinates of points in units, and whether nothing else has their memory."""

    view: memoryview
    is_own: bool


def _units(rows: Rows, points: Any) -> Units:
    """The units of points."""
    floats = floats_view(points)
    if floats is not None:
        return Units(_rounded(rows, own_floats(floats)), True)
    view = whole_view(points, "of 64 or 32 bits they are degrees")
    return Units(_of_pairs(rows, points), True) if view is None else Units(_contiguous(view, "points"), False)


def _written(
    rows: Rows, units: Units, room: int, ends: Optional[array[int]], limits: CLimits, style: int
) -> Tuple[Any, Memory]:
    """One writing into memory for so many bytes, with the ends of blobs if there is an array for them, whose first number is left out.
    Other threads run meanwhile if nothing else has the memory of points."""
    memory, records = memory_of(max(room, 1)), rows.records
    places = (address_of(memory), 0) if ends is None else (ends.buffer_info()[0] + ends.itemsize, len(ends) - 1)
    points = address_of(units.view) if units.is_own and units.view.nbytes else borrowed(units.view)
    call = library.polytwkb_write if units.is_own or isinstance(points, bytes) else write_in_place
    given = records.tobytes() if records.readonly or not len(rows) else address_of(records)
    count = units.view.nbytes // POINT
    return call(given, len(rows), points, count, address_of(memory), room, *places, limits, style, 0), memory


def _output(
    rows: Rows, units: Units, ends: Optional[array[int]], limits: CLimits, style: int
) -> Tuple[Any, memoryview]:
    """The report of a writing, and its bytes."""
    room = _MOST_OF_ROW * len(rows) + _MOST_OF_POINT * (units.view.nbytes // POINT)
    try:
        report, memory = _written(rows, units, room, ends, limits, style)
    except MemoryError:
        report, _ = _written(rows, units, 0, ends, limits, style)
        report, memory = _written(rows, units, report.needed, ends, limits, style)
    if report.status not in (Status.DONE, Status.REFUSED):
        raise MemoryError("out of memory")
    return report, memoryview(memory)[: report.sent]


def _where_of(report: Any) -> str:
    """The row that is refused, and which of its points, if that is out of range."""
    if report.reason == Reason.POINTS_LEFT:
        return ""
    return (
        _point_in(report.place, report.text_offset) if report.reason == Reason.POLYLINE_RANGE else f"row {report.place}"
    )


def _checked(report: Any, found: _Found) -> _Found:
    """What was written, unless the rows are refused."""
    if report.status == Status.REFUSED:
        raise Refused(report.reason, _where_of(report), report.place, report.text_offset, report.done, found)
    return found


def packed(rows: Rows, units: Units, limits: CLimits, style: int) -> Packed:
    """The stream of rows that nothing else has, and of units, with the places of its blobs."""
    offsets = array("q", bytes(8 * (len(rows) + 1)))
    report, output = _output(rows, units, offsets, limits, style)
    del offsets[report.done + 1 :]
    return _checked(report, packed_with(output, offsets))


def write(rows: RowsLike, points: PointsLike, *, style: str = "full", limits: Optional[Limits] = None) -> bytes:
    """Writes rows and their points to a stream of blobs: with sizes and boxes, or ``"plain"``, without either. What `read` gave becomes the
    canonical stream of the same geometries. `Packed` of the stream has single blobs and their places.

    Rows are `Rows`, an array of numpy of `Rows.dtype`, a frame of pandas, or a mapping of their columns by name, each a list or a buffer
    of whole numbers, or one number for all rows: ``kind`` and ``counts``; ``depth``, 0 if it is left out; ``precision``, `NO_PRECISION` if it is left out;
    ``id``, in a list None or another gap for none, and ``has_id``.

    Points are those of all rows in their order, flat or of shape (n, 2). Signed 64-bit integers are units of 10^-precision, and a buffer
    of them is contiguous. Floats (float64, float32) are degrees, and each is rounded, as `encode` rounds it, by the precision of the
    geometry that its row is in. Pairs are units if all are whole numbers, else degrees. Rows are copied, and so are floats; integers in a
    buffer that can be written are read in place: no one may write to them meanwhile, no loop of numpy and no other process either, and
    other threads of Python wait. Those in one that cannot be written (``points.flags.writeable = False``) are copied, and no thread waits.

    Raises Refused, with the row from 0 as its place, at the first row that is wrong, or if points are left over; its `output` has the
    blobs of the complete geometries before. If a point of the row is out of range, `text_offset` is the first such point, from 0. Raises
    ValueError for a coordinate that is not finite, an array that is not contiguous, columns of other lengths; TypeError for other types,
    other shapes and masked arrays.
    """
    number, most = style_of(style), _limits(limits)
    own = _own_rows(rows)
    report, output = _output(own, _units(own, points), None, most, number)
    return _checked(report, output.tobytes())
