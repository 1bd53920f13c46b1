"""The boxes of geometries, of their points."""
from __future__ import annotations

import math
from array import array
from itertools import accumulate
from typing import Any, Iterator, List, Literal, NamedTuple, Optional, Tuple, Union, overload

from ._arrays import Arrays
from ._conversions import Limits, is_chosen
from ._degrees import numpy_of
from ._lists import Blobs, Listed, read_blobs
from ._rows import NO_PRECISION, Kind, Rows

_BOX = 4

Box = Tuple[Any, Any, Any, Any]


class Boxes:
    """Boxes of geometries: least x, least y, greatest x and greatest y of their points, as floats in degrees or 64-bit
    integers in units. ``boxes[0]`` and ``for box in boxes`` give tuples, or None if a geometry has no points or is a gap.

    `numpy.asarray(boxes)` has the shape (n, 4) and the type float64 or int64, and is on the same memory. Where there is
    no box it has NaN in degrees, and 0 in units: `is_empty` says which these are, as a mask for `numpy.ma.array`.
    """

    __slots__ = ("view", "is_empty", "precision")

    view: memoryview
    """The boxes as a buffer of four columns, of one row at least."""
    is_empty: memoryview
    """Of each geometry whether it has no box."""
    precision: Optional[memoryview]
    """In units of each box the decimals of these, and `NO_PRECISION` if there is no box; None in degrees."""

    def __init__(self, numbers: memoryview, is_empty: memoryview, precision: Optional[memoryview] = None) -> None:
        self.view, self.is_empty, self.precision = numbers, is_empty, precision

    def __len__(self) -> int:
        return len(self.is_empty)

    def __iter__(self) -> Iterator[Optional[Box]]:
        rows: List[Any] = self.view.tolist()
        return (None if empty else (box[0], box[1], box[2], box[3]) for box, empty in zip(rows, self.is_empty))

    @overload
    def __getitem__(self, key: int) -> Optional[Box]:
        ...

    @overload
    def __getitem__(self, key: slice) -> List[Optional[Box]]:
        ...

    def __getitem__(self, key: Union[int, slice]) -> Any:
        if isinstance(key, slice):
            return [self[place] for place in range(len(self))[key]]
        place, view = range(len(self))[key], self.view  # type: int, Any
        return None if self.is_empty[place] else tuple(view[place, column] for column in range(_BOX))

    def __eq__(self, other: object) -> bool:
        return isinstance(other, Boxes) and list(self) == list(other) and self.precision == other.precision

    __hash__ = None  # type: ignore[assignment]

    def __repr__(self) -> str:
        return f"<polytwkb.Boxes: {len(self)}, in {'degrees' if self.view.format == 'd' else 'units'}>"

    def __array__(self, dtype: Any = None, copy: Any = None) -> Any:
        import numpy

        made = numpy.asarray(self.view, dtype)[: len(self)]
        return made.copy() if copy else made

    def __reduce__(self) -> Tuple[Any, ...]:
        precision = None if self.precision is None else self.precision.tobytes()
        return _boxes_of, (self.view.format, self.view.tobytes(), self.is_empty.tobytes(), precision)


def _boxes_of(code: str, numbers: bytes, is_empty: bytes, precision: Optional[bytes] = None) -> Boxes:
    """Boxes of their bytes, and of a byte or two for each."""
    columns = memoryview(bytearray(numbers)).cast(code, [len(numbers) // (8 * _BOX), _BOX])
    return Boxes(
        columns, memoryview(is_empty).cast("?"), None if precision is None else memoryview(precision).cast("b")
    )


def _counts(arrays: Arrays) -> List[int]:
    """How many points each geometry has."""
    counts: List[int] = []
    for depth, own in zip(arrays.rows.depth, arrays.rows.counts):
        if not depth:
            counts.append(0)
        counts[-1] += own
    return counts


def _plain(arrays: Arrays) -> List[Optional[Box]]:
    """The boxes of geometries, or None."""
    xs, ys, ends = arrays.points.x.tolist(), arrays.points.y.tolist(), list(accumulate(_counts(arrays)))
    made: List[Optional[Box]] = []
    for start, end in zip([0, *ends], ends):
        x, y = xs[start:end], ys[start:end]
        made.append((min(x), min(y), max(x), max(y)) if x else None)
    return made


def _by_numpy(numpy: Any, arrays: Arrays) -> Tuple[Any, Any]:
    """The boxes of geometries in an array, and which have none."""
    table, points = numpy.asarray(arrays.rows), numpy.asarray(arrays.points)
    tops = (table["depth"] == 0).nonzero()[0]
    ends = numpy.concatenate(([0], numpy.cumsum(table["counts"].astype(numpy.int64))))
    begins, stops = ends[tops], ends[numpy.append(tops[1:], len(table)).astype(int)]
    empty = begins == stops
    boxes = numpy.full((len(tops), _BOX), numpy.nan if points.dtype.kind == "f" else 0, points.dtype)
    if len(points):
        # The points of one geometry end where those of the next one that has any begin.
        boxes[~empty, :2] = numpy.minimum.reduceat(points, begins[~empty])
        boxes[~empty, 2:] = numpy.maximum.reduceat(points, begins[~empty])
    return boxes, empty


class _Own(NamedTuple):
    """A row's own points: the geometry, the precision, and the places of the first of them and of the end."""

    geometry: int
    precision: int
    start: int
    end: int


def _own_points(rows: Rows) -> Iterator[_Own]:
    """Of each row that has points."""
    geometry, own, end = -1, 0, 0
    for depth, precision, count in zip(rows.depth, rows.precision, rows.counts):
        geometry += not depth
        own = own if precision == NO_PRECISION else precision
        end += count
        if count:
            yield _Own(geometry, own, end - count, end)


def _in_finest(listed: Listed) -> List[int]:
    """The precisions of the units of all geometries. Points of a collection whose members differ are put in units of the
    finest of them that has points. Raises ValueError if these do not fit."""
    rows, units = listed.arrays.rows, listed.arrays.points.flat
    finest = [precision for depth, precision in zip(rows.depth, rows.precision) if not depth]
    if int(Kind.COLLECTION) not in rows.kind.tolist():
        return finest
    own = list(_own_points(rows))
    for geometry in {row.geometry for row in own}:
        finest[geometry] = NO_PRECISION
    for row in own:
        finest[row.geometry] = max(finest[row.geometry], row.precision)
    for geometry, precision, start, end in own:
        if precision < finest[geometry]:
            more, place = 10 ** (finest[geometry] - precision), slice(2 * start, 2 * end)
            try:
                units[place] = array("q", [number * more for number in units[place]])
            except OverflowError:
                number = geometry if listed.places is None else listed.places[geometry]
                raise ValueError(
                    f"geometry {number}: its box has more than 64 bits in units of its finest member"
                ) from None
    return finest


def _in_places(listed: Listed, found: int) -> Tuple[array[Any], bytearray, Any]:
    """Memory for the boxes of all items, none of which has one yet; and the places of the geometries that were found."""
    count, code = listed.items or found, listed.arrays.points.format
    numbers = array(code, [math.nan if code == "d" else 0]) * (_BOX * max(count, 1))
    return numbers, bytearray(b"\1" * count), range(count) if listed.places is None else listed.places


def _boxes(numbers: array[Any], is_empty: bytearray, places: Any, finest: List[int]) -> Boxes:
    columns = memoryview(numbers).cast("B").cast(numbers.typecode, [len(numbers) // _BOX, _BOX])
    precisions = None
    if numbers.typecode == "q":
        precisions = memoryview(array("b", [NO_PRECISION]) * len(is_empty))
        for place, precision in zip(places, finest):
            precisions[place] = NO_PRECISION if is_empty[place] else precision
    return Boxes(columns, memoryview(is_empty).cast("?"), precisions)


def _of_listed(listed: Listed) -> Boxes:
    numpy, finest = numpy_of(), _in_finest(listed) if listed.arrays.points.format == "q" else []
    if numpy:
        boxes, empty = _by_numpy(numpy, listed.arrays)
        numbers, is_empty, places = _in_places(listed, len(boxes))
        chosen = numpy.asarray(places, int)
        numpy.frombuffer(numbers, boxes.dtype).reshape(-1, _BOX)[chosen] = boxes
        numpy.frombuffer(is_empty, bool)[chosen] = empty
        return _boxes(numbers, is_empty, places, finest)
    found = _plain(listed.arrays)
    numbers, is_empty, places = _in_places(listed, len(found))
    for place, box in zip(places, found):
        if box:
            numbers[_BOX * place : _BOX * (place + 1)] = array(numbers.typecode, box)
            is_empty[place] = 0
    return _boxes(numbers, is_empty, places, finest)


@overload
def boxes(
    blobs: Blobs, *, limits: Optional[Limits] = None, errors: Literal["raise"] = "raise", degrees: bool = True
) -> Boxes:
    ...


@overload
def boxes(
    blobs: Blobs, *, limits: Optional[Limits] = None, errors: Literal["collect"], degrees: bool = True
) -> Tuple[Boxes, List[Exception]]:
    ...


def boxes(blobs: Blobs, *, limits: Optional[Limits] = None, errors: str = "raise", degrees: bool = True) -> Any:
    """The boxes of the geometries of a stream of blobs, or of a list of blobs: `Boxes`, one for each geometry, with the
    least x, the least y, the greatest x and the greatest y of its points. They are computed from the points; a box that is
    in a blob is not looked at. They are in degrees, or with ``degrees=False`` in units: `Boxes.precision` has the decimals
    of each box, those of the geometry, and of a collection the most that a member with points has.

    Lists, gaps and `errors` are as in `geometries`. A geometry without points and a gap have no box. Raises ValueError if
    the box of a collection has more than 64 bits in units of its finest member.
    """
    collect = is_chosen("errors", errors, "collect")

    def result(listed: Listed) -> Any:
        made = _of_listed(listed)
        return (made, listed.refused()) if collect else made

    return read_blobs(blobs, limits, collect, result, degrees)
