"""Streams of blobs as rows and points in arrays."""
from __future__ import annotations

from array import array
from typing import Any, NamedTuple, Optional, Tuple

from ._columns import POINT, Points, points_on
from ._conversions import Buffer, Limits, _bytes, _limits
from ._degrees import to_degrees
from ._memory import Memory, shortened
from ._reading import END, Part, of_counts, read_all
from ._reasons import Status
from ._rows import ROW, Rows


class _Pair(NamedTuple):
    rows: Rows
    points: Points


class Arrays(_Pair):
    """Geometries in arrays: a pair of rows and points.

    * ``rows``: `Rows`, one for each row of the table of these geometries;
    * ``points``: `Points`, those of all rows in their order, of shape (n, 2): in degrees, float64, or in units of
      10^-precision, int64.
    """

    _part: Optional[Part] = None
    _begin: int = 0
    _offsets: Optional[array[int]] = None

    @property
    def offsets(self) -> array[int]:
        """Where the blob of each geometry begins in the stream, in bytes, and where the last one ends: 64-bit integers,
        one more than there are geometries. Raises AttributeError if the arrays were made by hand, of rows and points.
        """
        part = self._part
        if self._offsets is None and part:
            self._offsets, self._part = part.offsets(self._begin), None
        if self._offsets is None:
            raise AttributeError("these arrays were not read from a stream: Packed(write(rows, points)) has offsets")
        return self._offsets

    def __reduce__(self) -> Tuple[Any, ...]:
        return _arrays_of, (self.rows, self.points, self.offsets if self._part else self._offsets)


def _arrays_of(rows: Rows, points: Points, offsets: Optional[array[int]]) -> Arrays:
    arrays = Arrays(rows, points)
    arrays._offsets = offsets
    return arrays


def in_arrays(rows: Memory, points: Memory, row_count: int, point_count: int, degrees: bool) -> Arrays:
    """So many rows and points in memory, without a copy."""
    rows, points = shortened(rows, ROW * row_count), shortened(points, POINT * point_count)
    found = Rows(memoryview(rows)[: ROW * row_count])
    view = memoryview(points)[: max(point_count, 1) * POINT].cast("q")
    return Arrays(found, points_on(to_degrees(found, view) if degrees else view, point_count))


def arrays_of(part: Part, degrees: bool, begin: int = 0) -> Arrays:
    """What was read, of a stream from that byte on."""
    counts = part.counts
    arrays = in_arrays(part.rows, part.points, counts.rows, counts.points, degrees)
    none = bytearray()
    arrays._part = Part(counts, none, none, shortened(part.ends, END * counts.done))
    arrays._begin = begin
    return arrays


def read(blobs: Buffer, *, limits: Optional[Limits] = None, degrees: bool = True) -> Arrays:
    """The geometries of a stream of blobs as rows and points, in their order.

    Points have the shape (n, 2). They are in degrees (float64): each coordinate is the float nearest to the number of
    units times 10^-precision, and the precision is that of the geometry which the row is in. With ``degrees=False``
    they are the units (int64), exact, and no work is done on them; the default takes several times as long as that in
    a program which has not imported numpy.

    Raises Refused at the first item that is wrong, with its byte as the place; its `output` has the rows and points of
    the blobs before. Raises TypeError for what is no buffer.
    """
    given = _bytes(blobs, "a stream of blobs is bytes")
    part = read_all(given, 0, len(given), _limits(limits))
    arrays = arrays_of(part, degrees)
    if part.counts.status == Status.REFUSED:
        raise of_counts(part.counts, arrays)
    return arrays
