"""Points in two columns."""
from __future__ import annotations

from array import array
from typing import Any, Iterator, List, Tuple, Union, overload


POINT = 16


class Points:
    """Points in two columns, x and y: floats in degrees, or 64-bit integers in units of 10^-precision.

    `numpy.asarray(points)` has the shape (n, 2) and the type float64 or int64, and is on the same memory. Without
    numpy points are a sequence of pairs: ``for x, y in points``, ``points[0]``, ``points[1:3]``. They can be pickled.
    """

    __slots__ = ("view",)

    view: memoryview
    """The points as a buffer of two columns."""

    def __init__(self, view: memoryview) -> None:
        self.view = view

    @property
    def format(self) -> str:
        """The type of a coordinate: ``"d"`` for floats in degrees, ``"q"`` for 64-bit integers in units."""
        return self.view.format

    @property
    def shape(self) -> Tuple[int, int]:
        """The number of points, and 2."""
        return len(self), 2

    @property
    def flat(self) -> memoryview:
        """All coordinates x, y, x, y, .. on the same memory."""
        return self.view.cast("B").cast(self.format) if len(self) else memoryview(array(self.format))

    @property
    def x(self) -> memoryview:
        """The first column, on the same memory: longitudes."""
        return self.flat[::2]

    @property
    def y(self) -> memoryview:
        """The second column, on the same memory: latitudes."""
        return self.flat[1::2]

    def tolist(self) -> List[List[Any]]:
        """A list [x, y] for each point."""
        numbers: List[Any] = self.view.tolist()
        return numbers

    def tobytes(self) -> bytes:
        """All coordinates as bytes, 16 for each point."""
        return self.view.tobytes()

    def __len__(self) -> int:
        return self.view.shape[0] if self.view.shape else 0

    def __iter__(self) -> Iterator[Tuple[Any, Any]]:
        return zip(self.x, self.y)

    @overload
    def __getitem__(self, key: int) -> Tuple[Any, Any]:
        ...

    @overload
    def __getitem__(self, key: slice) -> Points:
        ...

    @overload
    def __getitem__(self, key: Tuple[int, int]) -> Any:
        ...

    def __getitem__(self, key: Union[int, slice, Tuple[int, int]]) -> Any:
        view: Any = self.view
        if isinstance(key, tuple):
            return view[key]
        if not isinstance(key, slice):
            return view[key, 0], view[key, 1]
        chosen = range(len(self))[key]
        if chosen.step == 1:
            return Points(self.view[chosen.start : max(chosen.start, chosen.stop)])
        return in_columns(array(self.format, [number for place in chosen for number in self[place]]))

    def __eq__(self, other: object) -> bool:
        return isinstance(other, Points) and self.view == other.view

    __hash__ = None  # type: ignore[assignment]

    def __repr__(self) -> str:
        return f"<polytwkb.Points: {len(self)}, in {'degrees' if self.format == 'd' else 'units'}>"

    def __array__(self, dtype: Any = None, copy: Any = None) -> Any:
        import numpy

        made = numpy.asarray(self.view, dtype)
        return made.copy() if copy else made

    def __buffer__(self, flags: int) -> memoryview:
        return self.view

    def __reduce__(self) -> Tuple[Any, ...]:
        return _points_of, (self.format, self.tobytes())


def points_on(flat: memoryview, count: int) -> Points:
    """So many points on memory that has room for one at least, since no two columns could be made of nothing."""
    return Points(flat.cast("B").cast(flat.format, [max(count, 1), 2])[:count])


def in_columns(flat: array[Any]) -> Points:
    """The points of an array x, y, x, y, .., which grows by one."""
    count = len(flat) // 2
    flat.extend(array(flat.typecode, bytes(2 * flat.itemsize)))
    return Points(memoryview(flat).cast("B").cast(flat.typecode, [count + 1, 2])[:count])


def _points_of(code: str, numbers: bytes) -> Points:
    """Points of the bytes of their coordinates."""
    return in_columns(array(code, numbers))
