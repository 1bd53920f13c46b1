"""Rows of geometries in memory."""
from __future__ import annotations

from enum import IntEnum
from typing import Any, Dict, Iterator, NamedTuple, Optional, Tuple, Union, overload

ROW = 24


class Kind(IntEnum):
    """Kinds of rows: the numbers of TWKB, and one for the rings of polygons."""

    POINT = 1
    LINESTRING = 2
    POLYGON = 3
    MULTIPOINT = 4
    MULTILINESTRING = 5
    MULTIPOLYGON = 6
    COLLECTION = 7
    RING = 8


NO_PRECISION = -128


class Row(NamedTuple):
    """One of `Rows`, with the same names."""

    id: int
    counts: int
    depth: int
    kind: int
    has_id: bool
    precision: int


class Rows:
    """Rows of geometries, as those of a table, with a count of points in place of the polyline. Each column is a view
    of all rows, without a copy:

    * ``depth`` (uint32): 0 begins a geometry; its parts are the rows after it that are one deeper;
    * ``kind`` (uint16): a number of `Kind`;
    * ``counts`` (uint64): how many points are the row's own: the next ones of the list of points;
    * ``precision`` (int8): decimals, -8 to 7, of a geometry and of each member of a collection; `NO_PRECISION` in
      rings and in parts of multi kinds, whose points have the precision of the geometry that they are in;
    * ``id`` (int64), ``has_id`` (bool): the id of a part, or 0 and False.

    `numpy.asarray(rows)` has all columns in one array of type `Rows.dtype`, on the same memory, and takes a column too.
    Without numpy ``for row in rows`` and ``rows[0]`` give tuples with these names, and ``rows[1:3]`` rows. `pandas.DataFrame(rows)` is a frame of them, and
    `pandas.DataFrame(numpy.asarray(rows))` the same in less time. Rows can be pickled.
    """

    depth: memoryview
    kind: memoryview
    counts: memoryview
    precision: memoryview
    id: memoryview
    has_id: memoryview

    dtype = [("id", "<i8"), ("counts", "<u8"), ("depth", "<u4"), ("kind", "<u2"), ("has_id", "?"), ("precision", "i1")]
    # The code of each column's items, and how many of them are before it in a row and in a whole row.
    places: Dict[str, Tuple[str, int, int]] = {
        "id": ("q", 0, 3),
        "counts": ("Q", 1, 3),
        "depth": ("I", 4, 6),
        "kind": ("H", 10, 12),
        "has_id": ("?", 22, 24),
        "precision": ("b", 23, 24),
    }

    def __init__(self, records: Any, *, count: Optional[int] = None) -> None:
        """Rows of their bytes, as `records` has them: of so many rows, or of all."""
        memory = memoryview(records).cast("B")
        count = len(memory) // ROW if count is None and len(memory) % ROW == 0 else count
        if count is None or not 0 <= count <= len(memory) // ROW:
            raise ValueError(f"rows have {ROW} bytes each, and {len(memory)} are given")
        # No column could be made of nothing.
        self._memory, self._count = memory if count else memoryview(bytes(ROW)), count

    def __getattr__(self, name: str) -> memoryview:
        if name not in self.places:
            raise AttributeError(name)
        code, first, step = self.places[name]
        return self._memory.cast(code)[first : first + step * self._count : step]

    @property
    def records(self) -> memoryview:
        """All rows as bytes, 24 for each."""
        return self._memory[: ROW * self._count]

    @property
    def __array_interface__(self) -> Dict[str, Any]:
        return {"shape": (self._count,), "typestr": f"|V{ROW}", "descr": self.dtype, "data": self._memory, "version": 3}

    def __len__(self) -> int:
        return self._count

    def __iter__(self) -> Iterator[Row]:
        return map(Row._make, zip(*(getattr(self, name) for name in Row._fields)))

    @overload
    def __getitem__(self, key: int) -> Row:
        ...

    @overload
    def __getitem__(self, key: slice) -> Rows:
        ...

    def __getitem__(self, key: Union[int, slice]) -> Any:
        if not isinstance(key, slice):
            return Row._make(getattr(self, name)[key] for name in Row._fields)
        chosen = range(self._count)[key]
        if chosen.step == 1:
            return Rows(self.records[ROW * chosen.start : ROW * max(chosen.start, chosen.stop)])
        return Rows(b"".join(self.records[ROW * place : ROW * (place + 1)] for place in chosen))

    def __eq__(self, other: object) -> bool:
        return isinstance(other, Rows) and self.records == other.records

    __hash__ = None  # type: ignore[assignment]

    def __repr__(self) -> str:
        return f"<polytwkb.Rows: {self._count}>"

    def __reduce__(self) -> Tuple[Any, ...]:
        return Rows, (self.records.tobytes(),)
