"""WKB of any writer as rows and points: either byte order, the types of ISO and of EWKB; each refusal has its byte."""
from __future__ import annotations

from array import array
from struct import Struct
from typing import Any, Dict, List, Optional, Tuple

from ._geometries import PARTS
from ._library import CLimits
from ._reasons import Reason
from ._rows import NO_PRECISION, Kind

_WORDS: List[Any] = [Struct(">I").unpack_from, Struct("<I").unpack_from]
_PAIRS: List[Any] = [Struct(">dd").unpack_from, Struct("<dd").unpack_from]
_POINT, _LINE, _POLYGON, _COLLECTION, _RING = (
    int(kind) for kind in (Kind.POINT, Kind.LINESTRING, Kind.POLYGON, Kind.COLLECTION, Kind.RING)
)
_PARTS: Dict[int, int] = {int(kind): int(part) for kind, part in PARTS.items()}
# Bits of a type of EWKB. ISO adds 1000 for Z, 2000 for M and 3000 for both.
_Z, _M, _SRID, _CODE = 1 << 31, 1 << 30, 1 << 29, (1 << 29) - 1
_NAMES = ["", "Z coordinates", "M coordinates", "Z and M coordinates"]


class Fault(Exception):
    """Why bytes are no WKB, or none that is taken: the reason, the byte and the text, if the reason's own is not enough."""

    def __init__(self, reason: int, place: int, text: Optional[str] = None) -> None:
        super().__init__(reason, place, text)
        self.reason, self.place, self.text = reason, place, text


def _kind_of(code: int, place: int) -> int:
    """The kind of a type, whose place is that byte."""
    thousands, kind = divmod(code & _CODE, 1000)
    if thousands > 3 or not _POINT <= kind <= _COLLECTION:
        raise Fault(Reason.BLOB_BAD_TYPE, place)
    dimensions = thousands | (1 if code & _Z else 0) | (2 if code & _M else 0)
    if dimensions:
        raise Fault(Reason.BLOB_EXTRA_DIMENSIONS, place, _NAMES[dimensions])
    return kind


class Reader:
    """Rows of geometries that are read one after the other, in columns, and the bytes of their points. Of each row
    `begins` has the byte of its first point. Limits are those of blobs."""

    def __init__(self, precision: int, limits: CLimits) -> None:
        self.precision, self.limits, self.item = precision, limits, b""
        self.kinds, self.depths, self.counts = array("H"), array("I"), array("Q")
        self.precisions, self.begins = array("b"), array("q")
        self.points: List[bytes] = []
        self.rows_left, self.points_left = 0, 0

    def columns(self) -> Dict[str, Any]:
        return {"kind": self.kinds, "depth": self.depths, "counts": self.counts, "precision": self.precisions}

    def take(self, item: bytes) -> None:
        """Reads the WKB of one geometry. After a fault the points before it are kept: a coordinate may be at fault before."""
        self.item, self.rows_left, self.points_left = item, self.limits.nodes, self.limits.points
        end = self.geometry(0, 0, 0)
        if end != len(item):
            raise Fault(Reason.BLOB_SIZE_MISMATCH, end, "bytes after the geometry")

    def cut(self, rows: int) -> None:
        """Keeps so many rows alone."""
        for column in (self.kinds, self.depths, self.counts, self.precisions, self.begins):
            del column[rows:]

    def put(self, kind: int, depth: int, count: int, is_own: bool, begin: int) -> None:
        """A row whose points begin at a byte."""
        self.kinds.append(kind)
        self.depths.append(depth)
        self.counts.append(count)
        self.precisions.append(self.precision if is_own else NO_PRECISION)
        self.begins.append(begin)

    def room(self, place: int, size: int) -> None:
        """Checks that a number of so many bytes is there."""
        if len(self.item) - place < size:
            raise Fault(Reason.BLOB_TRUNCATED, place)

    def row(self, place: int, depth: int, is_own: bool) -> None:
        """Checks that there may be one more row at this depth."""
        self.rows_left -= 1
        if self.rows_left < 0:
            raise Fault(Reason.BLOB_TOO_MANY_NODES, place)
        if is_own and depth > self.limits.nest:
            raise Fault(Reason.BLOB_TOO_DEEP, place)

    def head(self, place: int, parent: int) -> Tuple[int, int, int]:
        """The byte order and the kind of a geometry, and where they end. An SRID is passed over."""
        self.room(place, 1)
        order = self.item[place]
        if order > 1:
            raise Fault(Reason.BLOB_BAD_TYPE, place, "byte order is neither 0 nor 1")
        self.room(place + 1, 4)
        code = _WORDS[order](self.item, place + 1)[0]
        kind = code if _POINT <= code <= _COLLECTION else _kind_of(code, place + 1)
        if _PARTS.get(parent, kind) != kind:
            raise Fault(Reason.BAD_PLACE, place + 1)
        if not code & _SRID:
            return order, kind, place + 5
        self.room(place + 5, 4)
        return order, kind, place + 9

    def geometry(self, place: int, depth: int, parent: int) -> int:
        """Reads a geometry, which may be a part, and returns where it ends. The parent is the kind that it is in."""
        is_own = parent in (0, _COLLECTION)
        self.row(place, depth, is_own)
        order, kind, begin = self.head(place, parent)
        if kind == _POINT:
            return self.point(order, begin, depth, is_own)
        if kind == _LINE:
            return self.line(kind, order, begin, depth, is_own)
        self.room(begin, 4)
        count = _WORDS[order](self.item, begin)[0]
        if count > self.rows_left:
            raise Fault(Reason.BLOB_TOO_MANY_NODES, begin)
        self.put(kind, depth, 0, is_own, begin)
        return self.parts(kind, order, begin + 4, depth + 1, count)

    def parts(self, kind: int, order: int, place: int, depth: int, count: int) -> int:
        for _ in range(count):
            if kind == _POLYGON:
                self.row(place, depth, False)
                place = self.line(_RING, order, place, depth, False)
            else:
                place = self.geometry(place, depth, kind)
        return place

    def point(self, order: int, begin: int, depth: int, is_own: bool) -> int:
        """A point. One whose coordinates are no numbers is empty."""
        if len(self.item) - begin >= 16:
            x, y = _PAIRS[order](self.item, begin)
            if x != x and y != y:
                if not is_own:
                    raise Fault(Reason.POINT_COUNT, begin, "empty point in a multipoint")
                self.put(_POINT, depth, 0, is_own, begin)
                return begin + 16
        if not self.points_left:
            raise Fault(Reason.BLOB_TOO_MANY_POINTS, begin)
        return self.some_points(_POINT, order, begin, depth, 1, is_own)

    def line(self, kind: int, order: int, begin: int, depth: int, is_own: bool) -> int:
        """A row with a count of points."""
        self.room(begin, 4)
        count = _WORDS[order](self.item, begin)[0]
        if count > self.points_left:
            raise Fault(Reason.BLOB_TOO_MANY_POINTS, begin)
        return self.some_points(kind, order, begin + 4, depth, count, is_own)

    def some_points(self, kind: int, order: int, begin: int, depth: int, count: int, is_own: bool) -> int:
        there = len(self.item) - begin
        whole = min(count, there // 16)
        end = begin + 16 * whole
        points = self.item[begin:end]
        if not order:
            swapped = array("d", points)
            swapped.byteswap()
            points = swapped.tobytes()
        self.points.append(points)
        self.points_left -= whole
        self.put(kind, depth, whole, is_own, begin)
        if whole < count:
            raise Fault(Reason.BLOB_TRUNCATED, begin + there // 8 * 8)
        return end
