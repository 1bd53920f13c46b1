"""Blobs as mappings of the geo interface."""
from __future__ import annotations

from typing import Any, Dict, List, Literal, Optional, Tuple, overload

from ._arrays import Arrays
from ._conversions import Buffer, Limits, is_chosen
from ._lists import Blobs, Listed, in_places, read_blobs
from ._rows import Kind

_POINT, _COLLECTION = Kind.POINT, Kind.COLLECTION
NAMES: Dict[int, str] = {
    Kind.POINT: "Point",
    Kind.LINESTRING: "LineString",
    Kind.POLYGON: "Polygon",
    Kind.MULTIPOINT: "MultiPoint",
    Kind.MULTILINESTRING: "MultiLineString",
    Kind.MULTIPOLYGON: "MultiPolygon",
    Kind.COLLECTION: "GeometryCollection",
}
# The kind of the parts of a kind that has parts.
PARTS: Dict[int, Kind] = {
    Kind.POLYGON: Kind.RING,
    Kind.MULTIPOINT: Kind.POINT,
    Kind.MULTILINESTRING: Kind.LINESTRING,
    Kind.MULTIPOLYGON: Kind.POLYGON,
}

Mapping = Dict[str, Any]


class _Rows:
    """Rows that are taken one after the other, and pairs of degrees with them."""

    def __init__(self, arrays: Arrays) -> None:
        rows, flat = arrays.rows, arrays.points.flat.tolist()
        self.kinds, self.depths, self.counts = rows.kind.tolist(), rows.depth.tolist(), rows.counts.tolist()
        self.has_ids, self.ids = rows.has_id.tolist(), rows.id.tolist()
        self.depths.append(0)
        self.pairs, self.row, self.point = list(zip(flat[::2], flat[1::2])), 0, 0

    def coordinates(self) -> Any:
        """The coordinates of the next row and its parts."""
        row, kind = self.row, self.kinds[self.row]
        self.row += 1
        if kind in PARTS:
            parts = []
            while self.depths[self.row] > self.depths[row]:
                parts.append(self.coordinates())
            return parts
        own = self.pairs[self.point : self.point + self.counts[row]]
        self.point += len(own)
        return own if kind != _POINT else own[0] if own else ()

    def part_ids(self, row: int, end: int) -> Optional[List[int]]:
        """The ids of the parts of a row, whose rows end there; None if they have none."""
        below = self.depths[row] + 1
        if self.row == row + 1 or not self.has_ids[row + 1]:
            return None
        return [self.ids[place] for place in range(row + 1, end) if self.depths[place] == below]

    def mapping(self) -> Mapping:
        """The mapping of the next row and its parts."""
        row, made = self.row, {"type": NAMES[self.kinds[self.row]]}  # type: Tuple[int, Mapping]
        if self.kinds[row] == _COLLECTION:
            self.row += 1
            made["geometries"] = members = []
            while self.depths[self.row] > self.depths[row]:
                members.append(self.mapping())
        else:
            made["coordinates"] = self.coordinates()
        ids = self.part_ids(row, self.row)
        return made if ids is None else {**made, "ids": ids}

    def mappings(self) -> List[Mapping]:
        made = []
        while self.row < len(self.kinds):
            made.append(self.mapping())
        return made


def mappings_of(listed: Listed) -> List[Any]:
    return in_places(_Rows(listed.arrays).mappings(), listed)


@overload
def geometries(blobs: Buffer, *, limits: Optional[Limits] = None) -> List[Mapping]:  # type: ignore[misc]
    ...


@overload
def geometries(
    blobs: Blobs, *, limits: Optional[Limits] = None, errors: Literal["raise"] = "raise"
) -> List[Optional[Mapping]]:
    ...


@overload
def geometries(
    blobs: Blobs, *, limits: Optional[Limits] = None, errors: Literal["collect"]
) -> Tuple[List[Optional[Mapping]], List[Exception]]:
    ...


def geometries(blobs: Blobs, *, limits: Optional[Limits] = None, errors: str = "raise") -> Any:
    """The geometries of a stream of blobs, or of a list of blobs, as mappings of the geo interface: `type` and
    `coordinates`, in degrees, or `geometries`, and `ids` if the parts have ids. A point without coordinates has an empty
    tuple. `shapes` makes geometries of Shapely in less time.

    An item of a list is one blob, as bytes, or a gap (None, NaN, `pandas.NA`), which becomes None. Raises Refused at the first item that is wrong, as
    ``blob 3: byte 12: truncated``: its `done` is the item, its `place` the byte, and its `output` has the geometries before.
    With ``errors="collect"`` refused items become None, and the call returns a pair: this list, and the list of what
    would have been raised, in order. Of a stream, Refused has the geometries before in `output`. What is no bytes raises
    TypeError.
    """
    collect = is_chosen("errors", errors, "collect")

    def result(listed: Listed) -> Any:
        return (mappings_of(listed), listed.refused()) if collect else mappings_of(listed)

    return read_blobs(blobs, limits, collect, result)
