"""Mappings of the geo interface as streams of blobs."""
from __future__ import annotations

from array import array
from bisect import bisect
from collections.abc import Mapping
from typing import Any, Iterable, List, Optional, Tuple, Union

from ._conversions import Limits, is_chosen
from ._gaps import gapped
from ._geometries import NAMES, PARTS
from ._offsets import Packed
from ._points import clipped, listed, placed, unit
from ._rounding import power, rounded
from ._rows import NO_PRECISION, Kind, Rows
from ._shapes import are_shapes, pack_shapes
from ._write_geometries import item_of, write_units
from ._writing import rows_of

_KINDS = {**{name: Kind(kind) for kind, name in NAMES.items()}, "LinearRing": Kind.LINESTRING}
_MOST_NEST = 32
# Coordinates that are rounded at once.
_PIECE = 1 << 13


class _DeepEnough(Exception):
    """A member of a collection is in so many collections that no limit takes it."""


def _interface_of(given: Any) -> Any:
    """The mapping of an object, if it has one. Shapely before 2 has none of an empty point, nor of what has one in it."""
    kind = getattr(given, "geom_type", None)
    if kind == "Point" and getattr(given, "is_empty", False):
        return {"type": kind, "coordinates": ()}
    if kind == "GeometryCollection" and hasattr(given, "geoms"):
        return {"type": kind, "geometries": given.geoms}
    return getattr(given, "__geo_interface__", given)


def _mapping_of(given: Any) -> Mapping[str, Any]:
    """The mapping of an object with a geo interface."""
    if type(given) is not dict and not isinstance(given, Mapping):
        given = _interface_of(given)
        if not isinstance(given, Mapping):
            raise TypeError(f"a geometry is a mapping or has a __geo_interface__: {type(given).__name__} is neither")
    return given


def mapping_of(given: Any) -> Mapping[str, Any]:
    """The same, or the geometry of a feature."""
    mapping = _mapping_of(given)
    return _mapping_of(mapping.get("geometry")) if mapping.get("type") == "Feature" else mapping


def _top_of(given: Any) -> Optional[Mapping[str, Any]]:
    """The mapping of an item of a list; None if it is None, or a feature whose geometry is."""
    mapping = None if given is None else _mapping_of(given)
    if mapping is None or mapping.get("type") != "Feature":
        return mapping
    return None if mapping.get("geometry", ()) is None else _mapping_of(mapping.get("geometry"))


def _geometries_of(given: Any) -> List[Any]:
    """The geometries of a frame, a column or an array of GeoPandas, of a mapping, of an object with a geo interface, or of a list."""
    column: Any = None if isinstance(given, Mapping) else getattr(given, "geometry", given)
    if hasattr(column, "to_numpy"):
        return gapped(list(column.to_numpy()))
    if hasattr(given, "geom_type"):
        return [given]
    if isinstance(given, Mapping) or hasattr(given, "__geo_interface__"):
        given = _mapping_of(given)
        return list(_field(given, "features")) if given.get("type") == "FeatureCollection" else [given]
    return gapped(list(_items(given, "geometries")))


def _items(found: Any, what: str) -> Any:
    """The items of a list, or of a view."""
    if isinstance(found, memoryview):
        return listed(found)
    if isinstance(found, (str, bytes)) or not hasattr(found, "__iter__"):
        raise TypeError(f"the {what} are a list, not {type(found).__name__}")
    return found


def _field(mapping: Mapping[str, Any], name: str) -> Any:
    return _items(mapping.get(name), f"{name} of a {mapping.get('type')}")


def _kind_of(mapping: Mapping[str, Any]) -> Kind:
    name = mapping.get("type")
    if not isinstance(name, str) or name not in _KINDS:
        raise ValueError(f"a geometry has no type {name!r}")
    return _KINDS[name]


def _pairs(points: Any, drop: bool) -> List[Any]:
    """The coordinates of pairs, flat; without those after the second if they are dropped."""
    try:
        if drop:
            return [number for x, y, *_ in points for number in (x, y)]
        return [number for x, y in points for number in (x, y)]
    except (TypeError, ValueError):
        raise TypeError("points are pairs of numbers: x and y, and no height") from None


class _Gathered:
    """Rows of geometries that are added one after the other, and the coordinates of all points."""

    def __init__(self, precision: int, with_ids: bool, drop: bool) -> None:
        self.precision, self.with_ids, self.drop = precision, with_ids, drop
        self.rows: List[Tuple[Kind, int, int, int, Optional[int]]] = []
        self.numbers: List[Any] = []
        self.starts: List[int] = []
        self.missing: List[int] = []

    def put(self, kind: Kind, depth: int, identifier: Optional[int], precision: int, points: Any = ()) -> None:
        """A row with its points."""
        numbers = _pairs(points, self.drop)
        self.numbers += numbers
        self.rows.append((kind, depth, len(numbers) // 2, precision, identifier))
        if depth > _MOST_NEST and precision != NO_PRECISION:
            raise _DeepEnough

    def members(self, mapping: Mapping[str, Any], name: str) -> Iterable[Tuple[Any, Optional[int]]]:
        """The members of a geometry, each with its id."""
        members = _field(mapping, name)
        ids = mapping.get("ids") if self.with_ids else None
        if ids is None:
            return [(member, None) for member in members]
        members, ids = list(members), list(_field(mapping, "ids"))
        if len(members) != len(ids):
            raise ValueError(f"there are {len(ids)} ids for {len(members)} members")
        try:
            array("q", [number for number in ids if number is not None])
        except (TypeError, OverflowError):
            raise ValueError("ids are whole numbers of 64 bits") from None
        return zip(members, ids)

    def add(self, mapping: Mapping[str, Any], depth: int = 0, identifier: Optional[int] = None) -> None:
        """A geometry with its members."""
        kind = _kind_of(mapping)
        if kind == Kind.COLLECTION:
            self.put(kind, depth, identifier, self.precision)
            for member, number in self.members(mapping, "geometries"):
                self.add(mapping_of(member), depth + 1, number)
        elif kind in PARTS:
            self.put(kind, depth, identifier, self.precision)
            self.add_parts(PARTS[kind], self.members(mapping, "coordinates"), depth + 1)
        else:
            self.add_points(kind, _field(mapping, "coordinates"), depth, identifier, self.precision)

    def add_points(self, kind: Kind, points: Any, depth: int, identifier: Optional[int], precision: int) -> None:
        """A row of a kind that has points; the coordinates of a point are not in a list."""
        points = list(_items(points, "coordinates"))
        self.put(kind, depth, identifier, precision, [points] if points and kind == Kind.POINT else points)

    def add_parts(self, kind: Kind, parts: Iterable[Tuple[Any, Optional[int]]], depth: int) -> None:
        """The parts of a geometry, from their coordinates."""
        for points, identifier in parts:
            if kind in PARTS:
                self.put(kind, depth, identifier, NO_PRECISION)
                self.add_parts(PARTS[kind], ((part, None) for part in _items(points, "coordinates")), depth + 1)
            else:
                self.add_points(kind, points, depth, identifier, NO_PRECISION)

    def add_all(self, geometries: List[Any]) -> None:
        for place, given in enumerate(geometries):
            try:
                mapping = _top_of(given)
                if mapping is None:
                    self.missing.append(place)
                else:
                    self.starts.append(len(self.numbers))
                    self.add(mapping)
            except (TypeError, ValueError, IndexError) as fault:
                raise placed(fault, f"geometry {place}") from None
            except _DeepEnough:
                return

    def columns(self) -> Rows:
        """All rows in columns."""
        names = ("kind", "depth", "counts", "precision", "id")
        return rows_of(dict(zip(names, zip(*self.rows))) if self.rows else {"kind": 0, "counts": []})

    def units(self) -> array[int]:
        """The coordinates of all points, rounded."""
        units = array("q")
        for start in range(0, len(self.numbers), _PIECE):
            piece = self.numbers[start : start + _PIECE]
            some = rounded(piece, self.precision)
            some = array("q", [self.unit(start + place) for place in range(len(piece))]) if some is None else some
            units.frombytes(memoryview(some).cast("B"))
        return units

    def unit(self, place: int) -> int:
        """One coordinate, rounded."""
        try:
            return clipped(unit(self.numbers[place], self.precision))
        except (TypeError, ValueError) as fault:
            raise placed(fault, f"geometry {item_of(bisect(self.starts, place) - 1, self.missing)}") from None


def pack_geometries(
    geometries: Union[Any, Iterable[Any]],
    precision: int,
    *,
    style: str = "full",
    ids: bool = True,
    limits: Optional[Limits] = None,
    heights: str = "raise",
) -> Packed:
    """Packs geometries to a stream of blobs, with so many decimals, -8 to 7: the counterpart of `geometries` and `shapes`.
    The stream is bytes; ``blobs`` of it is the list of single blobs (`Packed`).

    Geometries are a list of mappings of the geo interface, or of objects with one, as those of Shapely; a column, its array
    (``.values``) or a frame of GeoPandas; or one geometry. In a list None, NaN, `pandas.NA` and a feature whose geometry is
    None have no blob: ``blobs`` has None at their place. Coordinates are degrees, and are rounded as `encode` rounds them. ``ids`` of a mapping are those of its parts;
    with ``ids=False`` they are left out. A LinearRing is packed as a linestring. A reference system is not kept.

    Points have no height: a third number raises TypeError, and with ``heights="drop"`` it is left out.

    Raises Refused, with the geometry from 0 as its place, if one is against the rules of a table; its `output` has the
    blobs before. Raises ValueError for a coordinate that is not finite and for an unknown type, TypeError for what is no
    geometry; each names the geometry.
    """
    decimals, drop, items = power(precision), is_chosen("heights", heights, "drop"), _geometries_of(geometries)
    if are_shapes(items):
        return pack_shapes(items, decimals, style, limits, drop)
    gathered = _Gathered(decimals, ids, drop)
    gathered.add_all(items)
    return write_units(gathered.columns(), gathered.units(), gathered.missing, style, limits)
