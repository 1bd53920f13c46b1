"""Columns of one kind as coordinates and offsets, as Shapely 2 and GeoArrow have them, by numpy and no loop over geometries."""
from __future__ import annotations

from enum import IntEnum
from typing import Any, List, NamedTuple, Optional, Sequence, Tuple

from ._conversions import Limits, is_chosen
from ._lists import Blobs, Listed, read_blobs
from ._offsets import Packed
from ._rounding import power
from ._rows import NO_PRECISION, Kind, Rows
from ._write_geometries import write_floats


class GeometryType(IntEnum):
    """The types of columns, with the numbers of `shapely.GeometryType`."""

    POINT = 0
    LINESTRING = 1
    POLYGON = 3
    MULTIPOINT = 4
    MULTILINESTRING = 5
    MULTIPOLYGON = 6


_TYPES = {getattr(Kind, kind.name): kind for kind in GeometryType}
_KINDS = {kind: number for number, kind in _TYPES.items()}
# The kinds of the rows of a geometry, the outermost first; the last one has points.
_LEVELS = {
    Kind.POINT: [Kind.POINT],
    Kind.LINESTRING: [Kind.LINESTRING],
    Kind.POLYGON: [Kind.POLYGON, Kind.RING],
    Kind.MULTIPOINT: [Kind.MULTIPOINT, Kind.POINT],
    Kind.MULTILINESTRING: [Kind.MULTILINESTRING, Kind.LINESTRING],
    Kind.MULTIPOLYGON: [Kind.MULTIPOLYGON, Kind.POLYGON, Kind.RING],
}


class _Three(NamedTuple):
    geometry_type: int
    coordinates: Any
    offsets: Tuple[Any, ...]


class Ragged(_Three):
    """A column of geometries of one kind. It is a tuple of three, as `shapely.to_ragged_array` returns it, and
    `shapely.from_ragged_array(*ragged)` makes geometries of it:

    * ``geometry_type``: a number of `shapely.GeometryType`, as a `GeometryType`;
    * ``coordinates``: x and y of all points, an array of float64 of shape (n, 2), in degrees;
    * ``offsets``: arrays of int64, each with the place where an item begins among those of the next level, and the end of
      the last one. Points have none, and an empty one has the coordinates NaN. Linestrings and multipoints have those of
      their points; polygons those of the points of all rings, and those of the rings of each polygon; multilinestrings
      likewise; multipolygons those of the points of rings, of the rings of polygons, and of the polygons of each.

    ``missing`` are the places of geometries that are None, an array of int64. They have the form of empty ones. ``refused``
    has what was kept apart.
    """

    missing: Any = ()
    refused: Sequence[Exception] = ()


def _numpy() -> Any:
    try:
        import numpy
    except ImportError:
        raise ImportError("columns of coordinates and offsets need numpy") from None
    return numpy


def _offsets(counts: Any) -> Any:
    """Offsets of items that have so many."""
    numpy = _numpy()
    offsets = numpy.zeros(len(counts) + 1, numpy.int64)
    numpy.cumsum(counts, out=offsets[1:])
    return offsets


def _kind_of(table: Any, tops: Any, places: Any) -> Kind:
    """The kind that all geometries have."""
    kinds = table["kind"][tops]
    if not len(kinds):
        raise ValueError("a column has one geometry at least that says of which kind it is")
    others = (kinds != kinds[0]).nonzero()[0]
    kind = Kind(int(kinds[0]))
    if kind == Kind.COLLECTION or len(others):
        place = int(others[0]) if len(others) else 0
        named = Kind(int(kinds[place])).name.lower()
        place = place if places is None else places[place]
        raise ValueError(
            f"geometry {place}: a column has one kind, and no collections: this is a {named}, the first a {kind.name.lower()}"
        )
    return kind


def _counts_below(depths: Any, level: int) -> Any:
    """Of the rows at a depth, in order, how many are at the next depth below each."""
    begins = (depths == level).nonzero()[0]
    return _numpy().diff(_offsets(depths == level + 1)[begins], append=(depths == level + 1).sum())


def _points_of(coordinates: Any, counts: Any) -> Any:
    """One point for each, with NaN in place of those that have none."""
    numpy = _numpy()
    if counts.all():
        return coordinates
    points = numpy.full((len(counts), 2), numpy.nan)
    points[counts > 0] = coordinates
    return points


def ragged_of(listed: Listed) -> Ragged:
    numpy = _numpy()
    arrays, count, places, _ = listed
    table, coordinates = numpy.asarray(arrays.rows), numpy.asarray(arrays.points)
    depths = numpy.ascontiguousarray(table["depth"])
    kind = _kind_of(table, (depths == 0).nonzero()[0], places)
    deepest = len(_LEVELS[kind]) - 1
    levels = [_counts_below(depths, level) for level in range(deepest)]
    if kind != Kind.MULTIPOINT:
        levels.append(table["counts"][depths == deepest].astype(numpy.int64))
    if places is not None:
        own = numpy.zeros(count, numpy.int64)
        own[places] = levels[0]
        levels[0] = own
    if kind == Kind.POINT:
        coordinates = _points_of(coordinates, levels.pop())
    found = Ragged(_TYPES[kind], coordinates, tuple(map(_offsets, reversed(levels))))
    missing = numpy.ones(count, bool) if places is not None else numpy.zeros(0, bool)
    missing[places or []] = False
    found.missing, found.refused = missing.nonzero()[0], listed.refused()
    return found


def ragged(blobs: Blobs, *, limits: Optional[Limits] = None, errors: str = "raise") -> Ragged:
    """The geometries of a stream of blobs, or of a list of blobs, as a column of coordinates and offsets: `Ragged`, in
    degrees, which `shapely.from_ragged_array(*ragged)` of Shapely 2 takes, and whose arrays are those of GeoArrow. It
    needs numpy. All geometries are of one kind, and none is a collection; precisions may differ.

    An item of a list is one blob, as bytes, or None. Raises Refused at the first item that is wrong, as `geometries` does;
    with ``errors="collect"`` such items become None, and ``refused`` of the result has what would have been raised.
    Raises ValueError if no geometry is there, or if kinds differ.
    """
    return read_blobs(blobs, limits, is_chosen("errors", errors, "collect"), ragged_of)


def _checked(offsets: Any, name: str) -> Any:
    """Offsets as numbers of 64 bits, which do not fall."""
    numpy = _numpy()
    given = numpy.asarray(offsets)
    if given.ndim != 1 or given.dtype.kind not in "iu" or not len(given):
        raise TypeError(f"{name} is an array of whole numbers, one more than there are items")
    given = given.astype(numpy.int64)
    if given[0] < 0 or (given[1:] < given[:-1]).any():
        raise ValueError(f"{name} has offsets that fall")
    return given


def _parts(kind: Kind, coordinates: Any, offsets: Any) -> Tuple[Any, List[Any]]:
    """The coordinates that are used, and of each level, the outermost first, how many items of the next one each has."""
    numpy = _numpy()
    wanted = {Kind.POINT: 0, Kind.MULTIPOINT: 1}.get(kind, len(_LEVELS[kind]))
    if len(offsets) != wanted:
        raise ValueError(f"a column of the type {_TYPES[kind].name} has {wanted} arrays of offsets, not {len(offsets)}")
    if kind == Kind.POINT:
        is_there = ~numpy.isnan(coordinates).all(axis=1)
        return coordinates[is_there], [is_there.astype(numpy.int64)]
    levels, first, last = [], 0, -1
    for place in reversed(range(wanted)):
        own = _checked(offsets[place], f"offsets[{place}]")
        if last >= len(own):
            raise ValueError(f"offsets[{place}] has too few items")
        own = own[first : last + 1] if last >= 0 else own
        levels.append(numpy.diff(own))
        first, last = int(own[0]), int(own[-1])
    if last > len(coordinates):
        raise ValueError("there are fewer coordinates than offsets name")
    return coordinates[first:last], levels


def _rows_of(kind: Kind, levels: List[Any], precision: int) -> Any:
    """The rows of geometries of one kind that have so many parts at each level."""
    numpy = _numpy()
    kinds = _LEVELS[kind]
    counts = [*levels, numpy.ones(int(levels[0].sum()), numpy.int64)] if kind == Kind.MULTIPOINT else levels
    # Of each level how many rows an item has with all its parts, added up.
    sizes = [_offsets(numpy.ones(len(counts[-1]), numpy.int64))]
    for own in reversed(counts[:-1]):
        ends = sizes[0][_offsets(own)]
        sizes.insert(0, _offsets(1 + numpy.diff(ends)))
    table = numpy.zeros(int(sizes[0][-1]), Rows.dtype)
    table["precision"] = NO_PRECISION
    begins = sizes[0][:-1]
    table["precision"][begins] = precision
    for level, own in enumerate(counts):
        table["kind"][begins], table["depth"][begins] = kinds[level], level
        if level == len(counts) - 1:
            table["counts"][begins] = own
        else:
            # A part begins after the first row of its item, and after the parts of it that are before.
            below = sizes[level + 1]
            begins = numpy.repeat(begins + 1 - below[_offsets(own)[:-1]], own) + below[:-1]
    return table


def _column_of(column: Any) -> Tuple[Kind, Any, Any]:
    """The kind, the coordinates and the offsets of a column."""
    numpy = _numpy()
    try:
        geometry_type, coordinates, offsets = column
        kind = _KINDS[GeometryType(int(geometry_type))]
    except (TypeError, ValueError):
        raise ValueError(
            "a column is a number of shapely.GeometryType, other than 2 and 7, coordinates and offsets"
        ) from None
    coordinates = numpy.asarray(coordinates)
    if coordinates.ndim != 2 or coordinates.shape[1] != 2 or coordinates.dtype.kind != "f":
        raise TypeError(
            f"coordinates are floats of the shape (n, 2), not {coordinates.dtype} of the shape {coordinates.shape}"
        )
    return kind, coordinates, () if offsets is None else offsets


def pack_ragged(column: Any, precision: int, *, style: str = "full", limits: Optional[Limits] = None) -> Packed:
    """Packs a column of coordinates and offsets to a stream of blobs, with so many decimals, -8 to 7: the counterpart of
    `ragged`. It needs numpy.

    The column is what `ragged` gave, or what `shapely.to_ragged_array` gave, or a tuple in the same form: the type, an
    array of floats of shape (n, 2), in degrees, and a tuple of offsets, whole numbers. Offsets may begin after 0, as
    those of a part of a column do. Geometries that are ``missing`` have no blob.

    Raises Refused, with the geometry from 0 as its place, if one is against the rules of a table; its `output` has the
    blobs before. Raises ValueError for a coordinate that is not finite and for offsets that do not fit, TypeError for
    other types and shapes.
    """
    decimals, (kind, coordinates, offsets) = power(precision), _column_of(column)
    coordinates, levels = _parts(kind, coordinates, offsets)
    missing = sorted(int(place) for place in getattr(column, "missing", ()))
    if missing and levels[0][missing].any():
        raise ValueError("a geometry that is missing has points")
    levels[0] = _numpy().delete(levels[0], missing)
    own = _numpy().array(coordinates, float, order="C")
    return write_floats(Rows(_rows_of(kind, levels, decimals)), own, decimals, missing, style, limits)
