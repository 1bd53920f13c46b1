"""Blobs as geometries of Shapely and back, by way of WKB, which takes less time than mappings do."""
from __future__ import annotations

import importlib
import sys
from itertools import compress
from operator import itemgetter
from typing import Any, List, Literal, Optional, Tuple, overload

from ._conversions import Limits, is_chosen
from ._lists import Blobs, Listed, in_places, read_blobs
from ._offsets import Packed
from ._wkb import rows_of_wkb, wkb_of
from ._write_geometries import item_of, write_floats

# The last byte of the type in little-endian WKB, which is 0 if points have two numbers.
_type_end = itemgetter(4)


def _module(name: str) -> Any:
    return importlib.import_module(name)


def _from_wkb(wkbs: List[bytes]) -> List[Any]:
    """Shapes of WKB. With Shapely before 2 one reader makes them all."""
    shapely = _module("shapely")
    if hasattr(shapely, "from_wkb"):
        return list(shapely.from_wkb(wkbs))
    geos = _module("shapely.geos")
    return list(map(geos.WKBReader(geos.lgeos).read, wkbs))


def _to_wkb(shapes: List[Any], dimension: int) -> List[bytes]:
    """The little-endian WKB of shapes."""
    shapely = _module("shapely")
    if hasattr(shapely, "to_wkb"):
        return list(shapely.to_wkb(shapes, output_dimension=dimension, byte_order=1))
    geos = _module("shapely.geos")
    return list(map(geos.WKBWriter(geos.lgeos, output_dimension=dimension, big_endian=False).write, shapes))


def _shapes_of(listed: Listed, collect: bool) -> List[Any]:
    """The shapes of what was read. Those that Shapely does not take are faults."""
    wkbs = wkb_of(listed.arrays)
    refused = _module("shapely.errors").ShapelyError
    try:
        return in_places(_from_wkb(wkbs), listed)
    except refused:
        pass
    shapes: List[Any] = []
    for geometry, wkb in enumerate(wkbs):
        try:
            shapes += _from_wkb([wkb])
        except refused as fault:
            place = geometry if listed.places is None else listed.places[geometry]
            refusal = ValueError(f"blob {place}: Shapely does not take this geometry: {fault}")
            if not collect:
                raise refusal from None
            listed.faults.append((place, refusal))
            shapes.append(None)
    return in_places(shapes, listed)


@overload
def shapes(blobs: Blobs, *, limits: Optional[Limits] = None, errors: Literal["raise"] = "raise") -> List[Any]:
    ...


@overload
def shapes(
    blobs: Blobs, *, limits: Optional[Limits] = None, errors: Literal["collect"]
) -> Tuple[List[Any], List[Exception]]:
    ...


def shapes(blobs: Blobs, *, limits: Optional[Limits] = None, errors: str = "raise") -> Any:
    """The geometries of a stream of blobs, or of a list of blobs, as geometries of Shapely, in degrees. Ids of parts are
    left out. It needs Shapely, 1.8 or later, and numpy.

    Lists, None and `errors` are as in `geometries`. A geometry that Shapely does not take, such as a linestring of one
    point, raises ValueError, which names it, or is kept apart with the others.
    """
    collect = is_chosen("errors", errors, "collect")

    def result(listed: Listed) -> Any:
        made = _shapes_of(listed, collect)
        return (made, listed.refused()) if collect else made

    return read_blobs(blobs, limits, collect, result)


def are_shapes(items: List[Any]) -> bool:
    """Whether a list has shapes of Shapely alone, and None."""
    base = sys.modules.get("shapely.geometry.base")
    kinds = set(map(type, items)) - {type(None)}
    return base is not None and bool(kinds) and all(issubclass(kind, base.BaseGeometry) for kind in kinds)


def pack_shapes(items: List[Any], precision: int, style: str, limits: Optional[Limits], drop: bool) -> Packed:
    """The stream of such a list."""
    missing = [place for place, item in enumerate(items) if item is None]
    given = [item for item in items if item is not None] if missing else items
    wkbs = _to_wkb(given, 2 if drop else 3)
    for geometry in list(compress(range(len(wkbs)), map(_type_end, wkbs))):
        if not given[geometry].is_empty:
            place = item_of(geometry, missing)
            raise TypeError(f"geometry {place}: points are pairs of numbers: x and y, and no height")
        wkbs[geometry] = _to_wkb([given[geometry]], 2)[0]
    rows, coordinates = rows_of_wkb(wkbs, precision)
    return write_floats(rows, coordinates, precision, missing, style, limits)
