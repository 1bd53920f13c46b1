"""Geometries as WKB, in which all versions of Shapely take and give them, from rows and points and to them."""
from __future__ import annotations

import math
from struct import Struct
from typing import Any, List, Tuple

from ._arrays import Arrays
from ._rows import NO_PRECISION, Kind, Rows
from ._walk import HEADS, items, walked

_COUNT, _HEAD = Struct("<I").pack, Struct("<BII").pack
_POINT_HEAD, _NO_POINT = Struct("<BI").pack(1, 1), Struct("<dd").pack(math.nan, math.nan)


def _parts_of(table: Any) -> Any:
    """How many parts each row has."""
    import numpy

    parts, depths = numpy.zeros(len(table), numpy.int64), numpy.ascontiguousarray(table["depth"])
    for level in range(1, int(depths.max(initial=0)) + 1):
        above, below = ((depths == depth).nonzero()[0] for depth in (level - 1, level))
        parts[above] = numpy.bincount(numpy.searchsorted(above, below) - 1, minlength=len(above))
    return parts


def _places_of(begins: Any, counts: Any) -> Any:
    """The byte at which each point is, in rows whose points begin there."""
    import numpy

    rows = counts.nonzero()[0]
    begins, counts = begins[rows], counts[rows]
    # A point is 16 bytes after the one before it, and in a new row also after what is between the rows.
    places, ends = numpy.full(int(counts.sum()), 16), begins + 16 * counts
    places[numpy.cumsum(counts) - counts] += begins - numpy.concatenate(([16], ends[:-1]))
    return numpy.cumsum(places, out=places)


def plain_wkb_of(arrays: Arrays) -> List[bytes]:
    """The same without numpy."""
    rows, points = arrays.rows, memoryview(arrays.points.tobytes())
    depths, counts, place = rows.depth.tolist(), rows.counts.tolist(), 0
    parts, above = [0] * len(depths), [0] * (max(depths, default=0) + 1)
    for row, depth in enumerate(depths):
        above[depth] = row
        if depth:
            parts[above[depth - 1]] += 1
    wkbs: List[List[bytes]] = []
    for kind, depth, count, below in zip(rows.kind.tolist(), depths, counts, parts):
        if not depth:
            wkbs.append([])
        if kind == Kind.POINT:
            wkbs[-1] += _POINT_HEAD, points[place : place + 16 * count] if count else _NO_POINT
        else:
            head = _COUNT(count) if kind == Kind.RING else _HEAD(1, kind, count or below)
            wkbs[-1] += head, points[place : place + 16 * count]
        place += 16 * count
    return list(map(b"".join, wkbs))


def wkb_of(arrays: Arrays) -> List[bytes]:
    """Geometries as little-endian WKB, each as bytes of its own. An empty point has the coordinates NaN."""
    import numpy

    table, points = numpy.asarray(arrays.rows), numpy.asarray(arrays.points)
    kinds, counts = numpy.ascontiguousarray(table["kind"]), table["counts"].astype(numpy.int64)
    heads = numpy.array(HEADS)[kinds]
    is_point, is_ring = kinds == Kind.POINT, kinds == Kind.RING
    ends = numpy.cumsum(heads + 16 * numpy.where(is_point, 1, counts))
    begins = numpy.concatenate(([0], ends))
    memory = numpy.zeros(int(begins[-1]), numpy.uint8)
    numbers, pairs, starts = items(memory, "<u4"), items(memory, "c16"), begins[:-1]
    memory[starts[~is_ring]] = 1
    numbers[starts[~is_ring] + 1] = kinds[~is_ring]
    numbers[(starts + heads - 4)[~is_point]] = numpy.where(counts > 0, counts, _parts_of(table))[~is_point]
    pairs[_places_of(starts + heads, counts)] = points.view("c16").reshape(-1)
    empty = (starts + heads)[is_point & (counts == 0)]
    pairs[empty] = numpy.full((len(empty), 2), numpy.nan).view("c16").reshape(-1)
    tops, whole = begins[numpy.append(table["depth"] == 0, True)].tolist(), memory.tobytes()
    return [whole[start:end] for start, end in zip(tops, tops[1:])]


def rows_of_wkb(wkbs: List[bytes], precision: int) -> Tuple[Rows, Any]:
    """The rows of geometries, and their coordinates in an array of numpy that nothing else has. They have little-endian
    WKB without heights."""
    import numpy

    whole, lengths = b"".join(wkbs), numpy.fromiter(map(len, wkbs), numpy.int64, len(wkbs))
    kinds, depths, counts, begins, is_own = walked(whole, numpy.cumsum(lengths) - lengths)
    table = numpy.zeros(len(counts), Rows.dtype)
    coordinates = items(whole, "c16")[_places_of(begins, counts)].view(float).reshape(-1, 2)
    table["kind"], table["depth"], table["counts"] = kinds, depths, counts
    table["precision"] = numpy.where(is_own, precision, NO_PRECISION)
    # An empty point has coordinates that are no numbers.
    firsts = numpy.cumsum(counts) - counts
    points = (kinds == Kind.POINT).nonzero()[0]
    empty = points[numpy.isnan(coordinates[firsts[points]]).all(axis=1)]
    table["counts"][empty] = 0
    return Rows(table.view("u1")), numpy.delete(coordinates, firsts[empty], axis=0) if len(empty) else coordinates
