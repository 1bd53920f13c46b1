"""Rows of geometries of a list, some of which are None, as streams of blobs."""
from __future__ import annotations

from itertools import accumulate
from typing import Any, List, Optional

from ._conversions import Limits, _limits, style_of
from ._offsets import Packed, packed_of
from ._refused import Refused
from ._rounding import NotFinite, round_floats
from ._rows import Rows
from ._writing import Units, packed


def item_of(geometry: int, missing: List[int]) -> int:
    """The place in a list of a geometry, whose number among those that are not None is known; `missing` is in order."""
    for gap in missing:
        if gap > geometry:
            break
        geometry += 1
    return geometry


def _geometry_of(rows: Rows, point: int) -> int:
    """The number of the geometry that has a point."""
    row = next((row for row, end in enumerate(accumulate(rows.counts)) if point < end), len(rows) - 1)
    return sum(depth == 0 for depth in rows.depth[: row + 1]) - 1


def write_units(rows: Rows, units: Any, missing: List[int], style: str, limits: Optional[Limits]) -> Packed:
    """The stream of rows and of units in a buffer, neither of which anything else has. A refusal names the geometry of the
    list."""
    number, most = style_of(style), _limits(limits)
    try:
        return packed_of(packed(rows, Units(memoryview(units), True), most, number), missing)
    except Refused as refused:
        place = item_of(refused.done, missing)
        output = packed_of(refused.output, [gap for gap in missing if gap < place])
        raise Refused(refused.reason, f"geometry {place}", place, 0, place, output) from None


def write_floats(
    rows: Rows, degrees: Any, precision: int, missing: List[int], style: str, limits: Optional[Limits]
) -> Packed:
    """The stream of rows and degrees, all of one precision. The degrees are a contiguous array of numpy, of float64,
    which can be written and which nothing else has."""
    import numpy

    units: Any = numpy.empty(degrees.size, numpy.int64)
    try:
        round_floats(memoryview(degrees.reshape(-1)), degrees.ctypes.data, precision, memoryview(units))
    except NotFinite as fault:
        raise ValueError(f"geometry {item_of(_geometry_of(rows, fault.place // 2), missing)}: {fault}") from None
    return write_units(rows, units, missing, style, limits)
