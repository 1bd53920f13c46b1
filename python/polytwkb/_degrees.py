"""Units to degrees and back, each by the precision of the geometry that it is in."""
from __future__ import annotations

import sys
from array import array
from itertools import repeat
from operator import truediv
from typing import Any, Iterator, List, Tuple, Union

from ._memory import address_of_bytes, memory_of
from ._rounding import NotFinite, round_floats
from ._rows import NO_PRECISION, Rows

# Numbers that are converted at once.
_PIECE = 1 << 14
# Floats have all whole numbers up to here.
_WHOLE = 1 << 53

# Coordinates that have one precision: those from one place to another, or of points whose places are in an array of numpy.
Chosen = Union[slice, Any]


def numpy_of() -> Any:
    """The module numpy if the program has imported it. The package does not need it, and imports it for few calls."""
    return sys.modules.get("numpy")


def _in_degrees(units: Any, precision: int) -> memoryview:
    """The floats next to whole numbers times 10^-precision."""
    above, below = 10 ** max(-precision, 0), 10 ** max(precision, 0)
    numpy = numpy_of()
    numbers = numpy and numpy.asarray(units)
    if numpy and -_WHOLE <= numbers.min(initial=0) and numbers.max(initial=0) <= _WHOLE:
        made = numbers.astype(float)
        made = numpy.multiply(made, above, out=made) if above > 1 else made
        return memoryview(numpy.divide(made, below, out=made))
    whole = units.tolist()
    scaled = [number * above for number in whole] if above > 1 else whole
    return memoryview(array("d", map(truediv, scaled, repeat(below))))


def put_degrees(units: memoryview, degrees: memoryview, precision: int) -> None:
    """Puts degrees of units. Both views may be on the same memory."""
    for start in range(0, len(units), _PIECE):
        degrees[start : start + _PIECE] = _in_degrees(units[start : start + _PIECE], precision)


def degrees_of(units: memoryview, precision: int) -> array[float]:
    """An array of the floats next to these whole numbers times 10^-precision."""
    degrees = array("d", bytes(8 * len(units)))
    put_degrees(units, memoryview(degrees), precision)
    return degrees


def _runs(rows: Rows, points: int) -> Iterator[Tuple[int, Chosen]]:
    """The precisions of rows that have so many points, one after the other, with the coordinates that have each."""
    start, end, precision = 0, 0, NO_PRECISION
    for own, count in zip(rows.precision, rows.counts):
        if own not in (NO_PRECISION, precision):
            yield precision, slice(start, end)
            start, precision = end, own
        end = min(end + 2 * count, 2 * points)
    yield precision, slice(start, end)


def _grouped(numpy: Any, table: Any, points: int) -> Iterator[Tuple[int, Chosen]]:
    """The same, once for each precision."""
    named = table["precision"] != NO_PRECISION
    own = table["precision"][named]
    if len(own) and own.min() == own.max():
        yield int(own[0]), slice(0, 2 * points)
        return
    rows = numpy.maximum.accumulate(numpy.where(named, numpy.arange(len(table)), 0))
    ends = numpy.minimum(numpy.cumsum(numpy.minimum(table["counts"], points), dtype=float), points).astype(int)
    of_points = numpy.repeat(table["precision"][rows], numpy.diff(ends, prepend=0))
    for precision in numpy.unique(own):
        yield int(precision), numpy.flatnonzero(of_points == precision)


def by_precision(rows: Rows, points: int) -> List[Tuple[int, Chosen]]:
    """The precisions that so many points have, from -8 to 7. Points of rows with another one, which are refused, are in
    none."""
    numpy = numpy_of()
    found = _grouped(numpy, numpy.asarray(rows), points) if numpy and len(rows) else _runs(rows, points)
    return [(precision, chosen) for precision, chosen in found if -8 <= precision <= 7]


def to_degrees(rows: Rows, units: memoryview) -> memoryview:
    """The degrees of units, in their place."""
    degrees = units.cast("B").cast("d")
    for precision, chosen in by_precision(rows, len(units) // 2):
        if isinstance(chosen, slice):
            put_degrees(units[chosen], degrees[chosen], precision)
        elif len(chosen):
            numpy = numpy_of()
            given, made = (numpy.asarray(view).reshape(-1, 2) for view in (units, degrees))
            made[chosen] = numpy.asarray(_in_degrees(given[chosen].reshape(-1), precision)).reshape(-1, 2)
    return degrees


def _first_not_finite(numpy: Any, numbers: Any) -> None:
    places = numpy.flatnonzero(~numpy.isfinite(numbers))
    if len(places):
        raise NotFinite(int(places[0]), numbers[places[0]])


def to_units(rows: Rows, floats: Union[bytes, array[float]]) -> memoryview:
    """The units of floats x, y, x, y, .. of 64 bits. In place of one that has no unit they have a number that is out of
    range. Raises NotFinite if one is not finite."""
    degrees = memoryview(floats).cast("B").cast("d")
    address = address_of_bytes(floats) if isinstance(floats, bytes) else floats.buffer_info()[0]
    units = memoryview(memory_of(max(degrees.nbytes, 8)))[: degrees.nbytes].cast("q")
    for precision, chosen in by_precision(rows, len(degrees) // 2):
        if isinstance(chosen, slice):
            try:
                round_floats(degrees[chosen], address + 8 * chosen.start, precision, units[chosen])
            except NotFinite as fault:
                raise NotFinite(chosen.start + fault.place, degrees[chosen.start + fault.place]) from None
        else:
            numpy = numpy_of()
            given, made = (numpy.asarray(view) for view in (degrees, units))
            _first_not_finite(numpy, given)
            some = given.reshape(-1, 2)[chosen].reshape(-1)
            own = numpy.zeros(len(some), numpy.int64)
            round_floats(memoryview(some), some.ctypes.data, precision, memoryview(own))
            made.reshape(-1, 2)[chosen] = own.reshape(-1, 2)
    return units
