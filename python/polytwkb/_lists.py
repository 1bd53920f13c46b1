"""Lists of blobs with gaps."""
from __future__ import annotations

from array import array
from itertools import accumulate, islice
from operator import itemgetter
from typing import Any, Callable, Iterable, Iterator, List, NamedTuple, Optional, Tuple, TypeVar, Union

from ._arrays import Arrays, in_arrays, read
from ._columns import POINT
from ._conversions import Buffer, Conversion, Limits, _bytes, _limits
from ._gaps import gapped
from ._library import CLimits, library
from ._memory import Memory, memory_of
from ._points import view_of
from ._reading import END, Part, offsets_read, read_all
from ._reasons import Reason, Status
from ._refused import Refused
from ._rows import ROW, Rows

_FULL = 0

Blobs = Union[Buffer, Iterable[Optional[Buffer]]]


class Listed(NamedTuple):
    """What was read of a stream or of a list of blobs."""

    arrays: Arrays
    items: int
    """How many items the list has; 0 for a stream."""
    places: Optional[List[int]]
    """Of each geometry the item that has it; None if each item has one, and of a stream."""
    faults: List[Tuple[int, Exception]]
    """Items that were kept apart, and why."""

    def refused(self) -> List[Exception]:
        """Why items were kept apart, in their order."""
        return [fault for _, fault in sorted(self.faults, key=itemgetter(0))]


def is_list(blobs: Any) -> bool:
    """Whether blobs are not in one buffer."""
    return view_of(blobs) is None and hasattr(blobs, "__iter__") and not isinstance(blobs, str)


def _item_bytes(items: Iterable[Any]) -> List[Optional[bytes]]:
    given = list(items)
    if set(map(type, given)) <= {bytes, type(None)}:
        return given
    given = gapped(given)
    return [None if item is None else _bytes(item, f"blob {place} is bytes") for place, item in enumerate(given)]


def measured(blobs: bytes, limits: CLimits) -> Any:
    """The report of reading blobs, without a result."""
    report = library.polytwkb_measure(Conversion.UNPACK, blobs, len(blobs), limits, _FULL)
    if report.status not in (Status.DONE, Status.REFUSED):
        raise MemoryError("out of memory")
    return report


def fault_of(place: int, item: bytes, limits: CLimits) -> Optional[Refused]:
    """Why an item of a list is not one blob; None if it is."""
    if not item:
        return Refused(Reason.BLOB_TRUNCATED, f"blob {place}: byte 0", 0, 0, place, None)
    report = measured(item, limits)
    if report.done == 0:
        return Refused(report.reason, f"blob {place}: byte {report.place}", report.place, 0, place, None)
    end = report.taken if report.done == 1 else offsets_read(item, limits)[1][1]
    return (
        Refused(Reason.BLOB_SIZE_MISMATCH, f"blob {place}: byte {end}", end, 0, place, None)
        if end < len(item)
        else None
    )


def _alike(ends: memoryview, stops: memoryview) -> int:
    """How many numbers are the same in both, from the first on."""
    if ends.nbytes == stops.nbytes and ends.tobytes() == stops.tobytes():
        return len(stops)
    return next(
        (place for place, (end, stop) in enumerate(zip(ends, stops)) if end != stop), min(map(len, (ends, stops)))
    )


class _Piece(NamedTuple):
    """What one call has read, and how many rows and points of it are those of items."""

    part: Part
    rows: int
    points: int


def _first_of(part: Part, geometries: int) -> _Piece:
    """The first geometries of what was read."""
    rows, points = part.counts.rows, part.counts.points
    if geometries < part.counts.done:
        table = Rows(part.rows, count=rows)
        begins = (row for row, depth in enumerate(table.depth) if not depth)
        rows = next(islice(begins, geometries, None))
        points = sum(table.counts[:rows])
    return _Piece(part, rows, points)


class _Items:
    """Blobs of a list, which are read by as few calls as items that are no blob allow. Each call reads some of them, up to
    such an item, and the next one reads on after that."""

    def __init__(self, items: List[bytes], limits: CLimits) -> None:
        self.limits, self.stream = limits, b"".join(items)
        self.stops = array("q", accumulate(map(len, items)))
        self.pieces: List[_Piece] = []

    def read(self, first: int, last: int) -> int:
        """Reads items from one to another, and returns the number of the first that is no blob; the last, if all are."""
        begin, end = (self.stops[place - 1] if place else 0 for place in (first, last))
        part = read_all(self.stream, begin, end, self.limits)
        stops = self.stops[first:last]
        if begin:
            stops = array("q", [stop - begin for stop in stops])
        count = _alike(memoryview(part.ends)[: END * part.counts.done].cast("q"), memoryview(stops))
        self.pieces.append(_first_of(part, count))
        return first + count

    def wrong(self) -> Iterator[int]:
        """Reads all items, and gives the number of each that is no blob. After one it reads few at once, then more."""
        first, step, count = 0, len(self.stops), len(self.stops)
        while first < count:
            last = min(first + step, count)
            first, step = self.read(first, last), 2 * step
            if first < last:
                yield first
                first, step = first + 1, 1

    def arrays(self, degrees: bool) -> Arrays:
        """The geometries that were read."""
        if len(self.pieces) == 1:
            part, rows, points = self.pieces[0]
            return in_arrays(part.rows, part.points, rows, points, degrees)
        row_count, point_count = sum(piece.rows for piece in self.pieces), sum(piece.points for piece in self.pieces)
        all_rows = _joined([memoryview(piece.part.rows)[: ROW * piece.rows] for piece in self.pieces])
        all_points = _joined([memoryview(piece.part.points)[: POINT * piece.points] for piece in self.pieces])
        return in_arrays(all_rows, all_points, row_count, point_count, degrees)


def _joined(parts: List[memoryview]) -> Memory:
    """These bytes one after the other, with room for one point at least."""
    memory, place = memory_of(max(sum(map(len, parts)), ROW)), 0
    with memoryview(memory) as view:
        for part in parts:
            view[place : place + len(part)] = part
            place += len(part)
    return memory


_Result = TypeVar("_Result")


def read_list(
    items: Iterable[Any],
    limits: Optional[Limits],
    collect: bool,
    result: Callable[[Listed], _Result],
    degrees: bool = True,
) -> _Result:
    """What `result` makes of a list of blobs. An item is one blob or None. Another one raises Refused, whose output is the
    result of the items before; or it is kept apart."""
    given, most = _item_bytes(items), _limits(limits)
    count, faults = len(given), []  # type: int, List[Tuple[int, Exception]]
    is_full = None not in given
    there = range(count) if is_full else [place for place, item in enumerate(given) if item is not None]
    reading = _Items([item for item in given if item is not None], most)
    refused = None
    for wrong in reading.wrong():
        place = there[wrong]
        fault = fault_of(place, given[place] or b"", most)
        if fault and not collect:
            refused, given = fault, given[:place]
            break
        if fault:
            faults.append((place, fault))
            given[place] = None
    places = [place for place, item in enumerate(given) if item is not None] if None in given else None
    found = result(Listed(reading.arrays(degrees), len(given), places, faults))
    if refused:
        refused.output = found
        raise refused
    return found


def read_blobs(
    blobs: Any, limits: Optional[Limits], collect: bool, result: Callable[[Listed], _Result], degrees: bool = True
) -> _Result:
    """What `result` makes of a stream or of a list of blobs. Of a stream nothing is kept apart."""
    if is_list(blobs):
        return read_list(blobs, limits, collect, result, degrees)
    if collect:
        raise ValueError("errors='collect' needs a list of blobs: after a fault in a stream no blob can be found")
    try:
        arrays = read(blobs, limits=limits, degrees=degrees)
    except Refused as refused:
        if isinstance(refused.output, Arrays):
            refused.output = result(Listed(refused.output, 0, None, []))
        raise
    return result(Listed(arrays, 0, None, []))


def in_places(found: List[Any], listed: Listed) -> List[Any]:
    """What was found of each geometry, at the place of its item; None at others."""
    if listed.places is None:
        return found
    made = [None] * listed.items
    for place, item in zip(listed.places, found):
        made[place] = item
    return made
