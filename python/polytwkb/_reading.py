"""Streams, and parts of them, read into memory for rows, points and the ends of geometries."""
from __future__ import annotations

from array import array
from typing import Any, Callable, NamedTuple, Tuple

from ._columns import POINT
from ._library import STOP_IF_FULL, CLimits, library
from ._memory import Memory, address_of, address_of_bytes, memory_of
from ._reasons import First, Status
from ._refused import Refused
from ._rows import ROW

# Bytes of the place at which a geometry ends.
END = 8


class Rooms(NamedTuple):
    """For how many rows, points and ends there is room."""

    rows: int
    points: int
    ends: int

    def among(self, other: Rooms, chosen: Callable[[int, int], int]) -> Rooms:
        """The one of two rooms, such as the least, of each of the three."""
        return Rooms(*(chosen(one, own) for one, own in zip(self, other)))


class Part(NamedTuple):
    """What one call has read, and the memory that it is in. Ends are counted from the first byte that was read."""

    counts: Any
    rows: Memory
    points: Memory
    ends: Memory

    def offsets(self, begin: int = 0) -> array[int]:
        """Where each geometry begins, and where the last one ends, if the first one begins there."""
        offsets = array("q", (begin,))
        ends = memoryview(self.ends)[: END * self.counts.done]
        if begin:
            offsets.extend(map(begin.__add__, ends.cast("q")))
        else:
            offsets.frombytes(ends)
        return offsets


# Less than what is in the caches of a processor, and rows enough that a call takes no time beside them.
_SOME = Rooms(1 << 12, 1 << 14, 1 << 12)


def _new_part(rooms: Rooms) -> Part:
    sizes = ROW * rooms.rows, POINT * rooms.points, END * rooms.ends
    rows, points, ends = (memory_of(max(size, POINT)) for size in sizes)
    return Part(None, rows, points, ends)


def _read_into(part: Part, rooms: Rooms, address: int, length: int, limits: CLimits, flags: int = 0) -> Part:
    """One call, which reads so many bytes from this address on."""
    rows, points, ends = map(address_of, part[1:])
    counts = library.polytwkb_read(
        address, length, rows, rooms.rows, points, rooms.points, ends, rooms.ends, limits, flags
    )
    return part._replace(counts=counts)


def _checked(part: Part, *more: int) -> Part:
    if part.counts.status not in (Status.DONE, Status.REFUSED, *more):
        raise MemoryError("out of memory")
    return part


def read_all(blobs: bytes, begin: int, end: int, limits: CLimits) -> Part:
    """All geometries of the bytes from one to another, up to one that is refused."""
    address, length = address_of_bytes(blobs) + begin, end - begin
    # A row has a byte at least, and a point and a blob have two.
    rooms = Rooms(length, length // 2, length // 2)
    try:
        return _checked(_read_into(_new_part(rooms), rooms, address, length, limits))
    except MemoryError:
        none = Rooms(0, 0, 0)
        counts = _read_into(_new_part(none), none, address, length, limits).counts
        rooms = Rooms(counts.needed_rows, counts.needed_points, counts.needed_rows)
        return _checked(_read_into(_new_part(rooms), rooms, address, length, limits))


class Reader:
    """Reads a stream by calls that end if there is no more room, in memory that is the same for all, or new for each."""

    def __init__(self, limits: CLimits, rooms: Rooms = _SOME, is_new: bool = False) -> None:
        self.limits, self.rooms, self.is_new = limits, rooms, is_new
        self.part = _new_part(Rooms(0, 0, 0) if is_new else rooms)

    def read(self, address: int, length: int) -> Part:
        """The geometries that are whole in so many bytes, as many as there is room for. There is room for one at least."""
        while True:
            rooms = self.rooms.among(Rooms(length, length // 2, length // 2), min) if self.is_new else self.rooms
            part = _new_part(rooms) if self.is_new else self.part
            part = _checked(_read_into(part, rooms, address, length, self.limits, STOP_IF_FULL), Status.TOO_SMALL)
            counts = part.counts
            if counts.done or counts.status != Status.TOO_SMALL:
                return part
            self.rooms = self.rooms.among(Rooms(counts.needed_rows, counts.needed_points, 1), max)
            self.part = self.part if self.is_new else _new_part(self.rooms)


def offsets_read(blobs: bytes, limits: CLimits) -> Tuple[Any, array[int]]:
    """Where each blob of a stream begins, and where the last one ends, up to a blob that is refused; and the counts, with
    the place and the number of this blob."""
    reader, address, offsets, done = Reader(limits), address_of_bytes(blobs), array("q", (0,)), 0
    while True:
        part = reader.read(address + offsets[-1], len(blobs) - offsets[-1])
        counts, begin = part.counts, offsets.pop()
        offsets += part.offsets(begin)
        done += counts.done
        if counts.status != Status.TOO_SMALL:
            counts.place, counts.done = begin + counts.place, done
            return counts, offsets


def of_counts(counts: Any, output: Any) -> Refused:
    """The refusal that the counts of a reading tell."""
    where = "" if counts.reason >= First.WHOLE else f"byte {counts.place}"
    return Refused(counts.reason, where, counts.place, 0, counts.done, output)
