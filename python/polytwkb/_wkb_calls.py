"""Blobs as WKB and back: the form that Shapely, GDAL, DuckDB, SpatiaLite and GeoPackage share."""
from __future__ import annotations

import math
import re
from bisect import bisect
from itertools import accumulate
from typing import Any, Iterable, List, Literal, Optional, Tuple, Union, overload

from ._conversions import Buffer, Limits, _bytes, _limits, is_chosen, show, style_of
from ._degrees import numpy_of
from ._gaps import gapped
from ._library import CLimits, library
from ._lists import Blobs, Listed, in_places, is_list, read_blobs
from ._memory import address_of, address_of_bytes, memory_of
from ._offsets import Packed, packed_of
from ._points import view_of
from ._reasons import Reason, Status
from ._refused import Refused
from ._rounding import power
from ._wkb import plain_wkb_of, wkb_of
from ._wkb_reader import Fault, Reader
from ._write_geometries import item_of
from ._writing import Units, packed, rows_of

# The bit of the metadata byte that says that there are ids.
_IDS = 4
_NO_DIGIT = re.compile("[^0-9A-Fa-f]")


def _with_ids(listed: Listed) -> List[int]:
    """The numbers of the geometries that have ids."""
    rows = listed.arrays.rows
    if b"\1" not in rows.has_id.tobytes():
        return []
    geometries = accumulate(int(depth == 0) for depth in rows.depth)
    return sorted({geometry - 1 for geometry, has_id in zip(geometries, rows.has_id) if has_id})


def _refusal(given: Any, listed: Listed, geometry: int, limits: Optional[Limits]) -> Refused:
    """The refusal of a geometry that has ids, with the byte that says so."""
    is_stream = listed.items == 0
    place = geometry if is_stream or listed.places is None else listed.places[geometry]
    headers = show(_bytes(given if is_stream else given[place], "a blob is bytes"), limits=limits)
    byte = next(header.offset for header in headers if header.metadata & _IDS) + 1
    where = f"byte {byte}" if is_stream else f"blob {place}: byte {byte}"
    text = "an id, which WKB cannot have: ids='drop' leaves ids out"
    return Refused(Reason.ID_NOT_ALLOWED, where, byte, 0, place, None, text)


def _made(given: Any, listed: Listed, drop: bool, collect: bool, limits: Optional[Limits]) -> List[Any]:
    """The WKB of what was read. Geometries with ids are refused, if ids are not dropped."""
    wkbs: List[Any] = (wkb_of if numpy_of() else plain_wkb_of)(listed.arrays)
    for geometry in () if drop else _with_ids(listed):
        refusal = _refusal(given, listed, geometry, limits)
        if not collect:
            refusal.output = in_places(wkbs, listed)[: refusal.done]
            raise refusal
        listed.faults.append((refusal.done, refusal))
        wkbs[geometry] = None
    return in_places(wkbs, listed)


@overload
def to_wkb(
    blobs: Blobs, *, limits: Optional[Limits] = None, errors: Literal["raise"] = "raise", ids: str = "raise"
) -> List[Optional[bytes]]:
    ...


@overload
def to_wkb(
    blobs: Blobs, *, limits: Optional[Limits] = None, errors: Literal["collect"], ids: str = "raise"
) -> Tuple[List[Optional[bytes]], List[Exception]]:
    ...


def to_wkb(blobs: Blobs, *, limits: Optional[Limits] = None, errors: str = "raise", ids: str = "raise") -> Any:
    """The geometries of a stream of blobs, or of a list of blobs, as WKB, each as bytes of its own: little-endian, of two
    dimensions, in degrees, without an SRID. An empty point has the coordinates NaN. It needs neither Shapely nor numpy.

    WKB has no ids: a geometry whose parts have ids raises Refused, at the byte that says that there are ids; with
    ``ids="drop"`` they are left out. Lists, gaps and `errors` are as in `geometries`.
    """
    collect, drop = is_chosen("errors", errors, "collect"), is_chosen("ids", ids, "drop")
    given = list(blobs) if is_list(blobs) else blobs  # type: ignore[arg-type]

    def result(listed: Listed) -> Any:
        made = _made(given, listed, drop, collect, limits)
        return (made, listed.refused()) if collect else made

    return read_blobs(given, limits, collect, result)


def _of_hex(text: str) -> Tuple[bytes, Optional[Fault]]:
    """The bytes of hexadecimal digits, up to the first byte that lacks one, and the fault there."""
    other = _NO_DIGIT.search(text)
    place = (other.start() if other else len(text)) // 2
    fault = None
    if other:
        fault = Fault(Reason.BLOB_BAD_TYPE, place, "no hexadecimal digit")
    elif len(text) % 2:
        fault = Fault(Reason.BLOB_TRUNCATED, place)
    return bytes.fromhex(text[: 2 * place]), fault


def _items(wkbs: Any) -> List[Any]:
    """The items of a list, or the one that is given."""
    if isinstance(wkbs, str) or view_of(wkbs) is not None:
        return [wkbs]
    if not hasattr(wkbs, "__iter__"):
        raise TypeError(f"WKB is bytes, or a list of bytes, not {type(wkbs).__name__}")
    return gapped(list(wkbs))


class _Taken:
    """What was read of a list: the rows of its geometries, gaps, the row at which each geometry begins, and the fault at
    which reading ended, with its item."""

    def __init__(self, precision: int, limits: CLimits) -> None:
        self.reader, self.precision = Reader(precision, limits), precision
        self.missing: List[int] = []
        self.starts: List[int] = []
        self.fault: Optional[Tuple[int, Fault]] = None

    def take(self, items: List[Any]) -> None:
        """Reads items up to a fault. What was read of the item that has it is kept."""
        for place, item in enumerate(items):
            if item is None:
                self.missing.append(place)
                continue
            self.starts.append(len(self.reader.kinds))
            try:
                if isinstance(item, str):
                    self.take_hex(item)
                else:
                    self.reader.take(_bytes(item, f"geometry {place} is bytes"))
            except Fault as fault:
                self.fault = place, fault
                return

    def take_hex(self, text: str) -> None:
        """Reads hexadecimal digits. A fault of the bytes before one that lacks a digit comes first, as it does of bytes."""
        item, lack = _of_hex(text)
        try:
            self.reader.take(item)
        except Fault as fault:
            is_cut = fault.reason == Reason.BLOB_TRUNCATED
            if lack is None or not is_cut or lack.reason == fault.reason:
                raise
        if lack is not None:
            raise lack

    def units(self) -> memoryview:
        """The coordinates of all points, rounded, of the geometries before the first fault in the order of the bytes."""
        floats = b"".join(self.reader.points)
        count, address = len(floats) // 8, address_of_bytes(floats)
        units = memoryview(memory_of(max(len(floats), 8)))[: len(floats)].cast("q")
        report = library.polytwkb_round(address, count, self.precision, address_of(units), count) if count else None
        if report and report.status == Status.REFUSED:
            row, byte = self.row_of(report.place)
            is_finite = math.isfinite(memoryview(floats).cast("d")[report.place])
            text = None if is_finite else "coordinate is no finite number"
            self.cut(bisect(self.starts, row) - 1, Fault(Reason.BLOB_RANGE, byte, text))
        elif self.fault:
            self.cut(len(self.starts) - 1, self.fault[1])
        return units[: 2 * sum(self.reader.counts)]

    def row_of(self, number: int) -> Tuple[int, int]:
        """The row that has one of all coordinates, and the byte where that begins."""
        ends = list(accumulate(self.reader.counts))
        row = bisect(ends, number // 2)
        return row, self.reader.begins[row] + 8 * number - 16 * (ends[row] - self.reader.counts[row])

    def cut(self, geometry: int, fault: Fault) -> None:
        """Keeps the geometries before the one whose fault it is."""
        self.fault = item_of(geometry, self.missing), fault
        self.missing = [gap for gap in self.missing if gap < self.fault[0]]
        self.reader.cut(self.starts[geometry])


def from_wkb(
    wkbs: Union[str, Buffer, Iterable[Union[str, Buffer, None]]],
    precision: int,
    *,
    style: str = "full",
    limits: Optional[Limits] = None,
) -> Packed:
    """Packs geometries in WKB to a stream of blobs, with so many decimals, -8 to 7, which members of collections have too.
    Coordinates are degrees, and the library rounds them. It needs neither Shapely nor numpy.

    WKB is bytes, or a str of hexadecimal digits: one geometry, or a list or column of them, in which a gap has no blob, as
    in `pack_geometries`. Bytes are in either order, and types those of ISO or EWKB. An SRID is passed over, since blobs
    have no place for it. A point whose coordinates are both NaN is empty.

    Raises Refused at the first item that is wrong, as ``geometry 3: byte 12: truncated``: its `done` is the item, its
    `place` the byte, and its `output` has the blobs of the items before. Z and M are refused, an empty point in a
    multipoint, and a coordinate that is out of range or not finite. Raises TypeError for other types.
    """
    decimals, number, most = power(precision), style_of(style), _limits(limits)
    taken = _Taken(decimals, most)
    taken.take(_items(wkbs))
    units = taken.units()
    found = packed_of(packed(rows_of(taken.reader.columns()), Units(units, True), most, number), taken.missing)
    if taken.fault:
        place, fault = taken.fault
        where = f"geometry {place}: byte {fault.place}"
        raise Refused(fault.reason, where, fault.place, 0, place, found, fault.text)
    return found
