"""All refusals of a table or of blobs, geometry by geometry."""
from __future__ import annotations

import ctypes
import re
from typing import Any, Iterable, Iterator, List, Optional, Union

from ._conversions import Buffer, Conversion, Limits, _bytes, _limits, table_bytes
from ._gaps import gapped
from ._library import CLimits, library
from ._lists import fault_of, measured
from ._points import view_of
from ._reasons import First, Status
from ._refused import Refused, of_report

_FULL = 0
_HEADER = b"depth,kind,id,precision,polyline\n"
# What no text begins with: a control character, or a tab or a line end after a byte that is no character of UTF-8 alone. The
# second byte of a blob has no bit above the lowest five.
_NO_TEXT = re.compile(rb"[\0-\x08\x0b\x0c\x0e-\x1f]|[\x80-\xff][\t\n\r]")
_FIELD = rb'(?:"[^"]*(?:""[^"]*)*(?:"[^,\r\n]*)?|[^,\r\n]*)'
# A record after line ends, and whether its first field is 0, which may be quoted in three ways. An empty line is no record.
_RECORD = re.compile(
    rb'[\r\n]*(?:((?:0|"0"|""0|"0\Z)(?=[,\r\n]|\Z))|(?=[^\r\n]))' + _FIELD + rb"(?:," + _FIELD + rb")*"
)


class _Records:
    """The records of a table, one after the other: the number of the last that was looked at, and how many geometries began up to it."""

    def __init__(self, table: bytes) -> None:
        self.table, self.offset, self.number, self.geometries = (
            table,
            3 if table.startswith(b"\xef\xbb\xbf") else 0,
            0,
            0,
        )

    def next(self) -> Union[int, bool, None]:
        """Goes to the next record: where it begins, if it begins a geometry; None if it is within one, False after the last."""
        record = _RECORD.match(self.table, self.offset)
        if not record:
            return False
        self.number += 1
        self.offset = record.end()
        if record.start(1) < 0:
            return None
        self.geometries += 1
        return record.start(1)

    def go_to(self, number: int) -> None:
        """Goes to the record with this number."""
        while self.number < number and self.next() is not False:
            pass

    def next_geometry(self) -> Union[int, bool]:
        """Goes to the next record of depth 0, and returns where it begins; False if there is none."""
        start: Union[int, bool, None] = None
        while start is None:
            start = self.next()
        return start


def _measured(address: Any, length: int, limits: CLimits) -> Any:
    report = library.polytwkb_measure(Conversion.PACK, address, length, limits, _FULL)
    if report.status not in (Status.DONE, Status.REFUSED):
        raise MemoryError("out of memory")
    return report


def _of_table(given: bytes, limits: CLimits) -> List[Refused]:
    """The refusals of a table. After one, the table goes on at the next row of depth 0, with the header before it."""
    table = bytearray(given)
    memory = (ctypes.c_char * len(table)).from_buffer(table)
    address, start, before = ctypes.addressof(memory), 0, 0
    refusals: List[Refused] = []
    records = _Records(given)
    while True:
        report = _measured(address + start, len(table) - start, limits)
        if report.status == Status.DONE:
            return refusals
        if report.reason < First.WHOLE:
            report.place += before
            records.go_to(report.place)
        report.done = max(records.geometries - 1, 0)
        refusals.append(of_report(report, None))
        found = records.next_geometry() if 1 < report.place else False
        if found is False:
            return refusals
        start, before = found - len(_HEADER), records.number - 2
        table[start:found] = _HEADER


def _of_stream(stream: bytes, limits: CLimits) -> List[Refused]:
    """The first refusal of a stream of blobs: after it no blob can be found."""
    report = measured(stream, limits)
    return [of_report(report, None)] if report.status == Status.REFUSED else []


def _of_blobs(blobs: Iterable[Any], limits: CLimits) -> List[Refused]:
    items = gapped(list(blobs))
    given = ((place, _bytes(blob, f"blob {place} is bytes")) for place, blob in enumerate(items) if blob is not None)
    faults = (fault_of(place, blob, limits) for place, blob in given)
    return [fault for fault in faults if fault]


def check(given: Union[str, Buffer, Iterable[Optional[Buffer]]], *, limits: Optional[Limits] = None) -> List[Refused]:
    """Why a table (str or bytes), a list of blobs or a stream of them is refused: the first refusal of each geometry, and an empty list if
    all are accepted.

    After a refused record of a table, its geometry is passed over to the next row whose depth is 0. Of a list, each item is looked at by
    itself: it is one blob, as for `geometries`, or a gap, which passes. Bytes are a stream if one of the first two is a control character,
    but for tabs and line ends, or if the second is one of these after a byte of 80 or more; a stream has its first refusal alone, since
    after it no blob can be found. Other bytes are a table, as is a stream whose first blob has the metadata byte 09, 0A or 0D, and a
    precision from 1 to 3 or from -4 to -2: give a list of its blobs. `place` of a refusal is the record of the table or the byte of the
    item, `done` the number of the geometry or of the item, from 0, and `output` is None. A table without its header has that refusal alone.
    Raises TypeError for what is neither a table nor blobs, and for an item that is no buffer.
    """
    most = _limits(limits)
    if isinstance(given, str) or view_of(given) is not None:
        found = table_bytes(given)  # type: ignore[arg-type]
        is_stream = not isinstance(given, str) and _NO_TEXT.search(found, 0, 2)
        return (_of_stream if is_stream else _of_table)(found, most)
    try:
        blobs: Iterator[Any] = iter(given)  # type: ignore[arg-type]
    except TypeError:
        raise TypeError(
            f"a table is a str or bytes, and blobs are a list of bytes, not {type(given).__name__}"
        ) from None
    return _of_blobs(blobs, most)
