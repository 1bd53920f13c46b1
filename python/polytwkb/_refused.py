"""Why an input is refused."""
from __future__ import annotations

from typing import Any, Optional, Tuple

from ._library import reason_text
from ._reasons import First, Reason

_NAMES = {number: name for name, number in vars(Reason).items() if not name.startswith("_")}


class Refused(ValueError):
    """An input is refused: `str()` is the line of the command, such as ``byte 13: truncated``.

    * ``reason``: the number, as include/polytwkb.h has it; ``code``: its name there, such as ``"BLOB_TRUNCATED"``;
    * ``text``: what it means, such as ``"truncated"``; of WKB it may say more, such as ``"Z coordinates"``;
    * ``place``: the record of a table or of a CSV, from 1; the byte of a stream, of an item of a list or of the text of a polyline, the row of arrays, the
      geometry or the point of a list, from 0;
    * ``text_offset``: the byte of the refused polyline, in its record or alone; of arrays the row's first point out of range, from 0; else 0;
    * ``done``: how many geometries came before, and are whole;
    * ``output``: what the call would have returned of these alone.

    It can be pickled, as what the call returns can be.
    """

    def __init__(
        self, reason: int, where: str, place: int, text_offset: int, done: int, output: Any, text: Optional[str] = None
    ) -> None:
        super().__init__(reason, where, place, text_offset, done)
        self.reason, self.place, self.text_offset, self.done, self.output = reason, place, text_offset, done, output
        self.code, self.text = _NAMES[reason], reason_text(reason) if text is None else text
        self._where = where

    def __reduce__(self) -> Tuple[Any, ...]:
        return Refused, (self.reason, self._where, self.place, self.text_offset, self.done, self.output, self.text)

    def __str__(self) -> str:
        return f"{self._where}: {self.text}" if self._where else self.text


def of_report(report: Any, output: Any) -> Refused:
    """The refusal that the report of a conversion tells."""
    if report.reason >= First.LINE:
        where = f"byte {report.place}"
    elif report.reason >= First.CSV:
        where = f"record {report.place}"
    elif report.reason >= First.WHOLE:
        where = ""
    elif report.reason >= First.BLOB:
        where = f"byte {report.place}"
    elif report.reason >= First.POLYLINE:
        where = f"record {report.place}: polyline at {report.text_offset}"
    else:
        where = f"record {report.place}"
    return Refused(report.reason, where, report.place, report.text_offset, report.done, output)
