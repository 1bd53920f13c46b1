"""A column of a CSV to a stream, and a stream to a CSV of one column."""
from __future__ import annotations

import functools
import operator
from typing import Any, Iterable, Optional, Tuple, Union

from ._conversions import Buffer, Conversion, Limits, _bytes, _limits, style_of
from ._library import filled, library, options_of, some_bytes
from ._reasons import Status
from ._refused import of_report

# What a precision is less than its number among the options, of which 0 is none.
_PRECISION_SHIFT = 9
_NO_DELIMITERS = '"\r\n\0'
# A record of a column is not twice as long as its blob, but for the shortest ones, and has a line end.
_ROOM = 3


def _word(what: str, given: Any) -> bytes:
    """The bytes of a name or of a word, ended as the library takes them."""
    if not isinstance(given, (str, bytes)):
        raise TypeError(f"{what} is a str or bytes, not {type(given).__name__}")
    word = given.encode("utf-8", "surrogatepass") if isinstance(given, str) else given
    if 0 in word:
        raise ValueError(f"{what} has no zero byte: {given!r}")
    return word + b"\0"


def _ids(ids: Optional[Union[str, bytes]]) -> bytes:
    """The name of the column of ids, ended, and an empty one if there is none."""
    if ids is not None and not ids:
        raise ValueError("a column of ids has a name")
    return _word("a column of ids", "" if ids is None else ids)


def _nulls(nulls: Any) -> bytes:
    """The words for a missing value, each ended."""
    if isinstance(nulls, (str, bytes)):
        raise TypeError(f"nulls are a list of words, not {type(nulls).__name__}")
    return b"".join(_word("a word for a missing value", null) for null in nulls)


def _delimiter(given: Any) -> int:
    """The byte between two fields."""
    if not isinstance(given, str):
        raise TypeError(f"a delimiter is a str, not {type(given).__name__}")
    if len(given) != 1 or not given.isascii() or given in _NO_DELIMITERS:
        raise ValueError(f"a delimiter is one ASCII character, but no quote, CR or LF, not {given!r}")
    return ord(given)


def _precision(given: Any) -> int:
    """The number of a precision among the options."""
    precision = operator.index(given)
    if not -8 <= precision <= 7:
        raise ValueError(f"a precision is from -8 to 7, not {precision}")
    return precision + _PRECISION_SHIFT


def _converted(
    conversion: int, given: bytes, room: int, words: bytes, limits: Optional[Limits], style: int, *more: int
) -> Tuple[Any, memoryview]:
    """The report and the output of a conversion of a column."""
    options = options_of(_limits(limits), style, *more)
    call = functools.partial(library.polytwkb_convert_column, conversion)
    report, output = filled(call, given, len(given), room, some_bytes, words, len(words), options, len(options))
    return report, memoryview(output)[: report.sent]


def pack_column(
    csv: Union[str, Buffer],
    column: Union[str, bytes],
    precision: int,
    *,
    ids: Optional[Union[str, bytes]] = None,
    nulls: Iterable[Union[str, bytes]] = (),
    delimiter: str = ",",
    style: str = "full",
    limits: Optional[Limits] = None,
) -> bytes:
    """Packs a column of a CSV, whose fields are encoded polylines, to a stream: a linestring for each record after the
    header, in its order, and an empty one for an empty field.

    `precision` is the number of decimals, -8 to 7; `nulls` are words for a missing value, such as ``["NULL"]``. With
    `ids`, the name of a column of whole numbers, the records are the lines of one multilinestring, with these ids.

    Raises Refused at the first record that is wrong, whose `place` counts the header as 1; its `output` has the blobs of
    the records before, but for the last of them. Raises TypeError and ValueError for other arguments.
    """
    number, words = style_of(style), _word("a column", column) + _ids(ids) + _nulls(nulls)
    given = csv.encode("utf-8", "surrogatepass") if isinstance(csv, str) else _bytes(csv, "a CSV is a str or bytes")
    more = _precision(precision), _delimiter(delimiter)
    report, output = _converted(Conversion.PACK, given, len(given) + 64, words, limits, number, *more)
    found = bytes(output)
    if report.status == Status.REFUSED:
        raise of_report(report, found)
    return found


def unpack_column(blobs: Buffer, column: str, *, delimiter: str = ",", limits: Optional[Limits] = None) -> str:
    """Unpacks a stream of linestrings to a CSV of one column: its name, then an encoded polyline for each blob, with
    quotes if it has the delimiter. All have to have one precision, which the CSV has not.

    Raises Refused at the first blob that is wrong, no linestring, or of another precision than the first; its `output`
    has the records of the blobs before. Raises TypeError and ValueError for other arguments.
    """
    if not isinstance(column, str):
        raise TypeError(f"a column is a str, not {type(column).__name__}")
    words, given = _word("a column", column), _bytes(blobs, "a stream of blobs is bytes")
    room = _ROOM * len(given) + 2 * len(words) + 64
    report, output = _converted(Conversion.UNPACK, given, room, words, limits, 0, 0, _delimiter(delimiter))
    found = str(output, "utf-8", "surrogatepass")
    if report.status == Status.REFUSED:
        raise of_report(report, found)
    return found
