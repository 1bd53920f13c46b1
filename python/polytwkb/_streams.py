"""Streams of blobs whose bytes come in pieces."""
from __future__ import annotations

from functools import partial
from typing import Any, Iterable, Iterator, Literal, Optional, Protocol, Union, overload

from ._arrays import Arrays, arrays_of
from ._conversions import Buffer, Limits, _bytes, _limits
from ._geometries import Mapping, mappings_of
from ._library import CLimits
from ._lists import Listed
from ._memory import address_of
from ._offsets import size_of
from ._reading import Part, Reader, Rooms
from ._reasons import First, Reason, Status
from ._refused import Refused

# Bytes that are asked for at once.
_PIECE = 1 << 20
# Fewer bytes of a blob are looked at each time that some come; more, when they are twice as many.
_OFTEN = 1 << 16
# The most that arrays have, unless one geometry has more: less than 4 MB.
_MOST = Rooms(1 << 16, 1 << 17, 1 << 16)
_FORMS = "blobs", "arrays", "geometries"


class Readable(Protocol):
    """A binary file, a pipe, a response."""

    def read(self, size: int, /) -> bytes:
        ...


def _pieces_of(source: Any) -> Iterator[bytes]:
    """The bytes of a file as they come, or those of a list."""
    read = getattr(source, "read1", getattr(source, "read", None))
    pieces = source if read is None else iter(partial(read, _PIECE), b"")
    if isinstance(source, (str, bytes, bytearray, memoryview)) or not hasattr(pieces, "__iter__"):
        raise TypeError(f"a source is a binary file or pieces of bytes, not {type(source).__name__}")
    return (_bytes(piece, "a piece is bytes") for piece in pieces)


class _Held:
    """The bytes that have come and are no whole blob yet."""

    def __init__(self, limits: CLimits, form: str, degrees: bool) -> None:
        self.form, self.degrees = form, degrees
        self.reader = Reader(limits) if form == "blobs" else Reader(limits, _MOST, is_new=True)
        self.bytes, self.offset, self.done, self.due = bytearray(), 0, 0, 1

    def refusal(self, place: int, report: Any) -> Refused:
        """A refusal at its place in the whole stream. All geometries before it were given."""
        place += self.offset + report.place
        where = "" if report.reason >= First.WHOLE else f"byte {place}"
        return Refused(report.reason, where, place, 0, self.done, b"" if self.form == "blobs" else None)

    def made(self, part: Part, place: int) -> Iterator[Any]:
        """What is given of geometries as soon as they are read."""
        if self.form == "blobs" or not part.counts.done:
            return
        arrays = arrays_of(part, self.degrees, self.offset + place)
        if self.form == "arrays":
            yield arrays
        else:
            yield from mappings_of(Listed(arrays, 0, None, []))

    def take(self, ended: bool) -> Iterator[Any]:
        """What is whole, if anything is; then it raises what is wrong after that. At the end a cut blob is."""
        if not self.bytes or not ended and len(self.bytes) < self.due:
            return
        place, status, fault = 0, Status.TOO_SMALL, None
        while status == Status.TOO_SMALL:
            part = self.reader.read(address_of(self.bytes) + place, len(self.bytes) - place)
            counts, status = part.counts, part.counts.status
            self.done += counts.done
            if status == Status.REFUSED and (ended or counts.reason != Reason.BLOB_TRUNCATED):
                fault = self.refusal(place, counts)
            yield from self.made(part, place)
            place += counts.taken
        if place and self.form == "blobs":
            yield bytes(memoryview(self.bytes)[:place])
        if fault:
            raise fault
        self.drop(place)

    def drop(self, end: int) -> None:
        del self.bytes[:end]
        self.offset += end
        held = len(self.bytes)
        more, whole = held + 1 if held < _OFTEN else 2 * held, size_of(self.bytes)
        self.due = min(whole, max(more, _OFTEN)) if whole > held else more


def _streamed(pieces: Iterator[bytes], held: _Held) -> Iterator[Any]:
    for piece in pieces:
        held.bytes += piece
        yield from held.take(False)
    yield from held.take(True)


@overload
def stream(
    source: Union[Readable, Iterable[Buffer]], *, form: Literal["blobs"] = "blobs", limits: Optional[Limits] = None
) -> Iterator[bytes]:
    ...


@overload
def stream(
    source: Union[Readable, Iterable[Buffer]],
    *,
    form: Literal["arrays"],
    limits: Optional[Limits] = None,
    degrees: bool = True,
) -> Iterator[Arrays]:
    ...


@overload
def stream(
    source: Union[Readable, Iterable[Buffer]], *, form: Literal["geometries"], limits: Optional[Limits] = None
) -> Iterator[Mapping]:
    ...


def stream(
    source: Union[Readable, Iterable[Buffer]],
    *,
    form: str = "blobs",
    limits: Optional[Limits] = None,
    degrees: bool = True,
) -> Iterator[Any]:
    """The geometries of a stream as far as its bytes have come, in one of these forms:

    * ``"blobs"``: each turn gives the blobs that are whole since the last one, as bytes one after the other, which `read`,
      `geometries` and the other calls take;
    * ``"arrays"``: each turn gives `Arrays` of some of these geometries, as `read` does, with their places in the whole
      stream as offsets; `degrees` is as in `read`;
    * ``"geometries"``: each turn gives one geometry, as a mapping, as `geometries` does.

    A blob is never cut, and each is read once. What is kept is less than one blob and one piece, and arrays of at most
    65,536 rows and 131,072 points, unless one geometry has more.

    The source is a binary file, whose method ``read1`` or ``read`` is asked for 1 MB at a time, or pieces of bytes. Raises
    Refused, with its place in the whole stream, after what is before it was given; also if the last blob is cut. Raises
    TypeError for a source that is neither, and for pieces that are no bytes; ValueError for another form.
    """
    if form not in _FORMS:
        raise ValueError(f"a form is 'blobs', 'arrays' or 'geometries', not {form!r}")
    return _streamed(_pieces_of(source), _Held(_limits(limits), form, degrees))
