#!/usr/bin/env python3
"""A column of encoded polylines to TWKB blobs and back, by ctypes: of a DataFrame where pandas is installed.

    convert.py /usr/local/lib/libpolytwkb.so

As a module: `library = convert.load(path)`, then `convert.blobs_of(library, ..)`. A call converts a whole column, which takes far less time
than a call for each line.
"""
import csv
import ctypes
import io
import sys

COLUMNS = ["depth", "kind", "id", "precision", "polyline"]
DONE, REFUSED, TOO_SMALL = 0, 1, 5
TEXT_ROOM = 32


class Limits(ctypes.Structure):
    _fields_ = [(name, ctypes.c_uint32) for name in ("nest", "nodes", "points")]


class Report(ctypes.Structure):
    _fields_ = [("status", ctypes.c_uint32), ("reason", ctypes.c_uint32)]
    _fields_ += [
        (name, ctypes.c_uint64) for name in ("place", "text_offset", "done", "sent", "needed", "taken", "taken_points")
    ]
    _fields_ += [("reserved", 2 * ctypes.c_uint64)]


class Refused(ValueError):
    """Why an input is refused, and where."""


def load(path):
    """The library in this file."""
    library = ctypes.CDLL(path)
    library.polytwkb_standard_limits.restype = Limits
    buffers = [ctypes.c_char_p, ctypes.c_size_t, ctypes.c_void_p, ctypes.c_size_t, Limits]
    for name, more in (("polytwkb_pack", [ctypes.c_uint32]), ("polytwkb_unpack", [])):
        getattr(library, name).argtypes = buffers + more
        getattr(library, name).restype = Report
    room = [ctypes.c_char_p, ctypes.c_size_t]
    for name, more in (("polytwkb_reason_text", [ctypes.c_uint32]), ("polytwkb_version", [])):
        getattr(library, name).argtypes = more + room
        getattr(library, name).restype = ctypes.c_size_t
    return library


def text_of(call, *reason):
    """The text that a call writes: of a reason, or of the version."""
    text = ctypes.create_string_buffer(TEXT_ROOM)
    call(*reason, text, TEXT_ROOM)
    return text.value.decode()


def refusal_of(library, report):
    """Why a call was not carried through, and the record or the byte where it stopped."""
    if report.status != REFUSED:
        return f"status {report.status}"
    return f"{text_of(library.polytwkb_reason_text, report.reason)} at {report.place}"


def convert(library, call, given, *style):
    """What a call writes, into a buffer that is made once more where it was too small."""
    room = len(given) + 64
    while True:
        output = ctypes.create_string_buffer(max(room, 1))
        report = call(given, len(given), output, room, library.polytwkb_standard_limits(), *style)
        if report.status == DONE:
            return output.raw[: report.sent]
        if report.status != TOO_SMALL or report.needed <= room:
            raise Refused(refusal_of(library, report))
        room = report.needed


def blobs_of(library, polylines, precision, style=0):
    """The stream of these encoded polylines, each a linestring of this precision."""
    text = io.StringIO()
    table = csv.writer(text)
    table.writerow(COLUMNS)
    table.writerows([0, "linestring", "", precision, line] for line in polylines)
    return convert(library, library.polytwkb_pack, text.getvalue().encode(), style)


def polylines_of(library, stream):
    """The encoded polylines of the linestrings in a stream."""
    rows = csv.DictReader(io.StringIO(convert(library, library.polytwkb_unpack, stream).decode()))
    return [row["polyline"] for row in rows if row["kind"] == "linestring"]


def frame_of(columns):
    """A DataFrame of these columns, or the columns by name where pandas is not installed."""
    try:
        import pandas
    except ImportError:
        return columns
    return pandas.DataFrame(columns)


def main(path):
    library = load(path)

    # The line from (1, 1) to (5, 5) is the blob that PostGIS writes.
    assert blobs_of(library, ["AAGG"], 0, 1).hex() == "02000202020808"

    # Google's example, a street in Bern, and a line without points: a column more with the blob of each.
    frame = frame_of({"polyline": ["_p~iF~ps|U_ulLnnqC_mqNvxq`@", "yop}Gysml@lAxTfChSgKhK", ""]})
    frame["twkb"] = [blobs_of(library, [line], 5) for line in frame["polyline"]]
    assert [line for blob in frame["twkb"] for line in polylines_of(library, blob)] == list(frame["polyline"])

    # A stream is the blobs one after the other, and is made and read by one call.
    stream = b"".join(frame["twkb"])
    assert stream == blobs_of(library, frame["polyline"], 5)
    assert polylines_of(library, stream) == list(frame["polyline"])
    print(f"{len(frame['polyline'])} polylines, {len(stream)} bytes: {stream.hex()}")

    # A stream that is cut before its last byte, and a polyline with a character that none has.
    for call in (lambda: polylines_of(library, stream[:-1]), lambda: blobs_of(library, ["AAGG", "AA!"], 5)):
        try:
            call()
        except Refused as fault:
            print(fault)
    print(f"by version {text_of(library.polytwkb_version)} of the library")


if __name__ == "__main__":
    main(sys.argv[1])
