"""Conversions of streams, each into any room, beside the second implementation."""
import re
import struct
from itertools import accumulate

import blob
from fuzz import some_stream
from geojson import text_of
from geometry import KINDS, mapping_of
from pieces import MOST_CALLS, ends_in, some_room
from table import HEADER_LINE, rows_text

HEADER = struct.Struct("<QQQIBbBx")


def line_of(geometry):
    return f"{text_of(mapping_of(geometry))}\n".encode()


def header_of(fields):
    """The record of the fields of a line of `show`."""
    level, offset, kind, precision, metadata, length, points = fields
    numbers = map(int, (offset, length, points, level))
    return HEADER.pack(*numbers, KINDS.index(kind) + 1, int(precision), int(metadata, 16))


def headers_of(lines):
    return b"".join(header_of(line.split(" ")) for line in lines.decode().splitlines())


# What each conversion of a stream writes before all, and of each geometry and its lines, by its number.
CONVERSIONS = {
    1: (HEADER_LINE, lambda geometry, lines: rows_text(geometry)),
    2: (b"", lambda geometry, lines: lines),
    3: (b"", lambda geometry, lines: line_of(geometry)),
    4: (b"", lambda geometry, lines: headers_of(lines)),
}
# Those whose output has no places of the stream.
WITHOUT_OFFSETS = 1, 3


class Listings:
    """Needs `library`, `package`, and the numbers of reasons by their texts in `blob_reasons`."""

    def listing(self, chance, limits):
        """What a stream is converted to, by each conversion, into any room; and what the package gives of it."""
        stream = some_stream(chance, limits[0])
        geometries, lines, fault = blob.spelled_in(stream, limits[0])
        for number, (first, made) in CONVERSIONS.items():
            texts = list(map(made, geometries, lines))
            self.converted(chance, stream, limits, number, first, texts, fault)
            if number in WITHOUT_OFFSETS:
                self.converted_in_windows(chance, stream, limits, number, first, texts, fault)
        self.met("listing " + (fault[1] if fault else "ok"))
        self.listed_by_package(stream, limits, geometries, lines, fault)

    def converted(self, chance, stream, limits, number, first, texts, fault):
        whole = first + b"".join(texts)
        room = some_room(chance, len(whole))
        done = sum(end <= room for end in accumulate(map(len, texts), initial=len(first))) - (len(first) <= room)
        status = 5 if room < len(whole) else 1 if fault else 0
        place, reason = (fault[0], self.blob_reasons[fault[1]]) if status == 1 else (0, 0)
        taken = (ends_in(stream, done) or [0])[-1]
        sent = whole[:room]
        wanted = (status, reason, place, 0, done, len(sent), len(whole), taken, 0), sent
        found = self.library.convert(number, stream, room, limits)
        told = f"conversion {number} of {stream.hex()} into {room}, limits {limits}"
        assert found == wanted, f"{told}: {found}, not {wanted}"

    def converted_in_windows(self, chance, stream, limits, number, first, texts, fault):
        """A stream that is converted by windows, each from where the last one has taken all, gives what one call gives."""
        window, room = chance.randrange(1 + len(stream) // MOST_CALLS, len(stream) + 2), chance.randrange(64)
        output, place, done = first, 0, 0
        while True:
            fields, sent = self.library.convert(number, stream[place : place + window], room, limits)
            status, reason, at, count, needed, taken = *fields[:3], fields[4], *fields[6:8]
            if status == 5:
                room = needed
                continue
            output, done, is_last = output + sent[len(first) :], done + count, place + window >= len(stream)
            if status == 1 and (is_last or reason != self.blob_reasons["truncated"]):
                break
            if status == 0 and is_last:
                break
            place, window = place + taken, window if taken else 2 * window
        found = output, done, (place + at, reason) if status == 1 else None
        wanted = first + b"".join(texts), len(texts), fault and (fault[0], self.blob_reasons[fault[1]])
        assert found == wanted, f"conversion {number} of {stream.hex()} in windows: {found}, not {wanted}"

    def listed_by_package(self, stream, limits, geometries, lines, fault):
        fields = [re.split(" ", line) for part in lines for line in part.decode().splitlines()]
        headers = [
            (int(level), int(offset), kind, int(precision), int(metadata, 16), int(length), int(points))
            for level, offset, kind, precision, metadata, length, points in fields
        ]
        wanted = {"to_geojson": b"".join(map(line_of, geometries)).decode(), "show": headers}
        for name, expected in wanted.items():
            refused = None
            try:
                found = getattr(self.package, name)(stream, limits=self.package.Limits(*limits))
            except self.package.Refused as caught:
                refused, found = caught, caught.output
            assert found == expected, f"{name} of {stream.hex()}: {found}, not {expected}"
            assert (
                refused and (refused.place, refused.text)
            ) == fault, f"{name} of {stream.hex()} is refused otherwise: {refused}"
