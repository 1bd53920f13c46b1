"""Writes random calls, and what the native library answers to each, for differential.mjs.

    cases.py LIBRARY.so CASES SEED > FILE

Streams and tables come from the generators of tests/fuzz (random trees with every freedom of the formats, and slips),
with other limits than those have; polylines and points are made here. The room of the output is enough, or any
other. A record: the call, its numbers, the input, the report, and the whole room of the output afterwards, which was
full of 0xA5 before. The first calls are conversions, by their numbers. Arrays are points, then rows and then ends, for which the third room is, as it is for those of blobs that are written after these. Of arrays that are written, the second room is the number of points. Of a stream that
is read into arrays, the style is the flags, of arrays that are written the style and twice the flags, and of numbers that are rounded the precision and 8 more.
"""
import ctypes
import os
import random
import struct
import sys

sys.dont_write_bytecode = True
sys.path.insert(0, os.path.join(os.path.dirname(os.path.abspath(__file__)), "..", "..", "tests", "fuzz"))
import fuzz
from arrays import bytes_of_points, bytes_of_rows, some_arrays
from polyline import spelled
from rounding import some_double
from trees import some_tree

PACK, UNPACK, SHOW, GEOJSON, HEADERS, ENCODE, DECODE, READ, WRITE, ROUND = range(10)
NAMES = ("pack", "unpack", "show", "geojson", "headers", "encode", "decode", "read", "write", "round")
TOO_SMALL = 5
FILL = 0xA5
NUMBER, POINT, ROW, END = 8, 16, 24, 8
WILD = (2**62 - 1, 2**62, -(2**62), -(2**62) - 1, 2**63 - 1, -(2**63))
STEPS = (1, 15, 16, 500, 16384, 2**19, 2**20, 10**7)


class Limits(ctypes.Structure):
    _fields_ = [(name, ctypes.c_uint32) for name in ("nest", "nodes", "points")]


def longs(*names):
    return [(name, ctypes.c_uint64) for name in names]


STATUS = [("status", ctypes.c_uint32), ("reason", ctypes.c_uint32)]
RESERVED = [("reserved", ctypes.c_uint64 * 2)]


class Report(ctypes.Structure):
    _fields_ = [
        *STATUS,
        *longs("place", "text_offset", "done", "sent", "needed", "taken", "taken_points"),
        *RESERVED,
    ]


class Counts(ctypes.Structure):
    _fields_ = [
        *STATUS,
        *longs("place", "done", "rows", "points", "needed_rows", "needed_points", "taken"),
        *RESERVED,
    ]


def loaded(path):
    library = ctypes.CDLL(os.path.abspath(path))
    buffer, word = [ctypes.c_void_p, ctypes.c_size_t], ctypes.c_uint32
    for name, types in (
        ("convert", [word, *3 * buffer]),
        ("encode", 2 * buffer),
        ("decode", 2 * buffer),
        ("read", [*4 * buffer, Limits, word]),
        ("write", [*4 * buffer, Limits, word, word]),
        ("round", [*buffer, ctypes.c_int32, *buffer]),
    ):
        call = getattr(library, "polytwkb_" + name)
        call.argtypes, call.restype = types, Counts if name == "read" else Report
    return library


def options_of(limits, style):
    """The options of a conversion, as numbers of 32 bits."""
    return (ctypes.c_uint32 * 5)(20, style, *limits)


def some_number(chance):
    kind = chance.random()
    most = 30 if kind < 0.6 else 10**6 if kind < 0.9 else 2**62
    return chance.randint(-most, most)


def some_polyline(chance):
    text = bytearray()
    for _ in range(2 * chance.choice((0, 1, 2, 3, 8, 9, 40, 300))):
        text += spelled(some_number(chance))
    for _ in range(chance.choice((0, 0, 1, 1, 2))):
        place = chance.randrange(len(text) + 1)
        slip = chance.choice((b"", bytes([chance.randrange(256)]), b"~" * 13, b"_?", b"?", b"_" * 12 + b"G"))
        text[place : place + chance.randrange(3)] = slip
    return bytes(text)


def some_points(chance):
    """As bytes: mostly in range, mostly near one another."""
    numbers, at = [], [0, 0]
    wild = chance.random() < 0.3
    for _ in range(chance.choice((0, 1, 2, 3, 7, 8, 9, 16, 33, 200))):
        for axis in (0, 1):
            if wild and chance.random() < 0.2:
                at[axis] = chance.choice((*WILD, chance.getrandbits(64) - 2**63))
            else:
                step = chance.choice(STEPS)
                at[axis] = max(min(at[axis] + chance.randint(-step, step), 2**63 - 1), -(2**63))
        numbers += at
    return struct.pack(f"<{len(numbers)}q", *numbers)


def some_numbers(chance, precision):
    """Finite doubles as bytes, two for each point; mostly those that have a coordinate."""
    numbers = [some_double(chance, precision) for _ in range(chance.choice((0, 2, 8, 40, 200)))]
    most = 2.0**61 / 10.0 ** precision if chance.random() < 0.7 else sys.float_info.max
    return struct.pack(f"<{len(numbers)}d", *(number if abs(number) <= most else 0.0 for number in numbers))


def limits_of(chance, nest):
    """Often the standard ones, now and then out of range."""
    nodes = 1 << 20 if chance.random() < 0.7 else chance.choice((1, 2, 3, 5, 20, 1 << 20, 0, (1 << 20) + 1))
    points = 1 << 24 if chance.random() < 0.7 else chance.choice((0, 1, 2, 7, 40, 1 << 24, (1 << 24) + 1))
    return nest if chance.random() < 0.97 else chance.choice((33, 2**32 - 1)), nodes, points


class Call:
    """A random call: what, with which limits, style and input."""

    def __init__(self, library, seed, number):
        self.library = library
        self.chance = chance = random.Random(f"{seed}/{number}")
        self.limits, self.style, self.points = (0, 0, 0), 0, 0
        self.has_ends = chance.random() < 0.7
        kind = chance.random()
        if kind < 0.05:
            self.what, self.style = ROUND, chance.randrange(16)
            self.source = some_numbers(chance, self.style - 8)
        elif kind < 0.1:
            self.what, self.source = DECODE, some_polyline(chance)
        elif kind < 0.2:
            self.what, self.source = ENCODE, some_points(chance)
        elif kind < 0.35:
            self.of_arrays()
        else:
            self.of_case(fuzz.Case(seed, number))
            if self.what == UNPACK and kind < 0.6:
                self.what, self.style = READ, chance.randrange(2)

    def of_arrays(self):
        """Rows and points of trees, with slips: those that JavaScript's arrays can have."""
        chance = self.chance
        rows, points = some_arrays(chance, [some_tree(chance) for _ in range(chance.choice((0, 1, 1, 2, 3)))])
        rows = [(row[0], row[1] % 2**32, row[2] % 256, row[3] % 256, *row[4:]) for row in rows]
        self.what, self.style, self.points = WRITE, chance.randrange(4), len(points)
        self.source, self.limits = bytes_of_points(points) + bytes_of_rows(rows), limits_of(chance, 16)

    def of_case(self, case):
        chance = self.chance
        self.what, self.source = NAMES.index(case.words[0]), case.source
        if self.what != PACK:
            self.what = chance.choice((UNPACK, UNPACK, SHOW, GEOJSON, HEADERS))
        if chance.random() < 0.05:
            self.what = chance.randrange(ENCODE)  # a table that is unpacked, a stream that is packed
        if "plain" in case.words:
            self.style = 1
        elif chance.random() < 0.05:
            self.style = chance.choice((0, 0, 0, 0, 2))
        self.limits = limits_of(chance, case.nest)

    @property
    def enough(self):
        """Rooms that do, or nearly."""
        size = len(self.source)
        sizes = {PACK: size, ENCODE: 2 * size, DECODE: size // 2, READ: size, ROUND: size}
        ends = size + 64 if self.has_ends and self.what in (READ, WRITE) else 0
        return sizes.get(self.what, 20 * size) + 64, size // 2 + 8 if self.what == READ else self.points, ends

    def answer(self, rooms):
        """The report and the output."""
        first, second, _ = rooms
        size = {DECODE: POINT * first, READ: POINT * second + ROW * first}.get(self.what, first)
        ends = size + -size % END if self.what in (READ, WRITE) else size
        size = ends + END * rooms[2]
        given = ctypes.create_string_buffer(self.source, len(self.source) + 16)
        output = (ctypes.c_ubyte * max(size, 1)).from_buffer(bytearray([FILL]) * max(size, 1))
        call = getattr(self.library, "polytwkb_" + ("convert" if self.what < ENCODE else NAMES[self.what]))
        report = call(*self.arguments(ctypes.addressof(given), ctypes.addressof(output), ends, rooms))
        return report, bytes(output)[:size]

    def arguments(self, given, output, ends, rooms):
        size, limits, (first, second, third) = len(self.source), Limits(*self.limits), rooms
        to_ends = output + ends, third
        if self.what == READ:
            return given, size, output + POINT * second, first, output, second, *to_ends, limits, self.style
        if self.what == WRITE:
            rows = POINT * second
            arrays = given + rows, (size - rows) // ROW, given, second
            return *arrays, output, first, *to_ends, limits, self.style % 2, self.style // 2
        if self.what == ROUND:
            return given, size // NUMBER, self.style - 8, output, first // NUMBER
        if self.what < ENCODE:
            options = options_of(self.limits, self.style)
            return self.what, given, size, output, first, options, len(options)
        return given, size // (POINT if self.what == ENCODE else 1), output, first


def exactly(call, report):
    """Rooms that are as large as is needed, one more or less, or any others."""

    def near(size):
        return max(0, size + call.chance.choice((0, 0, 1, 1, 40, -1, -call.chance.randrange(size + 1))))

    ends = near(report.done) if call.has_ends and call.what in (READ, WRITE) else 0
    if call.what == READ:
        return near(report.rows), near(report.points), ends
    return near(report.sent), call.points, ends


def recorded(call):
    rooms = call.enough
    report, output = call.answer(rooms)
    if report.status != TOO_SMALL and call.what != ROUND:
        rooms = exactly(call, report)
        report, output = call.answer(rooms)
    report = bytes(report)
    numbers = *call.limits, *rooms, len(call.source), len(report), len(output)
    return struct.pack("<BBxx9I", call.what, call.style, *numbers) + call.source + report + output


def main():
    library, cases, seed = loaded(sys.argv[1]), int(sys.argv[2]), sys.argv[3]
    for number in range(cases):
        sys.stdout.buffer.write(recorded(Call(library, seed, number)))


if __name__ == "__main__":
    main()
