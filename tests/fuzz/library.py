"""The calls of the library over guarded memory."""
import ctypes
import struct

GUARD = 0xA7
STOP_IF_FULL = 1


class Limits(ctypes.Structure):
    _fields_ = [(name, ctypes.c_uint32) for name in ("nest", "nodes", "points")]


def numbers(*names):
    """The fields of a result: two numbers of 32 bits, these of 64, and two that are reserved."""
    words = [("status", ctypes.c_uint32), ("reason", ctypes.c_uint32)] + [(name, ctypes.c_uint64) for name in names]
    return words + [("reserved", 2 * ctypes.c_uint64)]


class Counts(ctypes.Structure):
    _fields_ = numbers("place", "done", "rows", "points", "needed_rows", "needed_points", "taken")


class Report(ctypes.Structure):
    _fields_ = numbers("place", "text_offset", "done", "sent", "needed", "taken", "taken_points")


def fields_of(structure):
    """The fields; those that are reserved are 0."""
    assert list(structure.reserved) == [0, 0], "what is reserved is not 0"
    return tuple(getattr(structure, name) for name, _ in structure._fields_[:-1])


def guarded(size):
    return ctypes.create_string_buffer(bytes([GUARD]) * (size + 64), size + 64)


def written_in(memory, size):
    """The first bytes of guarded memory; the others are as they were."""
    assert memory.raw[size:] == bytes([GUARD]) * (len(memory) - size), "what was not written has changed"
    return memory.raw[:size]


class Library:
    def __init__(self, path):
        self.library = ctypes.CDLL(path)
        self.library.polytwkb_read.restype = Counts
        for name in ("convert", "write", "round"):
            getattr(self.library, "polytwkb_" + name).restype = Report

    def read(self, stream, rooms, limits, flags):
        """The counts, the bytes of rows and points up to what is as it was, and the ends; rooms are those of all three."""
        sizes = [size * room for size, room in zip((24, 16, 8), rooms)]
        memories, size = list(map(guarded, sizes)), ctypes.c_size_t
        outputs = [word for memory, room in zip(memories, rooms) for word in (memory, size(room))]
        counts = self.library.polytwkb_read(
            stream, size(len(stream)), *outputs, Limits(*limits), ctypes.c_uint32(flags)
        )
        used = 24 * counts.rows, 16 * counts.points, 8 * counts.done * (rooms[2] > 0)
        rows, points, ends = map(written_in, memories, used)
        return fields_of(counts), rows, points, list(struct.unpack(f"<{len(ends) // 8}Q", ends))

    def write(self, rows, points, rooms, limits, style, flags):
        """The report, the bytes that were sent, and the ends; rooms are those of both."""
        memories, size = [guarded(rooms[0]), guarded(8 * rooms[1])], ctypes.c_size_t
        given = rows, size(len(rows) // 24), points, size(len(points) // 16)
        outputs = [word for memory, room in zip(memories, rooms) for word in (memory, size(room))]
        most, numbers = Limits(*limits), map(ctypes.c_uint32, (style, flags))
        report = self.library.polytwkb_write(*given, *outputs, most, *numbers)
        used = report.sent, 8 * report.done * (rooms[1] > 0)
        sent, ends = map(written_in, memories, used)
        return fields_of(report), sent, list(struct.unpack(f"<{len(ends) // 8}Q", ends))

    def convert(self, number, stream, room, limits):
        """The report and the bytes that were sent."""
        memory, size = guarded(room), ctypes.c_size_t
        options = (ctypes.c_uint32 * 5)(20, 0, *limits)
        given = ctypes.c_uint32(number), stream, size(len(stream)), memory, size(room), options, size(len(options))
        report = self.library.polytwkb_convert(*given)
        return fields_of(report), written_in(memory, report.sent)

    def round(self, numbers, precision, room):
        """The fields of the report up to `needed`, and the units that were written."""
        units, size = guarded(8 * room), ctypes.c_size_t
        given = struct.pack(f"<{len(numbers)}d", *numbers)
        report = self.library.polytwkb_round(given, size(len(numbers)), ctypes.c_int32(precision), units, size(room))
        written = written_in(units, 8 * report.sent)
        return fields_of(report)[:7], list(struct.unpack(f"<{report.sent}q", written))
