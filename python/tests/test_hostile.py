"""Random calls and little memory: each call answers or raises what it may, and the interpreter lives on.

    CASES=100000 python3 -m unittest test_hostile        more of them; SEED for the same again
"""
import os
import random
import subprocess
import sys
import time
import unittest
from array import array

import polytwkb
import vectors

try:
    import numpy
except ImportError:
    numpy = None

CASES = int(os.environ.get("CASES", "20000"))
SEED = int(os.environ.get("SEED", time.strftime("%Y%m%d", time.gmtime())))
ALLOWED = (polytwkb.Refused, TypeError, ValueError, MemoryError)


def all_of_stream(*given):
    """All that `stream` gives."""
    return list(polytwkb.stream(*given))


CALLS = (
    polytwkb.pack,
    polytwkb.unpack,
    polytwkb.show,
    polytwkb.to_geojson,
    polytwkb.split,
    polytwkb.encode,
    polytwkb.decode,
    polytwkb.decode_flat,
    polytwkb.check,
    polytwkb.read,
    polytwkb.geometries,
    polytwkb.in_units,
    polytwkb.in_degrees,
    polytwkb.write,
    polytwkb.write,
    polytwkb.pack_geometries,
    all_of_stream,
    *([polytwkb.ragged, polytwkb.pack_ragged] if numpy else []),
)
# How many arguments a call takes at least, where that is not one.
ARGUMENTS = {"in_units": 2, "in_degrees": 2, "pack_geometries": 2, "pack_ragged": 2}
BLOBS = [bytes.fromhex(vector["hex"]) for vector in vectors.postgis()]
TABLES = ["".join(row + "\n" for row in vector["rows"]) for vector in vectors.postgis()]
TEXTS = [text for text, _, _ in vectors.polylines()]


def changed(chance, given):
    """The bytes with some of them cut, changed, added or given twice."""
    given = bytearray(given)
    for _ in range(chance.choice([0, 1, 1, 2, 8])):
        place = chance.randrange(len(given) + 1)
        other = chance.randrange(len(given) + 1)
        given[place:other] = chance.choice(
            [b"", bytes([chance.randrange(256)]), given[other:place], b"\xff" * 9, b"0,point,,0,AA\n"]
        )
    return bytes(given)


def number(chance):
    return chance.choice(
        [
            0,
            1,
            -1,
            5,
            1.5,
            -180.0,
            1 << 62,
            -(1 << 62),
            1 << 63,
            10**40,
            float("nan"),
            float("inf"),
            None,
            "7",
            chance.random() * 360,
        ]
    )


def buffer(chance):
    """An array of any type, any shape and any order."""
    kind = chance.choice("bBhHiIqQfd")
    flat = array(kind, [chance.randrange(100) for _ in range(2 * chance.randrange(12))])
    if numpy and chance.randrange(2):
        kinds = ["i1", "i4", "i8", "u8", ">i8", "f2", "f4", "f8", ">f8", "?", "O", "U3", "c16", "M8[s]", "i8,i8"]
        made = numpy.array(flat).astype(chance.choice(kinds))
        shape = chance.choice([(-1,), (-1, 2), (2, -1), (-1, 1), (1, -1, 2), (-1, 2)])
        made = made.reshape(shape) if made.size or -1 not in shape else made
        return chance.choice([made, made.T, made[::-1], made[::2], numpy.asfortranarray(made)])
    view = memoryview(flat)
    columns = view.cast("B").cast(kind, [len(flat) // 2, 2]) if flat else view
    return chance.choice([flat, view, view[::-1], view[::2], view.toreadonly(), view.cast("B"), columns])


def value(chance):
    """Something that a call may be given: mostly of its type, and mostly not as it should be."""
    kind = chance.randrange(11)
    if kind < 2:
        return changed(chance, b"".join(chance.choices(BLOBS, k=chance.randrange(4))))
    if kind < 4:
        return changed(
            chance, (vectors.HEADER + "".join(chance.choices(TABLES, k=chance.randrange(4)))).encode()
        ).decode("latin-1")
    if kind == 4:
        return changed(chance, b"".join(chance.choices(TEXTS, k=chance.randrange(4))))
    if kind == 5:
        return [
            tuple(number(chance) for _ in range(chance.choice([2, 2, 2, 2, 1, 3]))) for _ in range(chance.randrange(5))
        ]
    if kind == 6:
        return array(
            "q", [chance.randrange(-(1 << 63), 1 << 63) >> chance.randrange(64) for _ in range(chance.randrange(9))]
        )
    if kind == 7:
        return chance.choice([bytearray, memoryview])(chance.choice(BLOBS))
    if kind == 8:
        return buffer(chance)
    if kind == 9:
        return [
            chance.choice([blob, blob, changed(chance, blob), None])
            for blob in chance.choices(BLOBS, k=chance.randrange(4))
        ]
    return chance.choice(
        [
            None,
            7,
            "",
            b"",
            [],
            {},
            object(),
            "\ud800",
            "\x00",
            "ä",
            array("d", [1, 2]),
            memoryview(b"12345678")[::3],
            range(3),
        ]
    )


def column(chance, count):
    """A column of rows, of any type, mostly of so many numbers."""
    count = chance.choice([count, count, count, count + 1, 0])
    numbers = [
        chance.choice(
            [0, 0, 1, 1, 2, 3, 4, 8, -128, -1, 9, 1 << 16, 1 << 63, None, 1.5, "7"][: chance.choice([8, 8, 9, 16])]
        )
        for _ in range(count)
    ]
    return chance.choice([numbers, numbers, chance.choice([0, 1, 2, 4, -128, 5]), buffer(chance)])


def rows(chance):
    """Rows in each form: as bytes, in columns, those that were read, with some of their bytes changed."""
    found = polytwkb.read(b"".join(chance.choices(BLOBS, k=chance.randrange(4)))).rows
    names = ["kind", "counts", "depth", "precision", "id", "has_id"]
    if chance.randrange(2):
        records = changed(chance, found.records)
        return chance.choice([bytes, bytearray, memoryview])(
            records[: chance.choice([len(records), len(records) // 24 * 24])]
        )
    if chance.randrange(2):
        return {name: column(chance, len(found)) for name in names[: chance.choice([2, 4, 6, 6])]}
    made = {name: chance.choice([getattr(found, name)] * 5 + [column(chance, len(found))]) for name in names}
    return chance.choice(
        [found, made, numpy.frombuffer(found.records, found.dtype)[:: chance.choice([1, 1, 2, -1])] if numpy else found]
    )


def mapping(chance, depth=0):
    """A mapping of the geo interface, mostly as it should be."""
    kind = chance.choice(
        [
            "Point",
            "LineString",
            "Polygon",
            "MultiPoint",
            "MultiLineString",
            "MultiPolygon",
            "GeometryCollection",
            "Feature",
            "X",
            None,
        ]
    )
    made = {
        "type": kind,
        "coordinates": chance.choice(
            [(), (1, 2.5), [(1, 2.5), (3, 4)], [[(1, 2)]], [[[(1, 2), (3, 4)]], []], value(chance)]
        ),
    }
    members = [mapping(chance, depth + 1) for _ in range(chance.randrange(3 if depth < 3 else 1))]
    made["geometries"], made["geometry"] = (
        chance.choice([members, members, value(chance)]),
        members[0] if members else None,
    )
    if chance.randrange(4) == 0:
        made["ids"] = chance.choice([[1], [1, 2], [1, None], value(chance)])
    return chance.choice([made, made, [made, made], members])


def ragged_column(chance):
    """A column of coordinates and offsets, mostly as it should be."""
    coordinates = numpy.array([[number(chance) or 0.0 for _ in "xy"] for _ in range(4)], dtype=object)
    coordinates = chance.choice([numpy.arange(8.0).reshape(4, 2), buffer(chance), coordinates])
    offsets = [
        sorted(chance.choices([0, 1, 2, 3, 4, 5, -1], [9, 9, 9, 9, 9, 1, 1], k=chance.randrange(1, 5)))
        for _ in range(chance.choice([1, 1, 2, 3]))
    ]
    return (
        chance.choice([0, 1, 3, 4, 5, 6, 7, None]),
        coordinates,
        chance.choice([(), offsets, offsets, offsets, value(chance)]),
    )


def arguments(chance, call):
    """What a call is given."""
    given = [value(chance)]
    if call.__name__ == "pack_ragged" and chance.randrange(4):
        given = [ragged_column(chance)]
    if call in (polytwkb.write, polytwkb.encode, polytwkb.in_units) and numpy and chance.randrange(8) == 0:
        given = [numpy.ma.masked_equal(numpy.array([[1, 2], [3, 4]], chance.choice(["i8", "f8"])), 3)]
    if call is polytwkb.write and chance.randrange(4):
        count = chance.randrange(6)
        points = [tuple(chance.choices([0, 1, 5, 1 << 62, 1 << 64], [9, 9, 9, 1, 1], k=2)) for _ in range(count)]
        points = chance.choice(
            [points, [(x + 0.5, y) for x, y in points], array("q", [1, 2] * count), array("d", [1, 2.5] * count)]
        )
        given = [rows(chance), chance.choice([points, points, points, buffer(chance), value(chance)])]
    elif call is polytwkb.write:
        given.append(value(chance))
    if call is polytwkb.pack_geometries and chance.randrange(4):
        given = [mapping(chance)]
    if ARGUMENTS.get(call.__name__) == 2:
        given.append(chance.choice([5, 0, -8, 7, 8, None, 1.5, value(chance)]))
    return given


def one(chance):
    """One random call; what it must not raise goes on."""
    call = chance.choice(CALLS)
    given = arguments(chance, call)
    if chance.randrange(4) == 0:
        given.append(
            chance.choice(
                [
                    "full",
                    "plain",
                    "",
                    None,
                    5,
                    -8,
                    8,
                    polytwkb.Limits(),
                    polytwkb.Limits(0, 1, 0),
                    (0, 2, 3),
                    polytwkb.Limits(nest=99),
                ]
            )
        )
    try:
        answer = call(*given)
    except polytwkb.Refused as refused:
        assert str(refused) and refused.code and refused.text and refused.place >= 0
    except ALLOWED:
        pass
    else:
        assert type(answer) in (
            bytes,
            str,
            list,
            array,
            polytwkb.Points,
            polytwkb.Packed,
            polytwkb.Ragged,
            polytwkb.Arrays,
        )


class Hostile(unittest.TestCase):
    def test_random_calls(self):
        chance = random.Random(SEED)
        for _ in range(CASES):
            state = chance.getstate()
            try:
                one(chance)
            except Exception as fault:
                chance.setstate(state)
                call = chance.choice(CALLS)
                raise AssertionError(f"seed {SEED}: {call.__name__}{arguments(chance, call)!r}") from fault

    def test_little_memory(self):
        """A child with 40 MB more than it has when it begins: what needs more is a MemoryError, and calls go on."""
        child = f"""
import resource, sys
sys.path[:0] = {[os.path.dirname(os.path.abspath(__file__))]!r}
import polytwkb, random, test_hostile
used = 4096 * int(open("/proc/self/statm").read().split()[0])
resource.setrlimit(resource.RLIMIT_AS, (used + (40 << 20),) * 2)
text = "?" * (8 << 20)
table = {vectors.HEADER!r} + "0,linestring,,0," + text + "\\n"
lacked = 0
for call, given in [(polytwkb.decode, text), (polytwkb.decode_flat, text), (polytwkb.pack, table), (polytwkb.encode, [(0, 0)])]:
    try:
        call(given)
    except MemoryError:
        lacked += 1
del text, table
chance = random.Random({SEED})
for _ in range({CASES}):
    test_hostile.one(chance)
print("lives", lacked)
"""
        run = subprocess.run(
            [sys.executable, "-B", "-c", child], stdout=subprocess.PIPE, stderr=subprocess.PIPE, text=True, check=False
        )
        self.assertEqual((run.returncode, run.stdout.split()[:1]), (0, ["lives"]), run.stderr)
        self.assertGreaterEqual(int(run.stdout.split()[1]), 2)


if __name__ == "__main__":
    unittest.main()
