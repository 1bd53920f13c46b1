"""Rows of WKB, taken side by side and one after the other, against a parser that follows the definition of WKB."""
import io
import math
import random
import struct
import unittest
from unittest import mock

from polytwkb import NO_PRECISION, Kind, _walk
from polytwkb._wkb import rows_of_wkb

try:
    import numpy
except ImportError:
    numpy = None

PARTS = {Kind.MULTIPOINT: Kind.POINT, Kind.MULTILINESTRING: Kind.LINESTRING, Kind.MULTIPOLYGON: Kind.POLYGON}
KINDS = [kind for kind in Kind if kind != Kind.RING]
PRECISION = 5


def wkb(kind, *parts):
    """The WKB of a geometry of its parts, or of the coordinates of a point."""
    count = b"" if kind == Kind.POINT else struct.pack("<I", len(parts))
    return struct.pack("<BI", 1, kind) + count + b"".join(parts)


def points_of(chance, count):
    return [struct.pack("<2d", chance.uniform(-180, 180), chance.uniform(-90, 90)) for _ in range(count)]


def ring(chance, count):
    return struct.pack("<I", count) + b"".join(points_of(chance, count))


def no_point():
    return wkb(Kind.POINT, struct.pack("<2d", math.nan, math.nan))


def some(chance, kind, nest=2):
    """The WKB of any geometry of a kind, with empty ones in it."""
    count = chance.choice([0, 1, 1, 2, 3, 9])
    if kind == Kind.POINT:
        return wkb(kind, *points_of(chance, 1)) if count else no_point()
    if kind == Kind.LINESTRING:
        return wkb(kind, *points_of(chance, count))
    if kind == Kind.POLYGON:
        return wkb(kind, *[ring(chance, chance.choice([0, 1, 5, 9])) for _ in range(count)])
    members = [PARTS.get(kind) or chance.choice(KINDS if nest else KINDS[:-1]) for _ in range(count)]
    return wkb(kind, *[some(chance, member, nest - 1) for member in members])


def within(collections, member):
    """A geometry in so many collections."""
    for _ in range(collections):
        member = wkb(Kind.COLLECTION, member)
    return member


class TooDeep(Exception):
    """A geometry in more collections than a limit takes."""


class Parser:
    """Rows, as kind, depth, number of points and precision, and points as bytes."""

    def __init__(self):
        self.rows, self.points = [], bytearray()

    def put(self, kind, depth, points, precision):
        is_empty = kind == Kind.POINT and all(map(math.isnan, struct.unpack("<2d", points)))
        points = b"" if is_empty else points
        self.rows.append((kind, depth, len(points) // 16, precision))
        self.points += points

    def geometry(self, stream, depth=0, precision=PRECISION):
        order, kind = struct.unpack("<BI", stream.read(5))
        assert order == 1
        count = 1 if kind == Kind.POINT else struct.unpack("<I", stream.read(4))[0]
        self.put(kind, depth, stream.read(16 * count) if kind in (Kind.POINT, Kind.LINESTRING) else b"", precision)
        if depth > 32 and precision == PRECISION:
            raise TooDeep
        if kind == Kind.POLYGON:
            for _ in range(count):
                self.put(Kind.RING, depth + 1, stream.read(16 * struct.unpack("<I", stream.read(4))[0]), NO_PRECISION)
        elif kind > Kind.POLYGON:
            for _ in range(count):
                self.geometry(stream, depth + 1, PRECISION if kind == Kind.COLLECTION else NO_PRECISION)


def parsed(wkbs):
    parser = Parser()
    for one in wkbs:
        stream = io.BytesIO(one)
        try:
            parser.geometry(stream)
        except TooDeep:
            break
        assert stream.read() == b""
    return parser.rows, parser.points


@unittest.skipUnless(numpy, "numpy is not there")
class Walked(unittest.TestCase):
    def same(self, wkbs, numbers=(1, 2, 20, _walk._MANY, 1 << 20)):
        """Rows and points are those of the parser, whatever number of geometries is many."""
        wanted, points = parsed(wkbs)
        for many in numbers:
            with mock.patch.object(_walk, "_MANY", many):
                rows, coordinates = rows_of_wkb(wkbs, PRECISION)
            self.assertEqual(list(zip(rows.kind, rows.depth, rows.counts, rows.precision)), wanted)
            self.assertEqual((coordinates.dtype, coordinates.shape), (numpy.dtype("f8"), (len(points) // 16, 2)))
            self.assertEqual(coordinates.tobytes(), points)

    def test_columns_of_one_kind(self):
        chance = random.Random(1)
        for kind in KINDS:
            with self.subTest(kind=kind):
                self.same([some(chance, kind) for _ in range(200)])
                self.same([some(chance, kind)])
        self.same([])

    def test_columns_of_all_kinds(self):
        chance = random.Random(2)
        for count in (2, 100, 500):
            self.same([some(chance, chance.choice(KINDS)) for _ in range(count)])

    def test_empty_geometries(self):
        empty = [wkb(kind) for kind in KINDS[1:]] + [no_point()]
        parts = [wkb(kind, wkb(part), wkb(part)) for kind, part in PARTS.items() if part != Kind.POINT]
        nested = [wkb(Kind.COLLECTION, *empty), wkb(Kind.COLLECTION, wkb(Kind.COLLECTION), *empty)]
        nested.append(wkb(Kind.MULTIPOINT, *[no_point()] * 3))
        for wkbs in (empty, parts, nested, empty + parts + nested):
            self.same(wkbs * 30)

    def test_long_and_short_rows(self):
        chance = random.Random(3)
        lines = [wkb(Kind.LINESTRING, *points_of(chance, count)) for count in (0, 1, 2, 300, 1000)]
        polygons = [wkb(Kind.POLYGON, ring(chance, 400), ring(chance, 5)), wkb(Kind.POLYGON)]
        for wkbs in (lines, lines[:3], polygons, lines + polygons, [*lines, some(chance, Kind.POINT)]):
            self.same(wkbs * 20)

    def test_one_geometry_of_many_rows_takes_no_step_for_each(self):
        chance = random.Random(4)
        few = [wkb(Kind.POLYGON, ring(chance, 4), ring(chance, 4)) for _ in range(100)]
        for many in (
            wkb(Kind.POLYGON, *[ring(chance, 4)] * 5000),
            wkb(Kind.MULTIPOINT, *[some(chance, Kind.POINT)] * 5000),
            wkb(Kind.MULTIPOLYGON, *few * 20),
            wkb(Kind.COLLECTION, *few * 20),
        ):
            for wkbs in ([many], [*few, many, *few, many]):
                with mock.patch.object(_walk._Walk, "step", autospec=True, side_effect=_walk._Walk.step) as step:
                    self.same(wkbs, [_walk._MANY])
                self.assertEqual(step.call_count, 0 if len(wkbs) == 1 else 3)

    def test_collections_in_collections(self):
        chance = random.Random(5)
        insides = [some(chance, kind) for kind in KINDS[:-1]] + [wkb(Kind.COLLECTION)]
        insides.append(wkb(Kind.MULTIPOINT, *[some(chance, Kind.POINT) for _ in range(3)]))
        flat = [some(chance, chance.choice(KINDS)) for _ in range(50)]
        for nest in (1, 2, 3, 4, 8, 31, 32):
            self.same([*flat, *[within(nest, inside) for inside in insides], *flat])
            inner = wkb(Kind.COLLECTION, *insides) if nest < 32 else insides[-1]
            self.same([within(chance.randrange(nest + 1), inner) for _ in range(200)])

    def test_rows_after_one_that_is_too_deep_are_left_out(self):
        chance = random.Random(6)
        flat = [some(chance, kind, 0) for kind in KINDS] * 10
        for kind in KINDS:
            for nest in (33, 40):
                deep = within(nest, some(chance, kind))
                among = wkb(Kind.COLLECTION, *flat[:20], deep, *flat)
                two = [*flat, deep, *flat, within(9, deep), deep]
                for wkbs in ([deep], [deep] * 70, [*flat, deep, *flat], two, [*flat, among, *flat]):
                    self.same(wkbs)


if __name__ == "__main__":
    unittest.main()
