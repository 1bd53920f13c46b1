"""Degrees of rows: each coordinate by the precision of the geometry that it is in."""
import unittest
from array import array
from decimal import Decimal
from fractions import Fraction
from unittest import mock

import polytwkb
import vectors
from polytwkb import NO_PRECISION
from test_arrays import DEGREES, TABLE
from test_writing import BLOBS, columns_of

try:
    import numpy
except ImportError:
    numpy = None

# Rows of several precisions, also in a collection, whose members have their own; ids and empties between them.
MIXED = vectors.table_of(
    "0,linestring,,5,yop}Gysml@lAxT/0,point,,0,CA/0,multipoint,,-3,/1,point,7,,AC/1,point,8,,GE/0,point,,7,/0,collection,,2,/1,point,,6,GE/"
    "1,multilinestring,,-8,/2,linestring,,,AAGG/0,point,,5,AC/"
)
MODULES = [None, numpy] if numpy else [None]


def with_each_module():
    """The package with numpy and without."""
    for module in MODULES:
        with mock.patch("polytwkb._degrees.numpy_of", lambda module=module: module):
            yield module


def precisions_of(rows):
    """The precision of each point: that of its row or of the last row before it that has one."""
    precision, found = None, []
    for row in rows:
        precision = row.precision if row.precision != NO_PRECISION else precision
        found += [precision] * row.counts
    return found


def exact(rows, points):
    """The floats next to the degrees, by fractions."""
    return [
        [float(Fraction(number) / Fraction(10) ** precision) for number in point]
        for point, precision in zip(points.tolist(), precisions_of(rows))
    ]


class Reading(unittest.TestCase):
    def test_each_row_has_its_precision(self):
        for module in with_each_module():
            for blobs in (
                polytwkb.pack(MIXED),
                polytwkb.pack(MIXED) * 20,
                b"".join(bytes.fromhex(vector["hex"]) for vector in vectors.postgis()),
            ):
                rows, units = polytwkb.read(blobs, degrees=False)
                found = polytwkb.read(blobs)
                self.assertEqual((found.rows, found.points.format), (rows, "d"))
                self.assertEqual(found.points.tolist(), exact(rows, units), module)
                self.assertEqual(polytwkb.write(*found), polytwkb.write(rows, units))
        self.assertEqual(
            polytwkb.read(polytwkb.pack(MIXED)).points.tolist()[2:5], [[1.0, 2.0], [2000.0, 1000.0], [3000.0, 4000.0]]
        )

    def test_degrees_are_the_default_and_units_are_exact(self):
        most, least = (1 << 62) - 1, -(1 << 62)
        blobs = polytwkb.write(
            {"kind": 2, "counts": [2, 1], "precision": [7, -8]}, [(most, least), (1, (1 << 53) + 1), (least, 3)]
        )
        rows, units = polytwkb.read(blobs, degrees=False)
        self.assertEqual(units.tolist(), [[most, least], [1, (1 << 53) + 1], [least, 3]])
        for _ in with_each_module():
            self.assertEqual(polytwkb.read(blobs).points.tolist(), exact(rows, units))
        self.assertEqual(polytwkb.read(BLOBS).points.tolist(), DEGREES)

    def test_a_refusal_has_degrees_before_it(self):
        with self.assertRaises(polytwkb.Refused) as caught:
            polytwkb.read(polytwkb.pack(TABLE) + b"\x08")
        self.assertEqual(caught.exception.output.points.tolist(), DEGREES)
        with self.assertRaises(polytwkb.Refused) as caught:
            polytwkb.read(b"\x08")
        self.assertEqual((caught.exception.output.points.shape, caught.exception.output.points.format), ((0, 2), "d"))


class Writing(unittest.TestCase):
    def test_floats_are_degrees(self):
        for _ in with_each_module():
            rows, points = polytwkb.read(BLOBS)
            flat = array("d", [number for point in DEGREES for number in point])
            forms = [
                points,
                DEGREES,
                iter(DEGREES),
                flat,
                memoryview(flat),
                memoryview(flat).toreadonly(),
                tuple(map(tuple, DEGREES)),
            ]
            forms += [
                [(Decimal(str(x)), Fraction(str(y))) for x, y in DEGREES],
                [(int(x) if x == int(x) else x, y) for x, y in DEGREES],
            ]
            for form in forms:
                self.assertEqual(polytwkb.write(rows, form), BLOBS)
            mixed = polytwkb.pack(MIXED)
            rows, points = polytwkb.read(mixed)
            for form in (points, points.tolist(), [tuple(map(Decimal, point)) for point in points.tolist()]):
                self.assertEqual(polytwkb.write(rows, form), mixed)

    def test_floats_are_rounded_as_encode_rounds_them(self):
        points = [(0.000005, -0.000005), (2.5, 1.000015), (7, -179.9832104)]
        for _ in with_each_module():
            for precision in (5, 0, -2):
                wanted = polytwkb.encode(points, precision=precision)
                for form in (points, array("d", [number for point in points for number in point])):
                    blobs = polytwkb.write(
                        {"kind": 2, "counts": [3, 0, 3], "precision": [precision, 1, precision]}, list(points) * 2
                    )
                    self.assertEqual(polytwkb.unpack(blobs).split()[1], f"0,linestring,,{precision},{wanted}")
                    self.assertEqual(
                        polytwkb.write({"kind": 2, "counts": [3], "precision": precision}, form),
                        polytwkb.split(blobs)[0],
                    )
        singles = array("f", [0.1, 0.3])
        self.assertEqual(
            polytwkb.read(polytwkb.write({"kind": 1, "counts": [1], "precision": 7}, singles)).points[0], (0.1, 0.3)
        )

    def test_floats_without_a_unit(self):
        columns = {"kind": 2, "counts": [1, 2], "precision": [5, 3]}
        for _ in with_each_module():
            for number in (float("nan"), float("inf"), float("-inf")):
                for form in (
                    array("d", [1, 1, 2, 2, 3, number]),
                    [(1.0, 1), (2, 2), (3, number)],
                    [(1, 1), (2, 2), (Decimal(3), number)],
                ):
                    with self.assertRaisesRegex(
                        ValueError, "^row 1: point 1: a coordinate is a finite number, not -?(nan|inf)$"
                    ):
                        polytwkb.write(columns, form)
            for number in (1e300, -1e300, 2.0**62 / 1e3, 10**40):
                with self.assertRaisesRegex(polytwkb.Refused, "^row 1: point 0: coordinate out of range$"):
                    polytwkb.write(columns, [(1.0, 1), (2, number), (3, 1)])
        with self.assertRaisesRegex(TypeError, "^row 1: point 0: a coordinate is a number, not str$"):
            polytwkb.write(columns, [(1.0, 1), (2, "2"), (3, 1)])

    def test_what_is_wrong_with_a_row_is_said_of_floats_too(self):
        for _ in with_each_module():
            for change, count, text in [
                ({"precision": 8}, 1, "row 0: bad precision"),
                ({"precision": NO_PRECISION}, 1, "row 0: precision missing"),
                ({"kind": 9}, 1, "row 0: unknown kind"),
                ({"counts": [(1 << 64) - 1]}, 1, "row 0: points missing"),
                ({"counts": [2]}, 1, "row 0: points missing"),
                ({}, 2, "points left over"),
                ({"counts": [2, (1 << 64) - 1]}, 3, "row 0: wrong number of points"),
            ]:
                columns = {"kind": 1, "counts": [1], "precision": 5, **change}
                for form in ([(1.5, 2.5)] * count, array("d", [1.5, 2.5] * count), [(Decimal("1.5"), 2.5)] * count):
                    with self.subTest(text=text), self.assertRaisesRegex(polytwkb.Refused, f"^{text}$"):
                        polytwkb.write(columns, form)


@unittest.skipUnless(numpy, "numpy is not there")
class Numpy(unittest.TestCase):
    def test_arrays_of_floats(self):
        rows, points = polytwkb.read(BLOBS * 10)
        flat = numpy.asarray(points)
        self.assertEqual((flat.dtype, flat.shape), (numpy.dtype("f8"), (80, 2)))
        unaligned = numpy.frombuffer(b"1" + flat.tobytes(), "u1")[1:].view("f8").reshape(-1, 2)
        for form in (
            flat,
            flat.reshape(-1),
            flat.copy(order="F"),
            numpy.repeat(flat, 2, axis=0)[::2],
            flat[::-1][::-1],
            unaligned,
        ):
            self.assertEqual(polytwkb.write(rows, form), BLOBS * 10)
        self.assertEqual(polytwkb.write(rows, flat.astype("f4")), BLOBS * 10)
        self.assertEqual(
            polytwkb.write(columns_of([(1, 1, 0, 0, 0, 0)]), numpy.float64([[3, 4]])),
            polytwkb.write(columns_of([(1, 1, 0, 0, 0, 0)]), [(3, 4)]),
        )


if __name__ == "__main__":
    unittest.main()
