"""`ragged` and `pack_ragged`: columns of coordinates and offsets, as GeoArrow and Shapely 2 define them."""
import unittest
from fractions import Fraction

import polytwkb
import vectors
from polytwkb import GeometryType

try:
    import numpy
except ImportError:
    numpy = None
try:
    import shapely
    from shapely.geometry import shape

    has_ragged = hasattr(shapely, "from_ragged_array")
except ImportError:
    has_ragged = False

NAN = float("nan")
# Rows, and type, coordinates and offsets by hand, from the definition in GeoArrow's format: an array of offsets has where each item
# begins among those of the next level, the innermost first; an empty geometry has no items, and an empty point is NaN.
COLUMNS = [
    ("0,point,,0,AC/0,point,,0,/0,point,,0,GE/", GeometryType.POINT, [(2, 1), (NAN, NAN), (3, 4)], []),
    (
        "0,linestring,,0,AAGG/0,linestring,,0,/0,linestring,,0,AC/",
        GeometryType.LINESTRING,
        [(1, 1), (5, 5), (2, 1)],
        [[0, 2, 2, 3]],
    ),
    (
        "0,multipoint,,0,/1,point,,,AC/1,point,,,GE/0,multipoint,,0,/0,multipoint,,0,/1,point,,,CA/",
        GeometryType.MULTIPOINT,
        [(2, 1), (3, 4), (1, 2)],
        [[0, 2, 2, 3]],
    ),
    (
        "0,polygon,,0,/0,polygon,,0,/1,ring,,,AAGG/1,ring,,,AC/1,ring,,,/0,polygon,,0,/1,ring,,,GE/",
        GeometryType.POLYGON,
        [(1, 1), (5, 5), (2, 1), (3, 4)],
        [[0, 2, 3, 3, 4], [0, 0, 3, 4]],
    ),
    (
        "0,multilinestring,,0,/1,linestring,,,AC/1,linestring,,,/0,multilinestring,,0,/0,multilinestring,,0,/1,linestring,,,AAGG/",
        GeometryType.MULTILINESTRING,
        [(2, 1), (1, 1), (5, 5)],
        [[0, 1, 1, 3], [0, 2, 2, 3]],
    ),
    (
        "0,multipolygon,,0,/1,polygon,,,/2,ring,,,AC/2,ring,,,AAGG/1,polygon,,,/1,polygon,,,/2,ring,,,GE/0,multipolygon,,0,/0,multipolygon,,0,/1,polygon,,,/"
        "2,ring,,,CA/",
        GeometryType.MULTIPOLYGON,
        [(2, 1), (1, 1), (5, 5), (3, 4), (1, 2)],
        [[0, 1, 3, 4, 5], [0, 2, 2, 3, 4], [0, 3, 3, 4]],
    ),
]
# A polygon with a hole has these rings. Rows of each kind that Shapely takes: with two points in a line and closed rings.
OUTER, HOLE = "ring,,,???wBoA??vBnA?/", "ring,,,Sg@g@??g@f@??f@/"
VALID = [
    COLUMNS[0][0],
    "0,linestring,,0,AAGG/0,linestring,,0,/0,linestring,,0,ACGE/",
    COLUMNS[2][0],
    f"0,polygon,,0,/1,{OUTER}1,{HOLE}0,polygon,,0,/0,polygon,,0,/1,{OUTER}",
    "0,multilinestring,,0,/1,linestring,,,AAGG/1,linestring,,,ACGE/0,multilinestring,,0,/0,multilinestring,,0,/1,linestring,,,AAGG/",
    f"0,multipolygon,,0,/1,polygon,,,/2,{OUTER}2,{HOLE}1,polygon,,,/2,{OUTER}0,multipolygon,,0,/0,multipolygon,,0,/1,polygon,,,/2,{OUTER}",
]


def table_of(rows):
    return polytwkb.pack(vectors.table_of(rows))


def alike(test, column, geometry_type, coordinates, offsets):
    """A column is of this type, with these coordinates and offsets, as float64 and int64."""
    test.assertEqual((column.geometry_type, len(column)), (geometry_type, 3))
    test.assertEqual((column.coordinates.dtype, column.coordinates.shape), (numpy.dtype("f8"), (len(coordinates), 2)))
    test.assertTrue(
        numpy.array_equal(column.coordinates, numpy.array(coordinates, float).reshape(-1, 2), equal_nan=True)
    )
    test.assertEqual(
        [(part.dtype, part.tolist()) for part in column.offsets], [(numpy.dtype("i8"), part) for part in offsets]
    )


@unittest.skipUnless(numpy, "numpy is not there")
class Ragged(unittest.TestCase):
    def test_columns(self):
        for rows, *column in COLUMNS:
            with self.subTest(rows=rows):
                blobs = table_of(rows)
                alike(self, polytwkb.ragged(blobs), *column)
                alike(self, polytwkb.ragged(polytwkb.split(blobs)), *column)
                self.assertEqual(polytwkb.pack_ragged(polytwkb.ragged(blobs), 0), blobs)
                geometry_type, coordinates, offsets = column
                for form in (tuple, list, lambda parts: [numpy.array(part, "u4") for part in parts]):
                    given = int(geometry_type), numpy.array(coordinates, float).reshape(-1, 2), form(offsets)
                    self.assertEqual(polytwkb.pack_ragged(given, 0), blobs)

    def test_a_column_with_gaps(self):
        """None has the form of an empty geometry, and its place is told."""
        for rows, *column in COLUMNS:
            with self.subTest(rows=rows):
                blobs = polytwkb.split(table_of(rows))
                empty = next(place for place, blob in enumerate(blobs) if polytwkb.show(blob)[0].points == 0)
                gap = [None if place == empty else blob for place, blob in enumerate(blobs)]
                found = polytwkb.ragged(gap)
                alike(self, found, *column)
                self.assertEqual((found.missing.tolist(), polytwkb.pack_ragged(found, 0).blobs), ([empty], gap))
                more = polytwkb.ragged([None, None, *gap, None])
                self.assertEqual(
                    (more.missing.tolist(), polytwkb.pack_ragged(more, 0).blobs),
                    ([0, 1, empty + 2, len(gap) + 2], [None, None, *gap, None]),
                )

    def test_faults_are_kept_apart(self):
        blobs = polytwkb.split(table_of(COLUMNS[1][0]))
        given = [blobs[0], blobs[0][:-1], None, b"", blobs[2]]
        with self.assertRaisesRegex(polytwkb.Refused, "^blob 1: byte ") as caught:
            polytwkb.ragged(given)
        self.assertEqual((caught.exception.done, caught.exception.output.coordinates.tolist()), (1, [[1, 1], [5, 5]]))
        found = polytwkb.ragged(given, errors="collect")
        alike(self, found, GeometryType.LINESTRING, [(1, 1), (5, 5), (2, 1)], [[0, 2, 2, 2, 2, 3]])
        self.assertEqual((found.missing.tolist(), [fault.done for fault in found.refused]), ([1, 2, 3], [1, 3]))
        made, refused = polytwkb.geometries(given, errors="collect")
        self.assertEqual(
            ([mapping is None for mapping in made], [str(fault) for fault in refused]),
            ([False, True, True, True, False], [str(fault) for fault in found.refused]),
        )
        self.assertEqual([str(fault) for fault in polytwkb.check(given)], [str(fault) for fault in refused])

    def test_precisions_and_parts_of_columns(self):
        column = polytwkb.ragged(table_of("0,linestring,,5,AAGG/0,linestring,,-1,AC/0,linestring,,0,GEGE/"))
        wanted = [
            [float(Fraction(number) * Fraction(10) ** -power) for number in point]
            for point, power in zip([(1, 1), (5, 5), (2, 1), (3, 4), (6, 8)], [5, 5, -1, 0, 0])
        ]
        self.assertEqual(column.coordinates.tolist(), wanted)
        part = 1, column.coordinates, (column.offsets[0][1:],)
        self.assertEqual(
            polytwkb.pack_ragged(part, 0),
            table_of("0,linestring,,0,SgE/0,linestring,,0,GEGE/".replace("SgE", polytwkb.encode([(20, 10)]))),
        )
        rows, geometry_type, coordinates, offsets = COLUMNS[5]
        geometry_type, coordinates, offsets = polytwkb.ragged(table_of(rows))
        for first, last in ((0, 1), (1, 3), (2, 3), (0, 0)):
            part = geometry_type, coordinates, (*offsets[:2], offsets[2][first : last + 1])
            self.assertEqual(polytwkb.pack_ragged(part, 0).blobs, polytwkb.split(table_of(rows))[first:last])

    def test_what_is_refused(self):
        point, line = table_of("0,point,,0,AC/"), table_of("0,linestring,,0,AC/")
        for blobs, text in [
            (b"", "one geometry at least"),
            ([None], "one geometry at least"),
            ([point, None, line], "geometry 2: a column has one kind"),
            (table_of("0,collection,,0,/"), "geometry 0: a column has one kind, and no collections"),
        ]:
            with self.subTest(text=text), self.assertRaisesRegex(ValueError, text):
                polytwkb.ragged(blobs)
        two = numpy.array([[1.0, 2], [3, 4]])
        for column, raised in [
            (None, ValueError),
            ((7, two, ()), ValueError),
            ((2, two, ()), ValueError),
            ((1, two, ()), ValueError),
            ((0, two, ([0, 1],)), ValueError),
            ((1, two, ([0, 3],)), ValueError),
            ((1, two, ([2, 1],)), ValueError),
            ((1, two, ([-1, 1],)), ValueError),
            ((1, two, ([0.5, 1],)), TypeError),
            ((1, two, ([],)), TypeError),
            ((3, two, ([0, 1], [0, 2])), ValueError),
            ((1, two.astype(int), ([0, 1],)), TypeError),
            ((1, two.reshape(-1), ([0, 1],)), TypeError),
            ((1, numpy.zeros((2, 3)), ([0, 1],)), TypeError),
            ((1, two * NAN, ([0, 1, 2],)), ValueError),
        ]:
            with self.subTest(column=column), self.assertRaises(raised):
                polytwkb.pack_ragged(column, 5)
        with self.assertRaisesRegex(ValueError, "^geometry 1: a coordinate is a finite number, not inf"):
            polytwkb.pack_ragged((1, numpy.array([[1, 2], [3, numpy.inf]]), ([0, 1, 2],)), 5)
        with self.assertRaisesRegex(polytwkb.Refused, "^geometry 1: coordinate out of range") as caught:
            polytwkb.pack_ragged((1, numpy.array([[1, 2], [3, 1e30]]), ([0, 1, 2],)), 0)
        self.assertEqual(
            caught.exception.output.blobs, [polytwkb.write({"kind": 2, "counts": [1], "precision": 0}, [(1, 2)])]
        )

    def test_a_refused_stream_has_the_column_before(self):
        with self.assertRaises(polytwkb.Refused) as caught:
            polytwkb.ragged(table_of(COLUMNS[1][0]) + b"\x08")
        alike(self, caught.exception.output, *COLUMNS[1][1:])

    @unittest.skipUnless(has_ragged, "shapely 2 is not there")
    def test_shapely_takes_columns(self):
        for rows in VALID:
            blobs = table_of(rows)
            made = shapely.from_ragged_array(*polytwkb.ragged(blobs))
            self.assertEqual([one.wkt for one in made], [shape(mapping).wkt for mapping in polytwkb.geometries(blobs)])
            self.assertEqual(polytwkb.pack_ragged(shapely.to_ragged_array(made), 0), blobs)


if __name__ == "__main__":
    unittest.main()
