"""`read`: streams as rows and points in arrays."""
import contextlib
import csv
import pickle
import unittest
from unittest import mock

import polytwkb
import vectors
from polytwkb import NO_PRECISION, Kind, Rows, _reading

try:
    import numpy
except ImportError:
    numpy = None

NAMES = {**{kind.name.lower(): kind for kind in Kind}}
COLUMNS = ("kind", "counts", "depth", "precision", "id", "has_id")
# A polygon of two rings of three points, and a multipoint with ids.
TABLE = vectors.table_of("0,polygon,,2,/1,ring,,,???GE?/1,ring,,,AA?AA?/0,multipoint,,0,/1,point,7,,CA/1,point,8,,GE/")
ROWS = [
    (3, 0, 0, 2, 0, False),
    (8, 3, 1, -128, 0, False),
    (8, 3, 1, -128, 0, False),
    (4, 0, 0, 0, 0, False),
    (1, 1, 1, -128, 7, True),
    (1, 1, 1, -128, 8, True),
]
POINTS = [[0, 0], [4, 0], [4, 3], [1, 1], [2, 1], [2, 2], [1, 2], [3, 4]]
DEGREES = [[0.0, 0.0], [0.04, 0.0], [0.04, 0.03], [0.01, 0.01], [0.02, 0.01], [0.02, 0.02], [1.0, 2.0], [3.0, 4.0]]


def rows_of(rows):
    """The rows as tuples."""
    return list(zip(*(getattr(rows, name).tolist() for name in COLUMNS)))


def arrays_of(table):
    """Rows and points of a table, read as CSV."""
    rows = list(csv.DictReader(table.splitlines()))
    points = [polytwkb.decode(row["polyline"]) for row in rows]
    return [
        (
            NAMES[row["kind"]],
            len(own),
            int(row["depth"]),
            int(row["precision"] or NO_PRECISION),
            int(row["id"] or 0),
            row["id"] != "",
        )
        for row, own in zip(rows, points)
    ], [list(point) for own in points for point in own]


@contextlib.contextmanager
def memory_refused_once(module):
    """The sizes that a module asks memory for; the first is refused."""
    asked = []

    def memory_of(size):
        asked.append(size)
        if len(asked) == 1:
            raise MemoryError
        return bytearray(size)

    with mock.patch.object(module, "memory_of", memory_of):
        yield asked


class Reading(unittest.TestCase):
    def test_rows_are_those_of_the_table(self):
        rows, points = polytwkb.read(polytwkb.pack(TABLE), degrees=False)
        self.assertEqual((rows_of(rows), points.tolist()), (ROWS, POINTS))
        self.assertEqual((len(rows), rows.records.nbytes, points.format, points.shape), (6, 144, "q", (8, 2)))
        self.assertEqual(
            [tuple(row) for row in rows], [tuple(getattr(row, name) for name in rows.places) for row in rows]
        )
        self.assertEqual([(row.kind, row.counts, row.id) for row in rows], [(row[0], row[1], row[4]) for row in ROWS])

    def test_the_blobs_of_postgis(self):
        everything, tables = b"", vectors.HEADER
        for vector in vectors.postgis():
            with self.subTest(wkt=vector["wkt"]):
                blob, table = bytes.fromhex(vector["hex"]), "".join(row + "\n" for row in vector["rows"])
                rows, points = polytwkb.read(blob, degrees=False)
                self.assertEqual((rows_of(rows), points.tolist()), arrays_of(vectors.HEADER + table))
                everything, tables = everything + blob, tables + table
        rows, points = polytwkb.read(everything, degrees=False)
        self.assertEqual((rows_of(rows), points.tolist()), arrays_of(tables))

    def test_nothing_and_much(self):
        rows, points = polytwkb.read(b"")
        self.assertEqual((len(rows), list(rows.id), points.shape, points.tolist()), (0, [], (0, 2), []))
        for degrees, expected in ((True, DEGREES), (False, POINTS)):
            rows, points = polytwkb.read(polytwkb.pack(TABLE) * 5000, degrees=degrees)
            self.assertEqual((rows_of(rows), points.tolist()), (ROWS * 5000, expected * 5000))
        for wrong in ("", None, 7, [b""]):
            with self.assertRaises(TypeError):
                polytwkb.read(wrong)

    def test_a_refusal_has_the_arrays_before_it(self):
        blob = polytwkb.pack(TABLE)
        for given, place, done in [
            (blob + b"\x08", len(blob), 2),
            (blob[:-1], len(blob) - 1, 1),
            (blob * 3000 + b"\x01", 3000 * len(blob) + 1, 6000),
        ]:
            with self.subTest(place=place), self.assertRaises(polytwkb.Refused) as caught:
                polytwkb.read(given, degrees=False)
            refused, parts = caught.exception, [ROWS[:3], ROWS[3:]] * 3000
            self.assertEqual((refused.place, refused.done), (place, done))
            self.assertEqual(rows_of(refused.output.rows), [row for part in parts[:done] for row in part])
            self.assertEqual(
                refused.output.points.tolist(), (POINTS * 3000)[: sum(row[1] for part in parts[:done] for row in part)]
            )
        with self.assertRaises(polytwkb.Refused):
            polytwkb.read(blob, limits=polytwkb.Limits(points=5))

    def test_what_has_no_room_is_counted_first(self):
        with memory_refused_once(_reading) as asked:
            rows, points = polytwkb.read(polytwkb.pack(TABLE) * 20, degrees=False)
        self.assertEqual((rows_of(rows), points.tolist()), (ROWS * 20, POINTS * 20))
        self.assertEqual(asked[-3:], [120 * 24, 160 * 16, 120 * 8])

    def test_rows_of_their_bytes(self):
        rows = polytwkb.read(polytwkb.pack(TABLE)).rows
        self.assertEqual((Rows(rows.records.tobytes()), len(Rows(b"")), rows == 5), (rows, 0, False))
        for given, raised, *count in [
            ((b"1" * 23,), ValueError),
            ((b"1" * 24,), ValueError, 2),
            ((b"",), ValueError, -1),
            ((None,), TypeError),
            (([1],), TypeError),
        ]:
            with self.subTest(given=given), self.assertRaises(raised):
                Rows(*given, **({"count": count[0]} if count else {}))
        with self.assertRaises(AttributeError):
            rows.polyline

    def test_rows_by_place(self):
        rows = polytwkb.read(polytwkb.pack(TABLE)).rows
        every = list(rows)
        for place in (0, 3, -1, -len(every)):
            self.assertEqual(rows[place], every[place])
        for chosen in (slice(1, 3), slice(None), slice(4, 2), slice(None, None, 2), slice(None, None, -1)):
            self.assertEqual((type(rows[chosen]), list(rows[chosen])), (Rows, every[chosen]))
        for place in (len(every), -len(every) - 1):
            with self.assertRaises(IndexError):
                rows[place]

    def test_arrays_made_by_hand_have_no_offsets(self):
        read = polytwkb.read(polytwkb.pack(TABLE))
        made = polytwkb.Arrays(*read)
        self.assertEqual((made, hasattr(made, "offsets"), pickle.loads(pickle.dumps(made))), (read, False, made))
        with self.assertRaisesRegex(AttributeError, "not read from a stream"):
            made.offsets


@unittest.skipUnless(numpy, "numpy is not there")
class Numpy(unittest.TestCase):
    def test_columns_and_points_are_not_copied(self):
        rows, points = polytwkb.read(polytwkb.pack(TABLE) * 5000, degrees=False)
        table = numpy.asarray(rows)
        self.assertTrue(numpy.shares_memory(table, numpy.frombuffer(rows.records, rows.dtype)))
        self.assertEqual((table.dtype.itemsize, table.shape), (24, (30000,)))
        for name, kind in [
            ("id", "i8"),
            ("counts", "u8"),
            ("depth", "u4"),
            ("kind", "u2"),
            ("has_id", "?"),
            ("precision", "i1"),
        ]:
            column = numpy.asarray(getattr(rows, name))
            self.assertEqual(column.dtype, numpy.dtype(kind))
            self.assertTrue((column == table[name]).all() and numpy.shares_memory(column, table))
        array_of_points = numpy.asarray(points)
        self.assertEqual((array_of_points.dtype, array_of_points.shape), (numpy.dtype("i8"), (40000, 2)))
        self.assertTrue(numpy.shares_memory(array_of_points, numpy.asarray(points)))
        self.assertTrue(numpy.shares_memory(array_of_points, numpy.asarray(points.y)))
        self.assertEqual(numpy.asarray(polytwkb.read(b"").rows).shape, (0,))


if __name__ == "__main__":
    unittest.main()
