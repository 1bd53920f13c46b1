"""`write`: rows and points in arrays as streams."""
import unittest
from array import array

import polytwkb
import vectors
from polytwkb import Kind, Rows, _writing
from test_arrays import COLUMNS, POINTS, ROWS, TABLE, arrays_of, memory_refused_once

try:
    import numpy
except ImportError:
    numpy = None

BLOBS = polytwkb.pack(TABLE)
POLYGON = polytwkb.split(BLOBS)[0]


def columns_of(rows):
    """Rows as tuples in columns by name."""
    return dict(zip(COLUMNS, map(list, zip(*rows))))


class Writing(unittest.TestCase):
    def refused(self, rows, points, **more):
        with self.assertRaises(polytwkb.Refused) as caught:
            polytwkb.write(rows, points, **more)
        return caught.exception

    def test_the_blobs_of_postgis(self):
        """Canonical blobs of geometries that PostGIS wrote: those of the table of its rows."""
        tables = vectors.HEADER
        for vector in vectors.postgis():
            with self.subTest(wkt=vector["wkt"]):
                table = "".join(row + "\n" for row in vector["rows"])
                rows, points = arrays_of(vectors.HEADER + table)
                for style in ("full", "plain"):
                    wanted = bytes.fromhex(vector.get(style, vector["hex"]))
                    self.assertEqual(polytwkb.write(columns_of(rows), points, style=style), wanted)
                    self.assertEqual(
                        polytwkb.write(*polytwkb.read(bytes.fromhex(vector["hex"]), degrees=False), style=style), wanted
                    )
                tables += table
        rows, points = arrays_of(tables)
        self.assertEqual(polytwkb.write(columns_of(rows), points), polytwkb.pack(tables))

    def test_the_places_of_blobs(self):
        for style in ("full", "plain"):
            packed = polytwkb.Packed(polytwkb.write(*polytwkb.read(BLOBS * 3), style=style))
            self.assertEqual((packed.blobs, b"".join(packed.blobs)), (polytwkb.split(bytes(packed)), packed))
            self.assertEqual((polytwkb.split(packed), packed.offsets.tolist()[-1]), (packed.blobs, len(packed)))
            self.assertEqual(polytwkb.read(packed).offsets, packed.offsets)
        self.assertEqual((polytwkb.Packed(b"").blobs, polytwkb.Packed(b"").offsets.tolist()), ([], [0]))
        large = polytwkb.Packed(
            polytwkb.write({"kind": 2, "counts": [100, 20000, 0], "precision": 0}, [(1, 1)] * 20100)
        )
        self.assertEqual([polytwkb.show(blob)[0].points for blob in large.blobs], [100, 20000, 0])

    def test_forms_of_rows_and_points(self):
        rows, points = polytwkb.read(BLOBS, degrees=False)
        flat = array("q", [number for point in POINTS for number in point])
        for given in (
            rows,
            rows.records,
            rows.records.tobytes(),
            bytearray(rows.records),
            columns_of(ROWS),
            {name: getattr(rows, name) for name in COLUMNS},
        ):
            for form in (
                points,
                POINTS,
                iter(POINTS),
                flat,
                memoryview(flat),
                memoryview(flat).toreadonly(),
                tuple(map(tuple, POINTS)),
            ):
                self.assertEqual(polytwkb.write(given, form), BLOBS)

    def test_columns_that_are_left_out(self):
        parts = {"kind": [4, 1], "counts": [0, 1], "precision": [0, -128], "depth": [0, 1]}
        for columns, points, rows in [
            ({"kind": Kind.POINT, "counts": [1, 0], "precision": 0}, [(2, 1)], "0,point,,0,AC/0,point,,0,/"),
            (
                {"kind": [2, 3], "counts": [2, 0], "precision": array("b", [-1, 7])},
                [(1, 1), (5, 5)],
                "0,linestring,,-1,AAGG/0,polygon,,7,/",
            ),
            ({**parts, "id": [None, 7]}, [(2, 1)], "0,multipoint,,0,/1,point,7,,AC/"),
            ({**parts, "id": array("q", [0, 7]), "has_id": b"\0\1"}, [(2, 1)], "0,multipoint,,0,/1,point,7,,AC/"),
            ({"kind": [], "counts": []}, [], ""),
        ]:
            with self.subTest(rows=rows):
                self.assertEqual(polytwkb.write(columns, points), polytwkb.pack(vectors.table_of(rows)))

    def test_nothing_and_much(self):
        self.assertEqual(polytwkb.write(b"", []), b"")
        self.assertEqual(polytwkb.write(*polytwkb.read(b"")), b"")
        self.assertTrue(polytwkb.write(*polytwkb.read(BLOBS * 5000)) == BLOBS * 5000)
        self.assertTrue(
            polytwkb.write(columns_of(ROWS * 300), POINTS * 300, style="plain")
            == polytwkb.pack(TABLE, style="plain") * 300
        )

    def test_a_refusal_has_its_row_and_the_blobs_before_it(self):
        rows, points = polytwkb.read(BLOBS, degrees=False)
        refused = self.refused(rows, POINTS[:-1])
        self.assertEqual((str(refused), refused.code, refused.reason), ("row 5: points missing", "POINTS_MISSING", 71))
        self.assertEqual((refused.place, refused.done, refused.output), (5, 1, POLYGON))
        refused = self.refused(rows, POINTS + [(0, 0)])
        self.assertEqual((str(refused), refused.code, refused.reason), ("points left over", "POINTS_LEFT", 72))
        self.assertEqual((refused.place, refused.done, refused.output), (6, 1, POLYGON))
        refused = self.refused(columns_of(ROWS * 3000 + ROWS[1:]), POINTS * 3001)
        self.assertEqual(
            (str(refused), refused.place, refused.done), ("row 18000: kind not allowed there", 18000, 5999)
        )
        self.assertTrue(refused.output == BLOBS * 2999 + POLYGON)

    def test_what_is_refused(self):
        point = {"kind": 1, "counts": [1], "precision": 0}
        for change, points, limits, text in [
            ({"kind": 0}, 1, None, "row 0: unknown kind"),
            ({"kind": 9}, 1, None, "row 0: unknown kind"),
            ({"kind": 8}, 1, None, "row 0: kind not allowed there"),
            ({"depth": 1}, 1, None, "row 0: kind not allowed there"),
            ({"id": 5, "has_id": 0}, 1, None, "row 0: bad id"),
            ({"has_id": 2}, 1, None, "row 0: bad id"),
            ({"id": 5}, 1, None, "row 0: id not allowed"),
            ({"precision": 8}, 1, None, "row 0: bad precision"),
            ({"precision": -9}, 1, None, "row 0: bad precision"),
            ({"precision": -128}, 1, None, "row 0: precision missing"),
            ({"kind": 4}, 1, None, "row 0: polyline not allowed"),
            ({"counts": [2]}, 2, None, "row 0: wrong number of points"),
            ({"counts": [2]}, 1, None, "row 0: points missing"),
            ({"counts": [(1 << 64) - 1]}, 1, None, "row 0: points missing"),
            ({}, 1, polytwkb.Limits(points=0), "row 0: too many points"),
            ({}, 2, None, "points left over"),
            ({}, 1, None, None),
        ]:
            with self.subTest(change=change, points=points):
                if text:
                    self.assertEqual(str(self.refused({**point, **change}, [(0, 0)] * points, limits=limits)), text)
                else:
                    self.assertEqual(
                        polytwkb.write({**point, **change}, [(0, 0)] * points), bytes.fromhex("0102020000")
                    )

    def test_a_coordinate_out_of_range(self):
        rows = polytwkb.read(BLOBS).rows
        for number in (1 << 62, -(1 << 62) - 1, 1 << 63, -(1 << 63), 10**40):
            for place, row, point in ((0, 1, 0), (5, 2, 2), (7, 5, 0)):
                points = [list(point) for point in POINTS]
                points[place][place % 2] = number
                refused = self.refused(rows, points)
                self.assertEqual(
                    (str(refused), refused.text_offset), (f"row {row}: point {point}: coordinate out of range", point)
                )
        self.assertEqual(str(self.refused(rows, [(10**40, 0)] + POINTS)), "row 1: point 0: coordinate out of range")

    def test_wrong_types_and_shapes(self):
        rows, points = polytwkb.read(BLOBS, degrees=False)
        point = {"kind": 1, "counts": [1], "precision": 0}
        for given in [
            (None, points),
            (7, points),
            ("", points),
            ([], points),
            (array("q", [1, 2, 3]), points),
            (memoryview(b"1" * 24).cast("d"), points),
            (rows, None),
            (rows, 7),
            (rows, "ab"),
            (rows, b"0" * 16),
            (rows, array("d", [1])),
            (rows, array("i", [1, 2])),
            (rows, array("Q", [1, 2])),
            (rows, array("q", [1])),
            (rows, [1, 2]),
            (rows, [(1,)]),
            (rows, [(1, 2, 3)]),
            (rows, [(1j, 2)]),
            (rows, [("1", 2)]),
            (rows, [(1 << 70, "2")]),
            ({}, points),
            ({"kind": 1}, points),
            ({**point, "polyline": 5}, points),
            ({**point, "counts": 1}, points),
            ({**point, "kind": "ab"}, points),
            ({**point, "kind": [1.5]}, points),
            ({**point, "id": ["7"]}, points),
            ({**point, "depth": None}, points),
            (rows, points, {"style": 0}),
            (rows, points, {"limits": 5}),
        ]:
            with self.subTest(given=given), self.assertRaises(TypeError):
                polytwkb.write(*given[:2], **(given[2] if given[2:] else {}))
        for given in [
            (b"1" * 23, points),
            (memoryview(bytes(48)).cast("B", [2, 24]), points),
            (memoryview(bytes(96))[::2], points),
            (rows, memoryview(array("q", range(32)))[::2]),
            (rows, points.view[::-1]),
            ({**point, "kind": [1, 1]}, points),
            ({**point, "kind": -1}, points),
            ({**point, "kind": 1 << 16}, points),
            ({**point, "depth": [1 << 32]}, points),
            ({**point, "counts": [-1]}, points),
            ({**point, "precision": 128}, points),
            ({**point, "id": [1 << 63]}, points),
            (rows, points, {"style": "Full"}),
            (rows, points, {"limits": polytwkb.Limits(nest=33)}),
        ]:
            with self.subTest(given=given), self.assertRaises(ValueError):
                polytwkb.write(*given[:2], **(given[2] if given[2:] else {}))

    def test_what_has_no_room_is_counted_first(self):
        with memory_refused_once(_writing) as asked:
            self.assertEqual(polytwkb.write(*polytwkb.read(BLOBS * 20)), BLOBS * 20)
        self.assertEqual(asked[1:], [1, 20 * len(BLOBS)])


class Streams(unittest.TestCase):
    def test_packed_takes_whole_blobs_alone(self):
        plain = polytwkb.write(*polytwkb.read(BLOBS), style="plain")
        for stream in (BLOBS, plain, BLOBS * 70 + plain, b""):
            self.assertEqual(polytwkb.Packed(stream).blobs, polytwkb.split(stream))
            self.assertEqual(polytwkb.split(polytwkb.Packed(stream)), polytwkb.split(stream))
        cut = [stream[:end] for stream in (BLOBS, plain) for end in range(1, len(stream))]
        cut = [stream for stream in cut if stream not in (polytwkb.split(BLOBS)[0], polytwkb.split(plain)[0])]
        for stream in [
            *cut,
            b"\x01\x02\x7f",
            b"\x01\x02\x80",
            b"\x01\x02",
            b"\x01",
            b"\x01\x0a",
            b"abc",
            BLOBS + b"\x08",
        ]:
            packed = polytwkb.Packed(stream)
            for ask in (lambda: packed.offsets, lambda: packed.blobs, lambda: polytwkb.split(packed)):
                with self.subTest(stream=stream), self.assertRaisesRegex(ValueError, "no stream of whole blobs"):
                    ask()


@unittest.skipUnless(numpy, "numpy is not there")
class Numpy(unittest.TestCase):
    def test_arrays(self):
        rows, points = polytwkb.read(BLOBS * 100, degrees=False)
        table, flat = numpy.frombuffer(rows.records, rows.dtype), numpy.asarray(points)
        self.assertEqual(polytwkb.write(table, flat), BLOBS * 100)
        self.assertEqual(polytwkb.write(table.copy(), flat.reshape(-1)), BLOBS * 100)
        made = numpy.zeros(2, Rows.dtype)
        made["kind"], made["counts"], made["precision"] = Kind.LINESTRING, [2, 1], 5
        wanted = polytwkb.pack(vectors.table_of("0,linestring,,5,AAGG/0,linestring,,5,AC/"))
        lines = numpy.array([(1, 1), (5, 5), (2, 1)])
        self.assertEqual(polytwkb.write(made, lines), wanted)
        self.assertEqual(
            polytwkb.write({"kind": Kind.LINESTRING, "counts": numpy.array([2, 1]), "precision": numpy.int8(5)}, lines),
            wanted,
        )
        self.assertEqual(polytwkb.write(made, polytwkb.in_units(lines / 1e5, 5)), wanted)

    def test_wrong_arrays(self):
        rows, points = polytwkb.read(BLOBS, degrees=False)
        table, flat = numpy.frombuffer(rows.records, rows.dtype), numpy.asarray(points)
        other = [(name, ">i8" if name == "id" else kind) for name, kind in Rows.dtype]
        for given in [
            (table.astype(other), flat),
            (table.astype(Rows.dtype[1:] + Rows.dtype[:1]), flat),
            (table["kind"], flat),
            (numpy.zeros(6), flat),
            (flat, flat),
            (table, flat.astype("f2")),
            (table, flat.astype("i4")),
            (table, flat.astype(">i8")),
            (table, flat.reshape(4, 4)),
            (table, flat.reshape(8, 1, 2)),
            (table, flat.astype(object)[:, 0]),
            (table, numpy.int64(5)),
            (table, flat.T.copy()),
        ]:
            with self.subTest(given=given), self.assertRaises(TypeError):
                polytwkb.write(*given)
        for given in [
            (table[::-1], flat),
            (table[::2], flat),
            (table.reshape(2, 3), flat),
            (table[0], flat),
            (table, flat[::-1]),
            (table, numpy.asfortranarray(flat)),
            (table, numpy.zeros((8, 4), "i8")[:, :2]),
        ]:
            with self.subTest(given=given), self.assertRaises(ValueError):
                polytwkb.write(*given)


if __name__ == "__main__":
    unittest.main()
