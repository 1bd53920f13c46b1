"""`geometries`: mappings of the geo interface, of which Shapely makes geometries, if it is there."""
import unittest
from array import array

import polytwkb
import vectors

try:
    import shapely
    from shapely.geometry import shape
except ImportError:
    shapely = None
# Rows and the mapping.
SHAPES = [
    ("0,point,,5,yop}Gysml@/", {"type": "Point", "coordinates": (7.44781, 46.94797)}),
    ("0,point,,5,/", {"type": "Point", "coordinates": ()}),
    ("0,linestring,,1,AAGG/", {"type": "LineString", "coordinates": [(0.1, 0.1), (0.5, 0.5)]}),
    ("0,linestring,,-2,AC/", {"type": "LineString", "coordinates": [(200.0, 100.0)]}),
    ("0,polygon,,0,/", {"type": "Polygon", "coordinates": []}),
    ("0,polygon,,0,/1,ring,,,AAGG/1,ring,,,/", {"type": "Polygon", "coordinates": [[(1.0, 1.0), (5.0, 5.0)], []]}),
    (
        "0,multipoint,,0,/1,point,7,,AC/1,point,-8,,GE/",
        {"type": "MultiPoint", "coordinates": [(2.0, 1.0), (3.0, 4.0)], "ids": [7, -8]},
    ),
    (
        "0,multilinestring,,0,/1,linestring,,,AC/1,linestring,,,/",
        {"type": "MultiLineString", "coordinates": [[(2.0, 1.0)], []]},
    ),
    (
        "0,multipolygon,,0,/1,polygon,1,,/2,ring,,,AC/1,polygon,2,,/",
        {"type": "MultiPolygon", "coordinates": [[[(2.0, 1.0)]], []], "ids": [1, 2]},
    ),
    (
        "0,collection,,0,/1,multipoint,3,0,/2,point,9,,AC/1,collection,4,0,/2,point,,0,/",
        {
            "type": "GeometryCollection",
            "ids": [3, 4],
            "geometries": [
                {"type": "MultiPoint", "coordinates": [(2.0, 1.0)], "ids": [9]},
                {"type": "GeometryCollection", "geometries": [{"type": "Point", "coordinates": ()}]},
            ],
        },
    ),
]
RIGHT = {"type": "Point", "coordinates": (1.0, 2.0)}


class Mappings(unittest.TestCase):
    def test_shapes(self):
        for rows, mapping in SHAPES:
            with self.subTest(rows=rows):
                blob = polytwkb.pack(vectors.table_of(rows))
                self.assertEqual(polytwkb.geometries(blob), [mapping])
        blobs = [polytwkb.pack(vectors.table_of(rows)) for rows, _ in SHAPES]
        mappings = [mapping for _, mapping in SHAPES]
        for given in (b"".join(blobs), blobs, iter(blobs), [bytearray(blob) for blob in blobs]):
            self.assertEqual(polytwkb.geometries(given), mappings)
        self.assertEqual(polytwkb.geometries(array("B", blobs[0])), mappings[:1])
        self.assertEqual((polytwkb.geometries(b""), polytwkb.geometries([])), ([], []))

    def test_a_list_has_one_blob_in_each_item(self):
        blob = polytwkb.pack(vectors.table_of("0,point,,0,CA/"))
        for blobs, place, done in [
            ([blob, blob[:-1], b"\x01"], len(blob) - 1, 1),
            ([blob, b"\x08"], 0, 1),
            ([blob[:-1], blob[-1:] + blob], len(blob) - 1, 0),
            ([blob, b""], 0, 1),
            ([blob + blob], len(blob), 0),
            ([b"", blob + blob], 0, 0),
            ([None, blob, blob + b"\x01"], len(blob), 2),
        ]:
            with self.subTest(blobs=blobs), self.assertRaises(polytwkb.Refused) as caught:
                polytwkb.geometries(blobs)
            refused = caught.exception
            self.assertEqual((refused.place, refused.done, len(refused.output)), (place, done, done))
            self.assertTrue(str(refused).startswith(f"blob {done}: byte {place}: "))
        for blobs, raised in [
            ([blob, "01"], TypeError),
            ([7], TypeError),
            (["01"], TypeError),
            (7, TypeError),
            ("01", TypeError),
        ]:
            with self.subTest(blobs=blobs), self.assertRaises(raised):
                polytwkb.geometries(blobs)
        with self.assertRaises(polytwkb.Refused) as caught:
            polytwkb.geometries(blob + b"\x08")
        self.assertEqual((caught.exception.place, caught.exception.output), (len(blob), [RIGHT]))


@unittest.skipUnless(shapely, "shapely is not there")
class Shapely(unittest.TestCase):
    def test_shapes(self):
        for mapping, text in [
            ({"type": "Point", "coordinates": (7.44781, 46.94797)}, "POINT (7.44781 46.94797)"),
            (SHAPES[2][1], "LINESTRING (0.1 0.1, 0.5 0.5)"),
            (SHAPES[6][1], "MULTIPOINT (2 1, 3 4)"),
        ]:
            self.assertEqual(shape(mapping).wkt, text)
        table = vectors.table_of(
            "0,polygon,,0,/1,ring,,,???wBoA??vBnA?/1,ring,,,Sg@g@??g@f@??f@/0,collection,,0,/1,point,,0,CA/1,linestring,,0,AAGG/0,point,,0,/"
        )
        polygon, collection, empty = map(shape, polytwkb.geometries(polytwkb.pack(table)))
        self.assertEqual(polygon.wkt, "POLYGON ((0 0, 60 0, 60 40, 0 40, 0 0), (20 10, 20 30, 40 30, 40 10, 20 10))")
        self.assertEqual(
            (collection.wkt, empty.is_empty), ("GEOMETRYCOLLECTION (POINT (1 2), LINESTRING (1 1, 5 5))", True)
        )


class Lists(unittest.TestCase):
    def test_bad_blobs_of_a_large_list(self):
        point = bytes.fromhex("01000402")
        wrong = {
            0: (b"", "byte 0: truncated"),
            777: (point + point, "byte 4: size mismatch"),
            778: (point[:-1], "byte 3: truncated"),
            5000: (b"\x08", "byte 0: unknown type"),
            9999: (point + b"\0", "byte 4: size mismatch"),
        }
        items = [wrong[place][0] if place in wrong else point for place in range(10000)]
        found, refused = polytwkb.geometries(items, errors="collect")
        self.assertEqual([place for place, mapping in enumerate(found) if mapping is None], sorted(wrong))
        self.assertEqual({mapping["coordinates"] for mapping in found if mapping}, {(2.0, 1.0)})
        self.assertEqual(list(map(str, refused)), [f"blob {place}: {text}" for place, (_, text) in wrong.items()])
        self.assertEqual(list(map(str, polytwkb.check(items))), list(map(str, refused)))
        for first in (777, 778, 5000, 9999):
            given = [items[place] if place >= first else point for place in range(10000)]
            with self.assertRaisesRegex(polytwkb.Refused, f"^blob {first}: {wrong[first][1]}") as caught:
                polytwkb.geometries(given)
            self.assertEqual((caught.exception.done, len(caught.exception.output)), (first, first))


if __name__ == "__main__":
    unittest.main()
