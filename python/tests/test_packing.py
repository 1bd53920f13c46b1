"""`pack_geometries`: mappings of the geo interface, objects of Shapely and columns of GeoPandas, if these are there, to streams."""
import unittest
from decimal import Decimal
from unittest import mock

import polytwkb
import vectors
from polytwkb._packing import _interface_of
from test_geometries import RIGHT, SHAPES

try:
    import shapely
    from shapely import wkb, wkt
    from shapely.geometry import LineString, shape
except ImportError:
    shapely = None
try:
    import geopandas
except ImportError:
    geopandas = None

WRONG = [
    (7, TypeError),
    ("Point", TypeError),
    ({"type": "Point"}, TypeError),
    ({"type": "Point", "coordinates": (1,)}, TypeError),
    ({"type": "Point", "coordinates": (1, 2, 3)}, TypeError),
    ({"type": "Point", "coordinates": ("1", 2)}, TypeError),
    ({"type": "Point", "coordinates": (None, 2)}, TypeError),
    ({"type": "LineString", "coordinates": (1, 2)}, TypeError),
    ({"type": "LineString", "coordinates": "ab"}, TypeError),
    ({"type": "Polygon", "coordinates": [1]}, TypeError),
    ({"type": "GeometryCollection", "coordinates": []}, TypeError),
    ({"type": "GeometryCollection", "geometries": [5]}, TypeError),
    ({"type": "Feature"}, TypeError),
    ({"type": "GeometryCollection", "geometries": [None]}, TypeError),
    ({"type": "MultiPoint", "coordinates": [(1, 2)], "ids": 5}, TypeError),
    ({}, ValueError),
    ({"type": "point"}, ValueError),
    ({"type": ["Point"]}, ValueError),
    ({"type": "Point", "coordinates": (float("nan"), 2)}, ValueError),
    ({"type": "MultiPoint", "coordinates": [(1, 2)], "ids": []}, ValueError),
    ({"type": "MultiPoint", "coordinates": [(1, 2)], "ids": ["7"]}, ValueError),
    ({"type": "MultiPoint", "coordinates": [(1, 2)], "ids": [1 << 63]}, ValueError),
]


def table_of(rows):
    return polytwkb.pack(vectors.table_of(rows))


class Mappings(unittest.TestCase):
    def test_what_geometries_gave(self):
        for rows, mapping in SHAPES:
            with self.subTest(rows=rows):
                precision = int(rows.split("/")[0].split(",")[3])
                self.assertEqual(polytwkb.pack_geometries(mapping, precision), table_of(rows))
        mappings = [mapping for rows, mapping in SHAPES if rows.split("/")[0].split(",")[3] == "0"]
        stream = b"".join(polytwkb.pack_geometries(mapping, 0, style="plain") for mapping in mappings)
        self.assertEqual(polytwkb.geometries(stream), mappings)
        features = {
            "type": "FeatureCollection",
            "features": [{"type": "Feature", "geometry": mapping} for mapping in mappings],
        }
        for given in (mappings, iter(mappings), tuple(mappings), features):
            self.assertEqual(polytwkb.pack_geometries(given, 0, style="plain"), stream)
        self.assertEqual(polytwkb.geometries(polytwkb.split(stream)), mappings)
        self.assertEqual(
            (
                polytwkb.pack_geometries([], 5),
                polytwkb.pack_geometries({"type": "FeatureCollection", "features": []}, 5),
            ),
            (b"", b""),
        )

    def test_coordinates_in_buffers(self):
        line = {"type": "LineString", "coordinates": polytwkb.in_degrees([(1, 1), (5, 5)], 5)}
        self.assertEqual(polytwkb.pack_geometries(line, 5), table_of("0,linestring,,5,AAGG/"))
        park = {"type": "Polygon", "coordinates": [line["coordinates"]]}
        self.assertEqual(polytwkb.pack_geometries(park, 5), table_of("0,polygon,,5,/1,ring,,,AAGG/"))

    def test_objects_with_an_interface(self):
        class Place:
            __geo_interface__ = {"type": "Feature", "geometry": RIGHT}

        self.assertEqual(polytwkb.pack_geometries(Place(), 0), table_of("0,point,,0,CA/"))
        self.assertEqual(polytwkb.pack_geometries([Place(), RIGHT], 0), table_of("0,point,,0,CA/0,point,,0,CA/"))

    def test_a_list_with_gaps(self):
        nothing = {"type": "Feature", "geometry": None}
        point = table_of("0,point,,0,CA/")
        for given, blobs in [
            ([None, RIGHT, None, None, RIGHT], [None, point, None, None, point]),
            ([RIGHT, nothing], [point, None]),
            ([None], [None]),
            ([], []),
            (
                {"type": "FeatureCollection", "features": [nothing, {"type": "Feature", "geometry": RIGHT}]},
                [None, point],
            ),
            (nothing, [None]),
        ]:
            packed = polytwkb.pack_geometries(given, 0)
            self.assertEqual((packed.blobs, packed), (blobs, b"".join(filter(None, blobs))))
            self.assertEqual(
                packed.offsets.tolist(), [len(b"".join(filter(None, blobs[:place]))) for place in range(len(blobs) + 1)]
            )
            self.assertEqual(polytwkb.split(packed), list(filter(None, blobs)))
            self.assertEqual(polytwkb.geometries(packed.blobs), [blob and RIGHT for blob in blobs])
        with self.assertRaises(polytwkb.Refused) as caught:
            polytwkb.pack_geometries([None, RIGHT, None, {"type": "Point", "coordinates": (1 << 62, 0)}], 0)
        refused = caught.exception
        self.assertEqual(
            (str(refused), refused.done, refused.output.blobs),
            ("geometry 3: coordinate out of range", 3, [None, point, None]),
        )
        with self.assertRaisesRegex(ValueError, "^geometry 2: a coordinate is a finite number"):
            polytwkb.pack_geometries([None, RIGHT, {"type": "Point", "coordinates": (0, float("nan"))}], 0)

    def test_heights_are_dropped_if_asked(self):
        for given, rows in [
            ({"type": "Point", "coordinates": (2, 1, 7)}, "0,point,,0,AC/"),
            ({"type": "Point", "coordinates": ()}, "0,point,,0,/"),
            ({"type": "LineString", "coordinates": [(1, 1, 9), (5, 5), (5, 5, 1, 2)]}, "0,linestring,,0,AAGG??/"),
        ]:
            self.assertEqual(polytwkb.pack_geometries([None, given], 0, heights="drop"), table_of(rows))
        with self.assertRaisesRegex(TypeError, "^geometry 0: points are pairs of numbers"):
            polytwkb.pack_geometries({"type": "Point", "coordinates": (2,)}, 0, heights="drop")

    def test_ids_are_left_out(self):
        given = {
            "type": "GeometryCollection",
            "geometries": [{"type": "MultiPoint", "coordinates": [(2, 1)], "ids": [9]}],
            "ids": [3],
        }
        self.assertEqual(
            polytwkb.pack_geometries(given, 0), table_of("0,collection,,0,/1,multipoint,3,0,/2,point,9,,AC/")
        )
        self.assertEqual(
            polytwkb.pack_geometries(given, 0, ids=False), table_of("0,collection,,0,/1,multipoint,,0,/2,point,,,AC/")
        )

    def test_coordinates_are_rounded_as_encode_rounds(self):
        points = [(0.000005, -0.000005), (2.5, 1.000015), (Decimal("0.000025"), 7), (-179.9832104, 0)] * 50
        for given in (points, points[:1]):
            line = polytwkb.pack_geometries({"type": "LineString", "coordinates": given}, 5)
            self.assertEqual(line, table_of(f"0,linestring,,5,{polytwkb.encode(given, precision=5)}/"))

    def test_what_is_refused(self):
        deep = {"type": "Point", "coordinates": ()}
        for _ in range(34):
            deep = {"type": "GeometryCollection", "geometries": [deep]}
        circle = {"type": "GeometryCollection"}
        circle["geometries"] = [circle, circle]
        many = {"type": "LineString", "coordinates": [(0, 0)] * 6}
        for given, text in [
            (deep, "nested too deep"),
            (circle, "nested too deep"),
            (many, "too many points"),
            ({"type": "MultiPoint", "coordinates": [(1, 2), ()]}, "wrong number of points"),
            ({"type": "Point", "coordinates": (1, 1e30)}, "coordinate out of range"),
            ({"type": "Point", "coordinates": (1 << 62, 1)}, "coordinate out of range"),
            ({"type": "Polygon", "coordinates": [[(1, 2)]], "ids": [1]}, "id not allowed"),
            ({"type": "MultiPoint", "coordinates": [(1, 2), (1, 2)], "ids": [1, None]}, "id on some children only"),
        ]:
            with self.subTest(text=text), self.assertRaises(polytwkb.Refused) as caught:
                polytwkb.pack_geometries([RIGHT, RIGHT, given, RIGHT], 0, limits=polytwkb.Limits(points=5))
            refused = caught.exception
            self.assertEqual((str(refused), refused.place, refused.done), (f"geometry 2: {text}", 2, 2))
            self.assertEqual(refused.output, table_of("0,point,,0,CA/0,point,,0,CA/"))

    def test_parts_are_as_deep_as_collections_allow(self):
        """In 32 collections, the most that a limit takes, a geometry has all parts, and the one after it is packed."""
        limits = polytwkb.Limits(nest=32)
        for rows in [
            "{0},multipoint,,0,/{1},point,,,AC/{1},point,,,GE/",
            "{0},polygon,,0,/{1},ring,,,AAGG/{1},ring,,,AC/",
            "{0},multipolygon,,0,/{1},polygon,,,/{2},ring,,,AC/{2},ring,,,GE/{1},polygon,,,/{2},ring,,,AC/",
        ]:
            (mapping,) = polytwkb.geometries(table_of(rows.format(0, 1, 2)))
            for _ in range(32):
                mapping = {"type": "GeometryCollection", "geometries": [mapping]}
            outer = "".join(f"{depth},collection,,0,/" for depth in range(32))
            wanted = polytwkb.pack(vectors.table_of(outer + rows.format(32, 33, 34) + "0,point,,0,CA/"), limits=limits)
            deep = {"type": "GeometryCollection", "geometries": [mapping]}
            self.assertEqual(polytwkb.pack_geometries([mapping, RIGHT], 0, limits=limits), wanted)
            with self.assertRaisesRegex(polytwkb.Refused, "^geometry 0: nested too deep"):
                polytwkb.pack_geometries([deep, RIGHT], 0, limits=limits)

    def test_wrong_types(self):
        for given, raised in WRONG:
            with self.subTest(given=given), self.assertRaisesRegex(raised, "^geometry 1: "):
                polytwkb.pack_geometries([RIGHT, given], 5)
        for given in [
            (None, 5),
            (7, 5),
            ("ab", 5),
            (b"ab", 5),
            (RIGHT, None),
            (RIGHT, 1.5),
            (RIGHT, 5, {"style": 0}),
            (RIGHT, 5, {"limits": 5}),
            (RIGHT, 5, {"heights": None}),
            ({"type": "FeatureCollection"}, 5),
        ]:
            with self.subTest(given=given), self.assertRaises(TypeError):
                polytwkb.pack_geometries(*given[:2], **(given[2] if given[2:] else {}))
        for given in [
            (RIGHT, 8),
            (RIGHT, -9),
            (RIGHT, 5, {"style": "Full"}),
            ({"type": "Line"}, 5),
            (RIGHT, 5, {"heights": "Drop"}),
        ]:
            with self.subTest(given=given), self.assertRaises(ValueError):
                polytwkb.pack_geometries(*given[:2], **(given[2] if given[2:] else {}))


WKT = [
    ("POINT (7.44781 46.94797)", "0,point,,5,yop}Gysml@/"),
    ("POINT EMPTY", "0,point,,5,/"),
    ("LINESTRING (0.00001 0.00001, 0.00005 0.00005)", "0,linestring,,5,AAGG/"),
    ("POLYGON EMPTY", "0,polygon,,5,/"),
    ("MULTIPOINT (0.00002 0.00001, 0.00003 0.00004)", "0,multipoint,,5,/1,point,,,AC/1,point,,,GE/"),
    ("MULTILINESTRING ((0 0, 0.00005 0.00005))", "0,multilinestring,,5,/1,linestring,,,??II/"),
    (
        "POLYGON ((0 0, 0.0006 0, 0.0006 0.0004, 0 0.0004, 0 0), (0.0002 0.0001, 0.0002 0.0003, 0.0004 0.0003, 0.0004 0.0001, 0.0002 0.0001))",
        "0,polygon,,5,/1,ring,,,???wBoA??vBnA?/1,ring,,,Sg@g@??g@f@??f@/",
    ),
    (
        "GEOMETRYCOLLECTION (POINT (0.00002 0.00001), POINT EMPTY, GEOMETRYCOLLECTION EMPTY)",
        "0,collection,,5,/1,point,,5,AC/1,point,,5,/1,collection,,5,/",
    ),
]


@unittest.skipUnless(shapely, "shapely is not there")
class Shapely(unittest.TestCase):
    def test_shapes(self):
        for text, rows in WKT:
            with self.subTest(text=text):
                self.assertEqual(polytwkb.pack_geometries(wkt.loads(text), 5), table_of(rows))
        shapes = [wkt.loads(text) for text, _ in WKT]
        self.assertEqual(polytwkb.pack_geometries(shapes, 5), table_of("".join(rows for _, rows in WKT)))

    def test_heights_are_not_dropped(self):
        line, flat = wkt.loads("LINESTRING Z (1 2 3, 4 5 6)"), wkt.loads("LINESTRING (1 2, 4 5)")
        for given in ([None, flat, line], [None, RIGHT, line]):
            with self.assertRaisesRegex(TypeError, "geometry 2: .* no height"):
                polytwkb.pack_geometries(given, 5)
        for given in ([line], [line, RIGHT]):
            wanted = [flat, RIGHT][: len(given)]
            self.assertEqual(polytwkb.pack_geometries(given, 5, heights="drop"), polytwkb.pack_geometries(wanted, 5))
        self.assertEqual(
            polytwkb.pack_geometries([line, wkt.loads("POINT EMPTY")], 5, heights="drop").blobs[1],
            table_of("0,point,,5,/"),
        )

    def test_shapes_go_as_mappings_do(self):
        """By way of WKB and by way of mappings, with gaps."""
        shapes = [None, *[wkt.loads(text) for text, _ in WKT], None]
        gap, two = [shapes[3], None, shapes[3]], [shapes[2], shapes[1]]
        for chosen in (shapes, shapes[1:3], shapes[3:4], gap, [shapes[1]] * 3, two, shapes * 30):
            packed = polytwkb.pack_geometries(chosen, 5)
            mappings = [shape and _interface_of(shape) for shape in chosen]
            self.assertEqual(packed.blobs, polytwkb.pack_geometries(mappings, 5).blobs)
            found = polytwkb.shapes(packed.blobs)
            self.assertEqual([made and made.wkt for made in found], [made and made.wkt for made in chosen])
        deep = wkt.loads("GEOMETRYCOLLECTION (" * 34 + "POINT (1 2)" + ")" * 34)
        for count in (1, 100):
            with self.assertRaisesRegex(polytwkb.Refused, f"^geometry {count}: nested too deep"):
                polytwkb.pack_geometries([shapes[1]] * count + [deep, shapes[1]], 5)
        with self.assertRaisesRegex(ValueError, "^geometry 2: a coordinate is a finite number, not nan"):
            polytwkb.pack_geometries([shapes[1], None, LineString([(0, 1), (float("nan"), 2)])], 5)
        with self.assertRaisesRegex(polytwkb.Refused, "^geometry 1: coordinate out of range"):
            polytwkb.pack_geometries([None, LineString([(0, 1), (1e15, 2)])], 5)

    def test_a_multipoint_with_an_empty_point(self):
        """It is refused by its number, also among mappings, where Shapely 1.8 raises IndexError."""
        holed = wkt.loads("MULTIPOINT ((0 1), EMPTY)")
        with self.assertRaisesRegex(polytwkb.Refused, "^geometry 1: wrong number of points$"):
            polytwkb.pack_geometries([None, holed], 5)
        with self.assertRaisesRegex((polytwkb.Refused, ValueError), "^geometry 1: "):
            polytwkb.pack_geometries([RIGHT, holed], 5)

    def test_shapely_2_is_given_whole_lists(self):
        """The calls of Shapely 2 that are needed, over those of the version that is there."""

        def to_wkb(given, output_dimension, byte_order):
            return [wkb.dumps(one, output_dimension=output_dimension, big_endian=not byte_order) for one in given]

        shapes = [None, wkt.loads("POINT Z EMPTY"), *[wkt.loads(text) for text, _ in WKT]]
        wanted = polytwkb.pack_geometries(shapes, 5)
        with mock.patch.multiple(
            shapely, create=True, from_wkb=lambda given: list(map(wkb.loads, given)), to_wkb=to_wkb
        ):
            packed = polytwkb.pack_geometries(shapes, 5)
            found = polytwkb.shapes(packed.blobs)
        self.assertEqual(
            (packed.blobs, [one.wkt for one in found[2:]]), (wanted.blobs, [one.wkt for one in shapes[2:]])
        )

    def test_shapes_that_shapely_does_not_take(self):
        blobs = [table_of(rows) for rows in ("0,point,,5,AC/", "0,linestring,,5,AC/", "0,linestring,,5,AAGG/")]
        with self.assertRaisesRegex(ValueError, "^blob 2: Shapely does not take this geometry"):
            polytwkb.shapes([None, *blobs])
        made, faults = polytwkb.shapes([blobs[0], blobs[1], b"", None, blobs[2]], errors="collect")
        self.assertEqual([made and made.geom_type for made in made], ["Point", None, None, None, "LineString"])
        self.assertEqual([str(fault).split(":")[0] for fault in faults], ["blob 1", "blob 2"])

    def test_the_blobs_of_postgis(self):
        """Shapes of the text that PostGIS printed: those that Shapely has, of one precision and without ids."""
        count = 0
        for vector in vectors.postgis():
            precisions = {row.split(",")[3] for row in vector["rows"]} - {""}
            if len(precisions) != 1 or any(row.split(",")[2] for row in vector["rows"]) or "EMPTY" in vector["wkt"]:
                continue
            count += 1
            with self.subTest(wkt=vector["wkt"]):
                wanted = polytwkb.pack(vectors.HEADER + "".join(row + "\n" for row in vector["rows"]))
                shapes = list(map(shape, polytwkb.geometries(bytes.fromhex(vector["hex"]))))
                self.assertEqual(polytwkb.pack_geometries(shapes, int(precisions.pop())), wanted)
        self.assertGreater(count, 10)


@unittest.skipUnless(geopandas and shapely, "geopandas is not there")
class GeoPandas(unittest.TestCase):
    def test_columns(self):
        chosen = [(text, rows) for text, rows in WKT if not text.startswith("MULTI")]
        wanted = table_of("".join(rows for _, rows in chosen))
        column = geopandas.GeoSeries(
            [wkt.loads(text) for text, _ in chosen], index=[f"row {place}" for place in range(len(chosen))]
        )
        frame = geopandas.GeoDataFrame({"name": range(len(chosen))}, geometry=column.values)
        for given in (column, frame, frame.geometry, list(column)):
            self.assertEqual(polytwkb.pack_geometries(given, 5), wanted)
        frame["blob"] = polytwkb.pack_geometries(frame, 5).blobs
        self.assertEqual(polytwkb.geometries(frame["blob"]), polytwkb.geometries(wanted))

    def test_the_index_and_gaps_are_kept(self):
        frame = geopandas.GeoDataFrame(
            geometry=[wkt.loads("POINT (1 2)"), None, wkt.loads("POINT (3 4)"), wkt.loads("POINT (5 6)")]
        )[::-2]
        frame["blob"] = polytwkb.pack_geometries(frame.geometry, 5).blobs
        frame["back"] = geopandas.GeoSeries(polytwkb.shapes(frame["blob"]), index=frame.index)
        self.assertEqual((list(frame.index), list(frame["blob"].isna())), ([3, 1], [False, True]))
        self.assertTrue(frame["back"].iloc[0].equals(frame.geometry.iloc[0]) and frame["back"].iloc[1] is None)


if __name__ == "__main__":
    unittest.main()
