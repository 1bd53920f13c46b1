"""Columns as users have them: series and their arrays of pandas and GeoPandas, arrays of objects, with gaps."""
import unittest
from unittest import mock

import polytwkb
from polytwkb import _offsets
from test_packing import RIGHT

try:
    import numpy
except ImportError:
    numpy = None
try:
    import pandas
except ImportError:
    pandas = None
try:
    import geopandas
    from shapely.geometry import LineString, Point
except ImportError:
    geopandas = None

BLOBS = polytwkb.pack_geometries([RIGHT, {"type": "LineString", "coordinates": [(1, 2), (3, 4)]}], 5).blobs
MAPPINGS = polytwkb.geometries(BLOBS)
READERS = [polytwkb.read, polytwkb.unpack, polytwkb.to_geojson, polytwkb.show, polytwkb.split]


class Django:
    """What Django's shapes have: a type, and no geo interface."""

    geom_type = "Point"


class Objects(unittest.TestCase):
    def test_an_object_without_a_geo_interface_is_named(self):
        for kind in ("Point", "GeometryCollection", "Polygon"):
            Django.geom_type = kind
            with self.assertRaisesRegex(TypeError, "^geometry 1: a geometry is a mapping .*: Django is neither"):
                polytwkb.pack_geometries([RIGHT, Django()], 5)
            with self.assertRaisesRegex(TypeError, "^geometry 0: "):
                polytwkb.pack_geometries(Django(), 5)

    def test_nan_is_a_gap(self):
        nan = float("nan")
        self.assertEqual(polytwkb.geometries([nan, BLOBS[0], None]), [None, MAPPINGS[0], None])
        self.assertEqual(polytwkb.pack_geometries([nan, MAPPINGS[0], None], 5).blobs, [None, BLOBS[0], None])
        self.assertEqual(polytwkb.check([nan, BLOBS[0]]), [])
        with self.assertRaisesRegex(TypeError, "blob 1 is bytes, not float"):
            polytwkb.geometries([nan, 0.5])
        columns = {"kind": [4, 1], "depth": [0, 1], "counts": [0, 1], "precision": [0, -128], "id": [nan, 7]}
        self.assertEqual(polytwkb.read(polytwkb.write(columns, [(1, 2)])).rows[1].id, 7)


@unittest.skipUnless(numpy, "numpy is not there")
class Numpy(unittest.TestCase):
    def test_arrays_of_objects(self):
        column = numpy.array([*BLOBS, None], dtype=object)
        self.assertEqual(polytwkb.geometries(column), [*MAPPINGS, None])
        self.assertEqual((polytwkb.check(column), len(polytwkb.geometries(column[::-1]))), ([], 3))
        self.assertEqual(polytwkb.ragged(column[:1]).coordinates.tolist(), [list(MAPPINGS[0]["coordinates"])])
        for call in READERS:
            with self.assertRaisesRegex(TypeError, "a stream of blobs is bytes, not ndarray with items of format 'O'"):
                call(column)

    def test_arrays_of_strings_are_refused(self):
        for given in (numpy.array(BLOBS), numpy.array(["AC", "AA"])):
            for call in [*READERS, polytwkb.geometries, polytwkb.check, polytwkb.decode]:
                with self.subTest(call=call.__name__, type=given.dtype), self.assertRaises(TypeError):
                    call(given)
        with self.assertRaises(TypeError):
            polytwkb.geometries([numpy.array([b"1", b"2"], dtype=object)])

    def test_arrays_of_bytes_are_streams(self):
        stream = numpy.frombuffer(b"".join(BLOBS), numpy.uint8)
        self.assertEqual((polytwkb.split(stream), polytwkb.geometries(stream)), (BLOBS, MAPPINGS))

    def test_lengths_of_a_list_are_compared_with_sizes(self):
        """A list is read at once if each item is a blob by its size, and item by item if one is not."""
        long = polytwkb.pack_geometries({"type": "LineString", "coordinates": [(7, 46)] * 90}, 5).blobs
        longer = polytwkb.pack_geometries({"type": "LineString", "coordinates": [(7, 46)] * 9000}, 5).blobs
        extended = [bytes.fromhex("010a00020204"), bytes.fromhex("010a0082000204")]
        for items in (BLOBS * 3, long + BLOBS + longer, BLOBS * 40 + long, [BLOBS[0]]):
            self.assertEqual(len(polytwkb.geometries(items)), len(items))
        for items, place in [
            ([BLOBS[0][:-1], BLOBS[0][-1:] + BLOBS[1]], 0),
            ([BLOBS[0] + BLOBS[1][:5], BLOBS[1][5:]], 0),
            ([*BLOBS, BLOBS[0] + BLOBS[1]], 2),
            ([*BLOBS, b"", BLOBS[0]], 2),
            ([*long, longer[0][:2], longer[0][2:]], 1),
        ]:
            with self.assertRaises(polytwkb.Refused) as caught:
                polytwkb.geometries(items)
            self.assertEqual((caught.exception.done, len(caught.exception.output)), (place, place))
        point = {"type": "Point", "coordinates": (1.0, 2.0)}
        with mock.patch.object(_offsets, "_by_sizes", side_effect=AssertionError):
            self.assertEqual(
                polytwkb.geometries([*extended, BLOBS[0], extended[0]]), [point, point, MAPPINGS[0], point]
            )


@unittest.skipUnless(pandas, "pandas is not there")
class Pandas(unittest.TestCase):
    def test_series_and_their_arrays(self):
        series = pandas.Series([BLOBS[0], None, BLOBS[1]], index=["a", "b", "c"])
        wanted = [MAPPINGS[0], None, MAPPINGS[1]]
        for given in (series, series.to_numpy(), series.values, series.array, series.tolist()):
            self.assertEqual((polytwkb.geometries(given), polytwkb.check(given)), (wanted, []))

    def test_what_pandas_puts_in_gaps(self):
        series = pandas.Series([BLOBS[0], pandas.NA, float("nan"), None, BLOBS[1]])
        wanted = [MAPPINGS[0], None, None, None, MAPPINGS[1]]
        self.assertEqual((polytwkb.geometries(series), polytwkb.check(series)), (wanted, []))
        left = pandas.DataFrame({"key": [1, 2]}).merge(
            pandas.DataFrame({"key": [2], "twkb": BLOBS[:1]}), how="left", on="key"
        )
        self.assertEqual(polytwkb.geometries(left["twkb"]), [None, MAPPINGS[0]])
        shapes = pandas.Series([MAPPINGS[0], pandas.NA, float("nan")])
        self.assertEqual(polytwkb.pack_geometries(shapes, 5).blobs, [BLOBS[0], None, None])

    def test_a_frame_of_rows(self):
        stream = b"".join(BLOBS)
        rows, points = polytwkb.read(stream)
        frame = pandas.DataFrame(numpy.asarray(rows))
        self.assertEqual(polytwkb.write(frame, points), stream)
        self.assertEqual(polytwkb.write(frame[["kind", "counts", "precision"]], points), stream)
        with self.assertRaisesRegex(TypeError, "rows have a kind and counts"):
            polytwkb.write(frame.rename(columns={"kind": "sort"}), points)
        frame["counts"] = [1, float("nan")]
        with self.assertRaisesRegex(TypeError, "the column 'counts'"):
            polytwkb.write(frame, points)
        with self.assertRaisesRegex(TypeError, "columns by name or a frame, not int"):
            polytwkb.write(5, points)


@unittest.skipUnless(geopandas, "geopandas is not there")
class GeoPandas(unittest.TestCase):
    def test_frames_columns_and_their_arrays(self):
        shapes = [Point(7, 46), None, LineString([(1, 2), (3, 4)])]
        frame = geopandas.GeoDataFrame({"name": ["a", "b", "c"]}, geometry=shapes)
        wanted = polytwkb.pack_geometries(shapes, 5)
        column = frame.geometry
        for given in (frame, column, column.values, column.array, column.to_numpy(), list(column), frame[:]):
            self.assertEqual(polytwkb.pack_geometries(given, 5).blobs, wanted.blobs)
        self.assertEqual(polytwkb.pack_geometries(frame[:1].geometry.values, 5).blobs, wanted.blobs[:1])
        frame["twkb"] = wanted.blobs
        for given in (frame["twkb"], frame["twkb"].to_numpy(), frame["twkb"].values):
            self.assertEqual(polytwkb.shapes(given), shapes)


if __name__ == "__main__":
    unittest.main()
