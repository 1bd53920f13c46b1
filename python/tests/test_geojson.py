"""Text of GeoJSON: by hand, beside the second implementation, and as `json` and others read it."""
import json
import os
import random
import sys
import unittest
from decimal import Decimal

import polytwkb
import vectors

sys.path.append(os.path.join(vectors.REPO, "tests", "fuzz"))
from blob import canonical, spelled_in
from geojson import text_of
from geometry import MOST_NEST, mapping_of
from trees import nested, some_tree

# Rows, and the line of each geometry.
LINES = [
    ("0,point,,5,_p~iF~ps|U/", '{"type":"Point","coordinates":[-120.2,38.5]}'),
    ("0,point,,-2,AA/", '{"type":"Point","coordinates":[100,100]}'),
    ("0,point,,7,/", '{"type":"Point","coordinates":[]}'),
    ("0,point,,1,HH/", '{"type":"Point","coordinates":[-0.5,-0.5]}'),
    (
        "0,linestring,,5,_p~iF~ps|U_ulLnnqC_mqNvxq`@/",
        '{"type":"LineString","coordinates":[[-120.2,38.5],[-120.95,40.7],[-126.453,43.252]]}',
    ),
    ("0,polygon,,0,/1,ring,,,AAGG/1,ring,,,/", '{"type":"Polygon","coordinates":[[[1,1],[5,5]],[]]}'),
    (
        "0,multipoint,,0,/1,point,7,,AC/1,point,-8,,GE/",
        '{"type":"MultiPoint","ids":[7,-8],"coordinates":[[2,1],[3,4]]}',
    ),
    (
        "0,multilinestring,,0,/1,linestring,,,AC/1,linestring,,,/",
        '{"type":"MultiLineString","coordinates":[[[2,1]],[]]}',
    ),
    (
        "0,multipolygon,,0,/1,polygon,1,,/2,ring,,,AC/1,polygon,2,,/",
        '{"type":"MultiPolygon","ids":[1,2],"coordinates":[[[[2,1]]],[]]}',
    ),
    (
        "0,collection,,0,/1,multipoint,3,0,/2,point,9,,AC/1,collection,4,0,/2,point,,1,AC/",
        '{"type":"GeometryCollection","ids":[3,4],"geometries":[{"type":"MultiPoint","ids":[9],"coordinates":[[2,1]]},'
        '{"type":"GeometryCollection","geometries":[{"type":"Point","coordinates":[0.2,0.1]}]}]}',
    ),
]
ENDS = -(2**62), 2**62 - 1


class Geojson(unittest.TestCase):
    def test_lines(self):
        stream = b"".join(polytwkb.pack(vectors.table_of(rows)) for rows, _ in LINES)
        self.assertEqual(polytwkb.to_geojson(stream).splitlines(), [line for _, line in LINES])
        self.assertEqual(polytwkb.to_geojson(b""), "")
        for given in (bytearray(stream), memoryview(stream)):
            self.assertEqual(polytwkb.to_geojson(given), polytwkb.to_geojson(stream))

    def test_random_geometries_at_each_precision(self):
        chance = random.Random(7)
        for _ in range(2000):
            tree = some_tree(chance)
            tree = nested(chance, tree) if chance.random() < 0.2 else tree
            blob = canonical(tree, chance.random() < 0.5)
            if not spelled_in(blob, MOST_NEST)[2]:  # some are nested too deep
                text = polytwkb.to_geojson(blob, limits=polytwkb.Limits(nest=MOST_NEST))
                self.assertEqual(text, text_of(mapping_of(tree)) + "\n")

    def test_both_ends_of_the_units_at_each_precision(self):
        for precision in range(-8, 8):
            numbers = [*ENDS, 0, 1, -1, 5, -50, 10**8, -(10**15) - 1]
            blob = polytwkb.write(
                {"kind": 2, "counts": [len(numbers)], "precision": precision}, [(x, -x - 1) for x in numbers]
            )
            found = json.loads(polytwkb.to_geojson(blob), parse_float=Decimal, parse_int=Decimal)
            unit = Decimal(1).scaleb(-precision)
            self.assertEqual(found["coordinates"], [[x * unit, (-x - 1) * unit] for x in numbers])

    def test_postgis(self):
        for vector in vectors.postgis():
            blob = bytes.fromhex(vector["hex"])
            tree = spelled_in(blob, 16)[0][0]
            with self.subTest(wkt=vector["wkt"]):
                self.assertEqual(polytwkb.to_geojson(blob), text_of(mapping_of(tree)) + "\n")

    def test_values_are_those_of_geometries(self):
        for rows, _ in LINES:
            blob = polytwkb.pack(vectors.table_of(rows))
            # lists in place of tuples
            mapping = json.loads(json.dumps(polytwkb.geometries(blob)[0]))
            self.assertEqual(json.loads(polytwkb.to_geojson(blob)), mapping)

    def test_a_refusal_has_the_lines_before(self):
        point = polytwkb.pack(vectors.table_of("0,point,,0,AC/"))
        with self.assertRaisesRegex(polytwkb.Refused, "^byte 5: unknown type$") as caught:
            polytwkb.to_geojson(point + b"\x08")
        self.assertEqual(
            (caught.exception.output, caught.exception.done), ('{"type":"Point","coordinates":[2,1]}\n', 1)
        )
        with self.assertRaises(polytwkb.Refused):
            polytwkb.to_geojson(point, limits=polytwkb.Limits(points=0))

    def test_a_stream_in_parts_gives_the_lines_of_the_whole(self):
        stream = b"".join(polytwkb.pack(vectors.table_of(rows)) for rows, _ in LINES)
        pieces = [stream[place : place + 7] for place in range(0, len(stream), 7)]
        self.assertEqual("".join(map(polytwkb.to_geojson, polytwkb.stream(pieces))), polytwkb.to_geojson(stream))


if __name__ == "__main__":
    unittest.main()
