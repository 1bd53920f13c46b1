#!/usr/bin/env python3
"""Tests of the scripts of the recipes: rounding, polylines, GeoJSON that is cut at any place, and columns of CSV."""
import io
import json
import os
import random
import subprocess
import sys
import tempfile
import unittest
from fractions import Fraction

sys.dont_write_bytecode = True
RECIPES = os.path.join(os.path.dirname(os.path.abspath(__file__)), "..", "..", "examples", "recipes")
sys.path.insert(0, RECIPES)

import geojson
import polylines
import tables

# Google's example, and the one number of its page.
LINE = [(-120.2, 38.5), (-120.95, 40.7), (-126.453, 43.252)]
LINE_TEXT = "_p~iF~ps|U_ulLnnqC_mqNvxq`@"
NUMBER, NUMBER_TEXT = -17998321, "`~oia@"


def nearest(text, precision):
    """The nearest whole number of units, halfway away from zero, by fractions."""
    units = Fraction(text) * Fraction(10) ** precision
    whole = (2 * abs(units.numerator) + units.denominator) // (2 * units.denominator)
    return whole if units >= 0 else -whole


class Rounding(unittest.TestCase):
    def test_halfway_is_away_from_zero(self):
        numbers = [46.947965, 0.000005, -0.000005, 7.000005, 0.0000049, 2.5e-06]
        self.assertEqual(polylines.units_of(numbers, 5), [4694797, 1, -1, 700001, 0, 0])
        self.assertEqual(polylines.units_of([15, -15, 14.9, 25], -1), [2, -2, 1, 3])

    def test_decimals_of_up_to_15_digits_are_exact(self):
        source = random.Random(1)
        for precision in range(-8, 8):
            texts = [f"{source.uniform(-180, 180):.{source.randrange(10)}f}" for _ in range(2000)]
            texts += [text + "5" for text in texts if "." in text]
            units = polylines.units_of(map(float, texts), precision)
            self.assertEqual(units, [nearest(text, precision) for text in texts])

    def test_what_is_no_number(self):
        for number in (float("nan"), float("inf"), "7.4", None, [1]):
            self.assertRaises((TypeError, ValueError, ArithmeticError), polylines.units_of, [number], 5)


class Polylines(unittest.TestCase):
    def test_published(self):
        self.assertEqual(polylines.text_of(LINE, 5), LINE_TEXT)
        self.assertEqual(polylines.text_of_units([NUMBER]), NUMBER_TEXT)
        x, y = polylines.numbers_of(LINE_TEXT)
        self.assertEqual(list(zip(x, y)), [(-12020000, 3850000), (-12095000, 4070000), (-12645300, 4325200)])

    def test_both_ways(self):
        source = random.Random(2)
        for bits in range(63):
            numbers = [source.randrange(-1 << bits, 1 << bits) for _ in range(40)]
            x, y = polylines.numbers_of(polylines.text_of_units(numbers))
            self.assertEqual([number for point in zip(y, x) for number in point], numbers)


class GeoJson(unittest.TestCase):
    features = [
        {"type": "Feature", "properties": {"features": [1, -2.5e-07, True]}, "geometry": None},
        {
            "type": "Feature",
            "properties": {'é"\\': "\u2028}]"},
            "geometry": {"type": "Point", "coordinates": [1.5, -2]},
        },
    ]

    def read(self, text, piece):
        geojson.PIECE = piece
        return list(geojson.features_of(io.StringIO(text)))

    def test_read_in_pieces(self):
        collection = {"type": "FeatureCollection", "name": [{}, ""], "features": self.features, "crs": {"features": []}}
        texts = [json.dumps(collection, indent=indent, ensure_ascii=indent is None) for indent in (None, 1)]
        texts += ["".join(f"{mark}{json.dumps(feature)}\n" for feature in self.features) for mark in ("", "\x1e")]
        for text in texts:
            for piece in range(1, 40):
                self.assertEqual(self.read(text, piece), self.features)

    def test_cut_anywhere(self):
        text = json.dumps({"type": "FeatureCollection", "features": self.features})
        for length in range(1, len(text)):
            for piece in (1, 7, 1000):
                self.assertRaises(tables.Fault, self.read, text[:length], piece)

    def test_what_is_no_object(self):
        texts = ["[1]", "null", "<html>", "[" * 5000, '{"a":' + "[" * 5000]
        texts += ['{"a" 1}', '{"a":1,}', "{1:2}", '{"a":NaN}', '{"features":[1,]}']
        for text in texts:
            self.assertRaises(tables.Fault, self.read, text, 1000)


class Scripts(unittest.TestCase):
    """Scripts with an input, in a folder of their own."""

    def setUp(self):
        self.folder = tempfile.TemporaryDirectory()
        self.addCleanup(self.folder.cleanup)

    def run_script(self, given, script, *words):
        """The status, the output and the line of a script."""
        run = subprocess.run(
            [sys.executable, os.path.join(RECIPES, script), *words],
            cwd=self.folder.name,
            input=given if isinstance(given, bytes) else given.encode(),
            capture_output=True,
        )
        return run.returncode, run.stdout.decode(), run.stderr.decode()

    def read(self, name):
        with open(os.path.join(self.folder.name, name), encoding="utf-8", newline="") as file:
            return file.read()

    def refused(self, given, said, script, *words):
        """A script refuses an input with a line that ends so, and ends its output with what pack refuses."""
        status, output, line = self.run_script(given, script, *words)
        self.assertEqual((status, output[-8:], line), (1, "refused\n", f"{script}: {said}\n"))


TABLE = "depth,kind,id,precision,polyline\n"


class Columns(Scripts):
    SCRIPT, WORDS = "column_to_table.py", ("polyline", "5", "my.rest")

    def column(self, given, *words):
        return self.run_script(given, self.SCRIPT, *words, *self.WORDS)

    def test_missing_values_as_words(self):
        for word in ("NULL", "\\N", "NA", "NaN", "NaT", "NONE", "[NULL]"):
            text = f"id,polyline\n1,yop}}Gysml@\n2,{word}\n"
            said = f"record 3: {word} in place of a polyline; --null '{word}' takes it as empty"
            self.refused(text, said, self.SCRIPT, *self.WORDS)
            status, output, line = self.column(text, "--null", word)
            self.assertEqual((status, output, line), (0, TABLE + "0,linestring,,5,yop}Gysml@\n0,linestring,,5,\n", ""))

    def test_several_words(self):
        text = "polyline,id\nNULL,1\nnull,2\n-,3\n"
        status, output, _ = self.column(text, "--null", "NULL", "--null", "null", "--null=-")
        self.assertEqual((status, output), (0, TABLE + "0,linestring,,5,\n" * 3))
        self.assertEqual(self.read("my.rest"), "polyline,id\n,1\n,2\n,3\n")

    def test_spreadsheet(self):
        """A mark at the start, semicolons, CR LF, quotes, commas, line ends in a field, a blank line."""
        text = '\ufeffid;polyline;"na;me"\r\n1;yop}Gysml@;"a\n""b"", c"\r\n\r\n2;;\r\n'
        status, output, _ = self.column(text, "--delimiter", ";")
        self.assertEqual((status, output), (0, TABLE + "0,linestring,,5,yop}Gysml@\n0,linestring,,5,\n"))
        status, again, _ = self.run_script(output, "table_to_column.py", "--delimiter", ";", "polyline", "my.rest")
        self.assertEqual((status, again), (0, 'id;polyline;"na;me"\n1;yop}Gysml@;"a\n""b"", c"\n2;;\n'))

    def test_tabs(self):
        for word in ("tab", "\\t", "\t"):
            status, output, _ = self.column("id\tpolyline\n1\tyop}Gysml@\n", "--delimiter", word)
            self.assertEqual((status, output), (0, TABLE + "0,linestring,,5,yop}Gysml@\n"))

    def test_columns_that_are_not_there(self):
        texts = {
            "id,line\n": "no column polyline; the header has id, line",
            "id;polyline\n": "no column polyline; the header has id;polyline; for its delimiter: --delimiter ';'",
            "id\tpolyline\n": "no column polyline; the header has id\tpolyline; for its delimiter: --delimiter tab",
            "Polyline,id\n": "no column polyline; the header has Polyline, id",
            "": "no column polyline; the header has no column",
            "polyline,id,polyline\n": "2 columns are named polyline",
        }
        for text, said in texts.items():
            self.refused(text, said, self.SCRIPT, *self.WORDS)

    def test_records_that_are_refused(self):
        texts = {
            "id,polyline\n1,yop}Gysml@\n2\n": "record 3: 1 fields, and 2 in the header",
            'id,polyline\n"a\nb",yop}Gysml@\n\n2,NA\n': "record 3, line 5: NA in place of a polyline; "
            "--null 'NA' takes it as empty",
        }
        for text, said in texts.items():
            self.refused(text, said, self.SCRIPT, *self.WORDS)
        for text in (b"\x1f\x8b\x08\0", "id,polyline\n".encode("utf-16")):
            status, output, line = self.column(text)
            self.assertEqual((status, output), (1, TABLE + "refused\n"))
            self.assertIn("not UTF-8, so it may be compressed or UTF-16", line)

    def test_ids(self):
        text = "polyline,id\nyop}Gysml@lAxT,12\n,-7\n"
        status, output, _ = self.column(text, "--ids", "id")
        rows = "0,multilinestring,,5,\n1,linestring,12,,yop}Gysml@lAxT\n1,linestring,-7,,\n"
        self.assertEqual((status, output), (0, TABLE + rows))
        self.assertEqual(self.run_script(output, "table_to_column.py", "polyline", "my.rest"), (0, text, ""))

    def test_rows_that_are_no_column(self):
        self.column("polyline,id\nyop}Gysml@,1\n")
        for rows in ("", "0,linestring,,5,\n0,linestring,,5,\n", "0,point,,5,yop}Gysml@\n", "0,multipoint,,5,\n"):
            self.assertEqual(self.run_script(TABLE + rows, "table_to_column.py", "polyline", "my.rest")[0], 1)


class Places(Scripts):
    # 46.94797, 7.44781 and 46.94758, 7.44432 by five decimals; the polyline is of docs/USING.md.
    def test_stops_both_ways(self):
        text = 'stop_name,stop_id,stop_lat,stop_lon\n"Bern, Bahnhof",101,46.94797,7.44781\nentrance,102,,\n'
        status, output, _ = self.run_script(text, "stops_to_table.py", "--rest", "my.rest", "5", "my.keys")
        self.assertEqual((status, output), (0, TABLE + "0,point,,5,yop}Gysml@\n0,point,,5,\n"))
        self.assertEqual(self.read("my.keys"), "101\n102\n")
        self.assertEqual(self.run_script(output, "table_to_stops.py", "my.rest"), (0, text, ""))

    def test_stops_without_a_value(self):
        text = "stop_id;stop_lat;stop_lon\n101;NULL;NULL\n"
        words = ("--delimiter", ";", "5", "my.keys")
        self.refused(text, "record 2: 'NULL', 'NULL' are no latitude and longitude", "stops_to_table.py", *words)
        status, output, _ = self.run_script(text, "stops_to_table.py", "--null", "NULL", *words)
        self.assertEqual((status, output), (0, TABLE + "0,point,,5,\n"))

    def test_shapes_both_ways(self):
        text = (
            "shape_id,shape_pt_lat,shape_pt_lon,shape_pt_sequence,far\n"
            "b,46.94758,7.44432,10,2.5\na,46.94797,7.44781,1,\nb,46.94797,7.44781,9,0\n"
        )
        status, output, line = self.run_script(text, "shapes_to_table.py", "--rest", "my.rest", "5", "my.keys")
        rows = "0,linestring,,5,yop}Gysml@lAxT\n0,linestring,,5,yop}Gysml@\n"
        self.assertEqual((status, output), (0, TABLE + rows))
        self.assertEqual(line, "shapes_to_table.py: 1 of 2 lines have one point; PostGIS refuses such\n")
        self.assertEqual(self.run_script(output, "table_to_shapes.py", "my.rest"), (0, text, ""))
        for rows in output.split("\n", 2)[1] + "\n", "0,linestring,,5,yop}Gysml@\n0,linestring,,5,yop}Gysml@\n":
            self.assertEqual(self.run_script(TABLE + rows, "table_to_shapes.py", "my.rest")[0], 1)

    def test_two_points_with_one_sequence(self):
        text = "shape_id,shape_pt_lat,shape_pt_lon,shape_pt_sequence\nb,1,1,7\nb,2,2,7\n"
        self.refused(text, "two points of b have the sequence 7", "shapes_to_table.py", "5", "my.keys")

    def test_decimals(self):
        cases = {
            (4694797, 5): "46.94797",
            (-1, 5): "-0.00001",
            (4694500, 5): "46.94500",
            (7, 0): "7",
            (7, -1): "70",
            (-(2**62), 7): "-461168601842.7387904",
            (0, 3): "0.000",
        }
        for (number, precision), text in cases.items():
            self.assertEqual(polylines.decimal_text(number, precision), text)


class Collections(Scripts):
    def test_a_collection(self):
        rows = TABLE + "0,point,,0,AC\n0,linestring,,0,\n"
        status, output, _ = self.run_script(rows, "table_to_geojson.py", "--collection")
        point, line = {"type": "Point", "coordinates": [2, 1]}, {"type": "LineString", "coordinates": []}
        features = [{"type": "Feature", "properties": {}, "geometry": geometry} for geometry in (point, line)]
        self.assertEqual((status, json.loads(output)), (0, {"type": "FeatureCollection", "features": features}))
        self.assertEqual(
            self.run_script(TABLE, "table_to_geojson.py", "--collection")[1],
            '{"type":"FeatureCollection","features":[\n]}\n',
        )

    def test_an_array(self):
        self.refused(
            '[{"type": "Point", "coordinates": [1, 2]}]',
            "feature 1: an array in place of a " "FeatureCollection; jq -c '.[]' makes lines of one",
            "geojson_to_table.py",
            "5",
        )


if __name__ == "__main__":
    unittest.main()
