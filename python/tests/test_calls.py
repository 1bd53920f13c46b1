"""What the calls take and what they refuse: types, limits, precisions, buffers, versions."""
import ctypes
import doctest
import inspect
import os
import re
import subprocess
import sys
import tempfile
import unittest
from array import array
from decimal import Decimal
from fractions import Fraction

import polytwkb
import vectors
from polytwkb import _library

GOOGLE = [(-120.2, 38.5), (-120.95, 40.7), (-126.453, 43.252)]
GOOGLE_TEXT = "_p~iF~ps|U_ulLnnqC_mqNvxq`@"


class Arguments(unittest.TestCase):
    def test_wrong_types(self):
        for call, given, options in [
            (polytwkb.pack, None, {}),
            (polytwkb.pack, 7, {}),
            (polytwkb.pack, ["a"], {}),
            (polytwkb.pack, "", {"style": 0}),
            (polytwkb.pack, "", {"style": b"full"}),
            (polytwkb.pack, "", {"style": "full", "limits": 16}),
            (polytwkb.pack, "", {"style": "full", "limits": (1, 2)}),
            (polytwkb.pack, "", {"style": "full", "limits": (1.0, 2, 3)}),
            (polytwkb.unpack, "", {}),
            (polytwkb.unpack, None, {}),
            (polytwkb.unpack, b"", {"limits": "16"}),
            (polytwkb.show, 7, {}),
            (polytwkb.to_geojson, "", {}),
            (polytwkb.to_geojson, [b""], {}),
            (polytwkb.split, "", {}),
            (polytwkb.decode, None, {}),
            (polytwkb.decode, 7, {}),
            (polytwkb.decode, "", {"precision": 1.5}),
            (polytwkb.encode, None, {}),
            (polytwkb.encode, "AA", {}),
            (polytwkb.encode, b"AA", {}),
            (polytwkb.encode, [1, 2], {}),
            (polytwkb.encode, [(1,)], {}),
            (polytwkb.encode, [(1, 2, 3)], {}),
            (polytwkb.encode, [(1.0, 2)], {}),
            (polytwkb.encode, [("1", 2)], {}),
            (polytwkb.encode, [("1", 2)], {"precision": 5}),
            (polytwkb.encode, [(None, 2)], {"precision": 5}),
            (polytwkb.encode, array("d", [1, 2]), {}),
            (polytwkb.encode, array("i", [1, 2]), {}),
            (polytwkb.encode, array("Q", [1, 2]), {}),
            (polytwkb.encode, array("q", [1]), {}),
            (polytwkb.encode, bytearray(16), {}),
            (polytwkb.encode, array("q", [1, 2]), {"precision": 5}),
        ]:
            with self.subTest(call=call.__name__, given=given, options=options), self.assertRaises(TypeError):
                call(given, **options)

    def test_what_is_optional_is_by_keyword(self):
        calls = [call for name, call in vars(polytwkb).items() if name in polytwkb.__all__ and inspect.isfunction(call)]
        self.assertGreater(len(calls), 16)
        for call in [*calls, polytwkb.Rows.__init__]:
            for parameter in inspect.signature(call).parameters.values():
                is_optional = parameter.default is not parameter.empty
                with self.subTest(call=call.__name__, parameter=parameter.name):
                    self.assertEqual(is_optional, parameter.kind == parameter.KEYWORD_ONLY)

    def test_a_refusal_is_a_value_error(self):
        for call, given in [
            (polytwkb.pack, ""),
            (polytwkb.unpack, b"\x08"),
            (polytwkb.geometries, [b""]),
            (polytwkb.encode, [(1 << 62, 0)]),
        ]:
            with self.assertRaises(ValueError) as caught:
                call(given)
            self.assertIs(type(caught.exception), polytwkb.Refused)

    def test_values_out_of_range(self):
        for call, given, options in [
            (polytwkb.pack, "", {"style": "Full"}),
            (polytwkb.pack, "", {"style": "full", "limits": polytwkb.Limits(nest=33)}),
            (polytwkb.pack, "", {"style": "full", "limits": polytwkb.Limits(nest=-1)}),
            (polytwkb.unpack, b"", {"limits": polytwkb.Limits(nodes=0)}),
            (polytwkb.unpack, b"", {"limits": polytwkb.Limits(nodes=(1 << 20) + 1)}),
            (polytwkb.show, b"", {"limits": polytwkb.Limits(points=(1 << 24) + 1)}),
            (polytwkb.split, b"", {"limits": polytwkb.Limits(nest=1 << 32)}),
            (polytwkb.decode, "", {"precision": 8}),
            (polytwkb.encode, [], {"precision": -9}),
            (polytwkb.encode, [], {"precision": 1 << 70}),
            (polytwkb.encode, [(float("nan"), 0)], {"precision": 5}),
            (polytwkb.encode, [(0, float("inf"))], {"precision": 5}),
        ]:
            with self.subTest(call=call.__name__, given=given, options=options), self.assertRaises(ValueError):
                call(given, **options)

    def test_buffers_of_bytes(self):
        blob = bytes.fromhex("0102020402")
        for given in (
            blob,
            bytearray(blob),
            memoryview(blob),
            memoryview(bytearray(blob)),
            array("B", blob),
            memoryview(b"0" + blob)[1:],
        ):
            self.assertEqual(polytwkb.split(given), [blob])
            self.assertEqual(polytwkb.unpack(given), vectors.table_of("0,point,,0,AC/"))
        every_second = memoryview(bytes(byte for pair in zip(blob, blob) for byte in pair))[::2]
        self.assertEqual(polytwkb.split(every_second), [blob])
        self.assertEqual(polytwkb.pack(memoryview(vectors.table_of("0,point,,0,AC/").encode())), blob)

    def test_a_table_of_many_lines_is_one_call(self):
        table = vectors.HEADER + 5000 * "0,linestring,,5,AAGG\n"
        self.assertEqual(polytwkb.unpack(polytwkb.pack(table, style="plain")), table)
        self.assertEqual(len(polytwkb.split(polytwkb.pack(table))), 5000)


class Points(unittest.TestCase):
    def test_degrees_are_rounded_as_google_says(self):
        self.assertEqual(polytwkb.encode(GOOGLE, precision=5), GOOGLE_TEXT)
        self.assertEqual(polytwkb.decode(GOOGLE_TEXT, precision=5), GOOGLE)
        self.assertEqual(polytwkb.encode([(-179.9832104, 0)], precision=5), "?`~oia@")

    def test_rounding_is_exact(self):
        for number, precision, whole in [
            ("0.000005", 5, 1),
            ("-0.000005", 5, -1),
            ("0.0000049999999999999999999999", 5, 0),
            ("0.5", 0, 1),
            ("-0.5", 0, -1),
            ("1.5", 0, 2),
            ("2.5", 0, 3),
            ("15", -1, 2),
            ("-14", -1, -1),
            ("4611686018427387903.4", 0, (1 << 62) - 1),
        ]:
            for kind in (Decimal, Fraction):
                with self.subTest(number=number, kind=kind):
                    self.assertEqual(
                        polytwkb.decode(polytwkb.encode([(kind(number), 0)], precision=precision)), [(whole, 0)]
                    )

    def test_a_decimal_of_any_exponent_is_soon_answered(self):
        self.assertEqual(polytwkb.encode([(Decimal("1e-999999999"), Decimal("0e999999999"))], precision=5), "??")
        for number in ("1e999999999", "-1e999999999"):
            with self.assertRaises(polytwkb.Refused):
                polytwkb.encode([(Decimal(number), 0)], precision=5)
        for number in ("nan", "inf", "-inf", "snan"):
            with self.assertRaises(ValueError):
                polytwkb.encode([(Decimal(number), 0)], precision=5)

    def test_buffers_of_points(self):
        flat = array("q", [-12020000, 3850000, -12095000, 4070000, -12645300, 4325200])
        self.assertEqual(polytwkb.encode(flat), GOOGLE_TEXT)
        self.assertEqual(polytwkb.encode(memoryview(flat)), GOOGLE_TEXT)
        self.assertEqual(polytwkb.encode(memoryview(flat).toreadonly()), GOOGLE_TEXT)
        self.assertEqual(polytwkb.encode(memoryview(flat)[::-1]), polytwkb.encode(flat[::-1]))
        self.assertEqual(polytwkb.encode(memoryview(flat).cast("B").cast("q", [3, 2])), GOOGLE_TEXT)
        self.assertEqual(polytwkb.encode((ctypes.c_int64 * 6)(*flat)), GOOGLE_TEXT)
        self.assertEqual(polytwkb.decode_flat(GOOGLE_TEXT), flat)
        self.assertEqual(polytwkb.encode(zip(flat[::2], flat[1::2])), GOOGLE_TEXT)
        self.assertEqual(polytwkb.encode(array("q")), "")
        self.assertEqual(polytwkb.decode(""), [])

    def test_a_coordinate_out_of_range_is_refused_at_its_point(self):
        for number in (1 << 62, -(1 << 62) - 1, (1 << 63) - 1, 1 << 63, -(1 << 63) - 1, 10**40):
            for points in ([(0, 0), (1, number)], [(0, 0), (number, 1)], [(0, 0), (number, 1), (10**40, 0)]):
                with self.subTest(points=points), self.assertRaises(polytwkb.Refused) as caught:
                    polytwkb.encode(points)
                self.assertEqual(str(caught.exception), "point 1: coordinate out of range")
                self.assertEqual(
                    (caught.exception.code, caught.exception.place, caught.exception.output), ("POLYLINE_RANGE", 1, "")
                )
        for refused, precision in (([(4611686018427387903.5, 0)], 5), (array("q", [0, 1 << 62]), None)):
            with self.assertRaises(polytwkb.Refused) as caught:
                polytwkb.encode(refused, precision=precision)
            self.assertEqual(caught.exception.place, 0)


class Results(unittest.TestCase):
    def test_reports_have_the_fields_of_the_header(self):
        """Their names, order and sizes."""
        with open(os.path.join(vectors.REPO, "include", "polytwkb.h"), encoding="utf-8") as header:
            text = re.sub(r"/\*.*?\*/", "", header.read(), flags=re.DOTALL)
        sizes = {"uint32_t": 4, "uint64_t": 8}
        for structure in (_library.CLimits, _library.Report, _library.Counts):
            name = {"CLimits": "limits"}.get(structure.__name__, structure.__name__.lower())
            body = re.search(rf"struct polytwkb_{name} {{(.*?)}}", text, re.DOTALL).group(1)
            fields = re.findall(r"(uint\d+_t) (\w+)(?:\[(\d+)\])?;", body)
            wanted = [(field, sizes[kind] * int(count or 1)) for kind, field, count in fields]
            self.assertEqual([(field, ctypes.sizeof(kind)) for field, kind in structure._fields_], wanted)


class Reasons(unittest.TestCase):
    def test_each_reason_has_the_number_and_the_name_of_the_header(self):
        with open(os.path.join(vectors.REPO, "include", "polytwkb.h"), encoding="utf-8") as header:
            lines = [line.split() for line in header if line.startswith("#define POLYTWKB_")]
        named = {words[1][len("POLYTWKB_") :]: words[2] for words in lines if len(words) > 2}
        from polytwkb import _refused

        for reason, name in _refused._NAMES.items():
            self.assertEqual(named[name], f"{reason}u")
            self.assertTrue(_library.reason_text(reason))
        kinds = {"KIND_" + kind.name: f"{kind.value}u" for kind in polytwkb.Kind}
        self.assertEqual({name: number for name, number in named.items() if name.startswith("KIND_")}, kinds)
        self.assertEqual(named["NO_PRECISION"], f"({polytwkb.NO_PRECISION})")
        others = {
            "DONE",
            "REFUSED",
            "ARGUMENTS",
            "DEVICE",
            "MEMORY",
            "TOO_SMALL",
            "FULL",
            "PLAIN",
            "PACK",
            "UNPACK",
            "SHOW",
            "GEOJSON",
            "HEADERS",
            "STOP_IF_FULL",
            *kinds,
        }
        self.assertEqual(
            {name for name, number in named.items() if number.endswith("u")} - others, set(_refused._NAMES.values())
        )
        self.assertEqual(named["VERSION"], f'"{polytwkb.__version__}"')


class Libraries(unittest.TestCase):
    def imported(self, path):
        environment = dict(os.environ, POLYTWKB_LIBRARY=path)
        return subprocess.run(
            [sys.executable, "-B", "-c", "import polytwkb"],
            env=environment,
            stderr=subprocess.PIPE,
            text=True,
            check=False,
        ).stderr

    def test_a_library_of_another_version_is_refused_at_import(self):
        path = _library.library._name
        if not os.path.exists(path):
            self.skipTest("the library is not in a file by its name")
        with open(path, "rb") as file:
            content = file.read()
        version = polytwkb.__version__.encode()
        with tempfile.TemporaryDirectory() as folder:
            other = os.path.join(folder, "libpolytwkb.so")
            with open(other, "wb") as file:
                file.write(content.replace(version, b"9" + version[1:]))
            said = self.imported(other)
        self.assertIn("ImportError", said)
        self.assertIn(polytwkb.__version__, said)
        self.assertIn("9.1.0", said)

    def test_no_library_is_an_import_error(self):
        self.assertIn("ImportError", self.imported("/nowhere/libpolytwkb.so"))
        self.assertIn("ImportError", self.imported(sys.executable))


class Documents(unittest.TestCase):
    def test_documents(self):
        for name in ("README.md", "docs/USING.md", "python/README.md"):
            with self.subTest(name=name):
                result = doctest.testfile(os.path.join(vectors.REPO, name), module_relative=False, encoding="utf-8")
                self.assertEqual(result.failed, 0)
                self.assertGreater(result.attempted, 0)


if __name__ == "__main__":
    unittest.main()
