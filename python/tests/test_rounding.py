"""Coordinates are rounded as by decimals, half away from zero: halves, the floats beside halves, and a million random numbers."""
import decimal
import math
import os
import random
import struct
import sys
import time
import unittest
from array import array
from decimal import Decimal
from fractions import Fraction
from unittest import mock

import polytwkb
import vectors
from polytwkb._rounding import nearest

try:
    import numpy
except ImportError:
    numpy = None

CASES = int(os.environ.get("ROUNDINGS", "1000000"))
SEED = int(os.environ.get("SEED", time.strftime("%Y%m%d", time.gmtime())))
PRECISIONS = range(-8, 8)


def expected_of(number, precision):
    """The whole number nearest to a float times 10^precision, by the module decimal: the float as the shortest decimal number that reads as
    it, up to 10^14 units. It is the rule of docs/FORMATS.md in other words: so far each decimal number of a digit more has a float of its own.
    """
    exact = Decimal(number).scaleb(precision)
    if abs(exact) < 10**14:
        exact = Decimal(repr(number)).scaleb(precision)
    return int(exact.to_integral_value(decimal.ROUND_HALF_UP))


def beside(number):
    """The number and the floats next to it."""
    bits = struct.unpack("<q", struct.pack("<d", number))[0]
    return [number] + [
        struct.unpack("<d", struct.pack("<q", bits + step))[0] for step in (-2, -1, 1, 2) if bits + step > 0
    ]


def halves(precision):
    """Floats at and beside the numbers whose scaled value lies halfway, of all sizes."""
    numbers = []
    for whole in [*range(200), *(10**power + place for power in range(3, 19) for place in (-1, 0, 1))]:
        middle = Fraction(2 * whole + 1, 2) / Fraction(10) ** precision
        numbers += beside(float(middle))
    numbers += [
        0.0,
        5e-324,
        2.225073858507201e-308,
        2.2250738585072014e-308,
        0.49999999999999994,
        2.0**51 + 0.5,
        2.0**52 - 0.5,
        2.0**52,
        2.0**52 + 1,
        2.0**53 + 2,
        2.0**61,
    ]
    limit = (1 << 62) / 10.0**precision
    return [number * sign for number in numbers if number < 0.99 * limit for sign in (1, -1)]


def random_numbers(chance, count, precision):
    """Degrees, degrees of few decimals, and floats of any size in range."""
    limit = math.log2((1 << 62) / 10.0**precision) - 0.01
    kinds = [
        lambda: chance.uniform(-180, 180),
        lambda: round(chance.uniform(-180, 180), chance.randrange(10)),
        lambda: chance.randrange(-1000, 1000) / 2 / 10.0**precision,
        lambda: math.ldexp(chance.random() - 0.5, chance.randrange(-60, int(limit))),
    ]
    return [chance.choice(kinds)() for _ in range(count)]


class Rounding(unittest.TestCase):
    def alike(self, numbers, precision):
        """The numbers are rounded so in each form that takes them."""
        numbers = numbers + numbers[: len(numbers) % 2]
        with decimal.localcontext() as context:
            context.prec = 1200
            expected = [expected_of(number, precision) for number in numbers]
        for form in [array("d", numbers), list(zip(numbers[::2], numbers[1::2]))] + (
            [numpy.array(numbers).reshape(-1, 2)] if numpy else []
        ):
            found = polytwkb.in_units(form, precision).flat.tolist()
            if found != expected:
                place = next(place for place, pair in enumerate(zip(found, expected)) if pair[0] != pair[1])
                self.fail(
                    f"seed {SEED}: {numbers[place]!r} at precision {precision} is {found[place]}, not {expected[place]}"
                )

    def test_halves_and_numbers_beside_them(self):
        for precision in PRECISIONS:
            numbers = halves(precision)
            self.alike(numbers, precision)
            for place in range(0, 40, 2):
                self.alike(numbers[place : place + 2], precision)

    def test_decimal_numbers_of_up_to_15_digits(self):
        """Half of them end in 5, and each counts as it was written, one by one too."""
        chance = random.Random(SEED)
        for precision in PRECISIONS:
            texts = []
            while len(texts) < CASES // 8 // len(PRECISIONS):
                digits = str(chance.randrange(1, 10 ** chance.randint(1, 15)))[:-1] + chance.choice("5555567890")
                texts.append(
                    f"{chance.choice(('', '-'))}{digits}e{chance.choice((-precision - 1, -precision - 1, chance.randint(-12, 6)))}"
                )
            texts = [text for text in texts if abs(Decimal(text).scaleb(precision)) < 10**14]
            self.alike(list(map(float, texts)), precision)
            written = [int(Decimal(text).scaleb(precision).to_integral_value(decimal.ROUND_HALF_UP)) for text in texts]
            self.assertEqual([nearest(float(text), precision) for text in texts], written)

    def test_postgis_rounds_a_product_and_has_other_units_for_some(self):
        for row in vectors.roundings():
            with self.subTest(row=row):
                number, precision, unit = float(row["number"]), row["precision"], row["unit"]
                self.assertEqual(polytwkb.in_units([(number, 0)], precision).tolist(), [[unit, 0]])
                self.assertEqual(nearest(number, precision), unit)
                polyline = polytwkb.unpack(bytes.fromhex(row["hex"])).rstrip("\n").rpartition(",")[2]
                self.assertEqual(polytwkb.decode(polyline), [(row.get("postgis", unit), 0)])

    def test_an_exact_number_is_a_half_only_if_it_is_one(self):
        for number, unit in [
            (0.15, 2),
            (Decimal("0.15"), 2),
            (Fraction("0.15"), 2),
            (Decimal(0.15), 1),
            (Fraction(0.15), 1),
            (0.35, 4),
            (Decimal("0.34999999999999999999"), 3),
            (1.005e13, 1005 * 10**11),
            (0.1499999999999999, 1),
        ]:
            self.assertEqual(polytwkb.in_units([(number, -number)], 1).tolist(), [[unit, -unit]], repr(number))

    def test_random_numbers(self):
        chance = random.Random(SEED)
        for precision in PRECISIONS:
            self.alike(random_numbers(chance, CASES // len(PRECISIONS), precision), precision)

    def test_the_least_and_the_greatest(self):
        for precision in PRECISIONS:
            scale = 10.0**precision
            self.alike(
                [0.0, -0.0, sys.float_info.min, 0.99 * 2.0**62 / scale, 0.99 * -(2.0**62) / scale], precision
            )
            for number in (float("inf"), float("-inf"), float("nan")):
                with self.assertRaisesRegex(ValueError, "point 1: a coordinate is a finite number"):
                    polytwkb.in_units(array("d", [0, 0, number, 0]), precision)
            for number in (
                sys.float_info.max,
                -sys.float_info.max,
                1.01 * 2.0**62 / scale,
                1.01 * -(2.0**62) / scale,
            ):
                with self.assertRaises(polytwkb.Refused) as caught:
                    polytwkb.in_units(array("d", [0, 0, 0, number]), precision)
                self.assertEqual((caught.exception.place, caught.exception.code), (1, "POLYLINE_RANGE"))
        self.assertEqual(
            polytwkb.in_units([(2.0**62 - 512, -(2.0**62))], 0).tolist(), [[(1 << 62) - 512, -(1 << 62)]]
        )
        with self.assertRaises(polytwkb.Refused):
            polytwkb.in_units([(0.0, 2.0**62)], 0)

    def test_whole_numbers_beside_floats(self):
        self.assertEqual(polytwkb.in_units([(7, 46.5), (True, -0.5)], 0).tolist(), [[7, 47], [1, -1]])
        large = (1 << 53) + 1
        self.assertEqual(polytwkb.in_units([(large, 0.5), (5, large)], 0).tolist(), [[large, 1], [5, large]])
        self.assertEqual(polytwkb.in_units([(10 * large + 5, 0.5)], -1).tolist(), [[large + 1, 0]])
        with self.assertRaises(polytwkb.Refused):
            polytwkb.in_units([(10**400, 0.5)], 0)

    def test_what_is_not_rounded_names_its_point(self):
        many = [(0.5, 0.5)] * 5000
        for last, raised, said in [
            ((float("nan"), 0), ValueError, "point 5000: a coordinate is a finite number, not nan"),
            ((0, float("-inf")), ValueError, "point 5000: a coordinate is a finite number, not -inf"),
            ((None, 0), TypeError, "point 5000: a coordinate is a number, not NoneType"),
            ((0, "7"), TypeError, "point 5000: a coordinate is a number, not str"),
            ((0, 1, 2), TypeError, "point 5000 is a pair of numbers, not (0, 1, 2)"),
            ((0, 1e300), polytwkb.Refused, "point 5000: coordinate out of range"),
            ((2.0**62, 0), polytwkb.Refused, "point 5000: coordinate out of range"),
        ]:
            for call in (polytwkb.in_units, polytwkb.encode):
                with self.subTest(last=last, call=call.__name__), self.assertRaises(raised) as caught:
                    call(many + [last], precision=0)
                self.assertEqual(str(caught.exception), said)
        for given in ([(7.4, 46.9)], [(Decimal(7), 0)]):
            with self.assertRaisesRegex(TypeError, "point 0: a coordinate is no whole number: give a precision"):
                polytwkb.encode(given)
        with self.assertRaisesRegex(TypeError, "give a precision"):
            polytwkb.encode(array("d", [7.4, 46.9]))

    def test_the_first_fault_is_the_one_that_is_named(self):
        with self.assertRaisesRegex(ValueError, "point 1: "):
            polytwkb.encode([(0.5, 0), (float("nan"), 0), (1,)], precision=5)
        with self.assertRaises(polytwkb.Refused) as caught:
            polytwkb.encode([(0, 0), (1e30, 0), (1,)], precision=5)
        self.assertEqual(caught.exception.place, 1)

    def test_buffers_of_floats(self):
        numbers = [-120.2, 38.5, -120.95, 40.7, -126.453, 43.252]
        expected = "_p~iF~ps|U_ulLnnqC_mqNvxq`@"
        flat = array("d", numbers)
        columns = memoryview(flat).cast("B").cast("d", [3, 2])
        for given in (
            flat,
            memoryview(flat),
            columns,
            memoryview(flat).toreadonly(),
            memoryview(flat[::-1])[::-1],
            columns[::-1][::-1],
        ):
            self.assertEqual(polytwkb.encode(given, precision=5), expected)
        self.assertEqual(
            polytwkb.encode(array("f", numbers), precision=2),
            polytwkb.encode(array("d", array("f", numbers)), precision=2),
        )
        self.assertEqual(polytwkb.encode(array("d"), precision=5), "")
        for wrong in (
            array("d", [1.0]),
            memoryview(flat).cast("B").cast("d", [2, 3]),
            memoryview(flat).cast("B").cast("d", [3, 2, 1]),
            bytearray(16),
        ):
            with self.assertRaises(TypeError):
                polytwkb.encode(wrong, precision=5)

    def test_units_and_degrees(self):
        units = polytwkb.in_units([(7.44781, 46.94797), (-0.000005, 180)], 5)
        self.assertEqual(
            (units.format, units.shape, units.tolist()), ("q", (2, 2), [[744781, 4694797], [-1, 18000000]])
        )
        for given in (units, [(744781, 4694797), (-1, 18000000)], array("q", [744781, 4694797, -1, 18000000])):
            degrees = polytwkb.in_degrees(given, 5)
            self.assertEqual((degrees.format, degrees.shape), ("d", (2, 2)))
            self.assertEqual(degrees.tolist(), [[7.44781, 46.94797], [-0.00001, 180.0]])
        self.assertEqual(polytwkb.in_units(polytwkb.in_degrees(units, 5), 5), units)
        self.assertEqual(polytwkb.in_degrees([(2, -3)], -2).tolist(), [[200.0, -300.0]])
        self.assertEqual((polytwkb.in_units([], 5).shape, polytwkb.in_degrees(array("q"), 5).shape), ((0, 2), (0, 2)))
        for wrong in (array("d", [1, 2]), array("i", [1, 2]), [(0.5, 1)], None, "AA", b"12345678" * 2):
            with self.assertRaises(TypeError):
                polytwkb.in_degrees(wrong, 5)

    def test_degrees_are_the_nearest_floats(self):
        chance = random.Random(SEED)
        numbers = [chance.randrange(-(1 << 63), 1 << 63) >> chance.randrange(64) for _ in range(2000)]
        for precision in PRECISIONS:
            expected = [float(Fraction(number) / Fraction(10) ** precision) for number in numbers]
            small = [place for place, number in enumerate(numbers) if abs(number) < 1 << 50]
            for module in [None, numpy] if numpy else [None]:
                with mock.patch("polytwkb._degrees.numpy_of", lambda: module):
                    self.assertEqual(polytwkb.in_degrees(array("q", numbers), precision).flat.tolist(), expected)
                    few = [numbers[place] for place in small[: len(small) // 2 * 2]]
                    found = polytwkb.in_degrees(array("q", few), precision).flat.tolist()
                    self.assertEqual(found, [expected[place] for place in small[: len(few)]])

    @unittest.skipUnless(numpy, "numpy is not there")
    def test_numpy_takes_both_without_a_copy(self):
        units = polytwkb.in_units(numpy.array([[7.44781, 46.94797]]), 5)
        for view, kind in ((units, numpy.int64), (polytwkb.in_degrees(units, 5), numpy.float64)):
            found = numpy.asarray(view)
            self.assertEqual((found.dtype, found.shape), (numpy.dtype(kind), (1, 2)))
            self.assertEqual(
                found.__array_interface__["data"][0], numpy.asarray(view.flat).__array_interface__["data"][0]
            )
        rows = numpy.arange(12.0).reshape(3, 4)
        self.assertEqual(polytwkb.encode(rows[:, 1:3], precision=0), polytwkb.encode([(1, 2), (5, 6), (9, 10)]))
        self.assertEqual(
            polytwkb.encode(rows[:, 1:3].astype(numpy.int64), precision=0), polytwkb.encode([(1, 2), (5, 6), (9, 10)])
        )
        self.assertEqual(
            polytwkb.encode(rows[:, 1:3].astype(">f8"), precision=0), polytwkb.encode([(1, 2), (5, 6), (9, 10)])
        )
        objects = numpy.array([[1, Decimal(2)], [5.25, Fraction(6)]], dtype=object)
        self.assertEqual(polytwkb.encode(objects, precision=0), polytwkb.encode([(1, 2), (5, 6)]))
        for empty in (rows[:0, :2], rows[:0, :2].astype(numpy.int64)):
            self.assertEqual((polytwkb.encode(empty, precision=5), polytwkb.in_units(empty, 5).shape), ("", (0, 2)))
        self.assertEqual(polytwkb.in_degrees(rows[:0, :2].astype(numpy.int64), 5).shape, (0, 2))
        self.assertEqual(
            polytwkb.encode(list(map(tuple, rows[:, 1:3])), precision=0), polytwkb.encode([(1, 2), (5, 6), (9, 10)])
        )
        singles = array("f", [0.35, 0.15])
        self.assertEqual(polytwkb.in_units([tuple(map(numpy.float32, singles))], 1), polytwkb.in_units(singles, 1))


if __name__ == "__main__":
    unittest.main()
