"""The coordinate of a double by fractions, and random doubles: degrees, any bits, any size, and numbers at and beside a half."""
import math
import struct
from fractions import Fraction

EDGES = [
    0.0,
    -0.0,
    0.5,
    -0.5,
    1.5,
    2.5,
    5e-324,
    2.2250738585072014e-308,
    2.0**52 - 0.5,
    2.0**53,
    2.0**62,
    -(2.0**62),
    1.7976931348623157e308,
]
EDGES += [math.inf, -math.inf, math.nan]


def unit_of(number, precision):
    """The coordinate of a double by the rule of docs/FORMATS.md; None if there is none."""
    if not math.isfinite(number):
        return None
    exact = abs(Fraction(number)) * Fraction(10) ** precision
    size = math.floor(exact)
    half = (size + Fraction(1, 2)) / Fraction(10) ** precision
    # the quotient of whole numbers is the double nearest to it
    if 2 * (exact - size) >= 1 or exact < 10**14 and half.numerator / half.denominator == abs(number):
        size += 1
    unit = -size if number < 0 else size
    return unit if -(1 << 62) <= unit < 1 << 62 else None


def of_bits(bits):
    return struct.unpack("<d", struct.pack("<Q", bits))[0]


def beside(number, step):
    """The number so many floats farther from 0."""
    bits = struct.unpack("<Q", struct.pack("<d", number))[0]
    return of_bits(bits + step)


def half_of(chance, precision):
    """The double nearest to some whole number of units and a half."""
    return float(Fraction(2 * chance.getrandbits(chance.randint(1, 54)) + 1, 2) / Fraction(10) ** precision)


def some_half(chance, precision):
    """A double at or beside a half, of either sign."""
    number = beside(half_of(chance, precision), chance.choice((-2, -1, 0, 0, 0, 1, 2)))
    return -number if chance.random() < 0.5 else number


def some_double(chance, precision):
    half = half_of(chance, precision)
    number = chance.choice(
        (
            lambda: chance.uniform(-180, 180),
            lambda: round(chance.uniform(-180, 180), chance.randrange(10)),
            lambda: of_bits(chance.getrandbits(64)),
            lambda: math.ldexp(chance.random(), chance.randint(-40, 95)),
            lambda: half,
            lambda: beside(half, chance.choice((-2, -1, 1, 2))),
            lambda: chance.choice(EDGES),
            lambda: chance.choice(EDGES[:-3]) / 10.0**precision,
        )
    )()
    return -number if chance.random() < 0.5 else number
