"""Points to encoded polylines and back, and decimal numbers to whole numbers of units of a precision."""
import re
from fractions import Fraction
from itertools import accumulate
from math import floor
from operator import sub

NUMBER = re.compile("[_-~]*[?-^]")
# A float of fewer units than this is off by less than 10^-5, which counts only near a half.
LARGE = 2.0**32
# Up to so many units a float that is the nearest one to a half counts as that half.
SHORT = 10.0**14
# The characters of five bits of a number, least first: those that go on, and those that end it.
GO_ON, END = ([chr(63 + more + bits) for bits in range(32)] for more in (32, 0))
# Three characters that go on, and the texts of numbers of up to three.
HEADS = [a + b + c for c in GO_ON for b in GO_ON for a in GO_ON]
TAILS = END + [a + b for b in END[1:] for a in GO_ON] + [a + b + c for c in END[1:] for b in GO_ON for a in GO_ON]


class Texts(dict):
    """The text of a step, of which those of up to three characters are looked up."""

    def __missing__(self, step):
        form, text = 2 * step if step >= 0 else -2 * step - 1, ""
        while form >= len(TAILS):
            text += HEADS[form % len(HEADS)]
            form //= len(HEADS)
        return text + TAILS[form]


class Steps(dict):
    """The step of a text, of which those of up to three characters are looked up."""

    def __missing__(self, text):
        form = 0
        for character in reversed(text):
            form = 32 * form + (ord(character) - 63) % 32
        return -(form + 1) // 2 if form % 2 else form // 2


STEPS = Steps((text, -(form + 1) // 2 if form % 2 else form // 2) for form, text in enumerate(TAILS))
TEXTS = Texts((step, text) for text, step in STEPS.items())


def exact_units(number, precision):
    """The same of one number, also next to a half."""
    times, over = 10 ** max(precision, 0), 10 ** max(-precision, 0)
    size = abs(number)
    if isinstance(number, float) and size * times / over < SHORT:
        # One of the two is 1, so each float is rounded once: the half becomes the float nearest to it.
        whole = floor(size * times / over)
        units = whole + ((whole + 0.5) * over / times <= size)
    else:
        units = floor(Fraction(size) * times / over + Fraction(1, 2))
    return units if number > 0 else -units


def units_of(numbers, precision):
    """For each int or float the nearest whole number of units of 10^-precision; halfway, the one farther from 0.

    A float that is the nearest one to a half counts as that half, up to 10^14 units: so a decimal number of up to 15
    digits counts as it was written. docs/FORMATS.md has the rule. Raises TypeError, ValueError or ArithmeticError if
    one is no number, or none that is finite.
    """
    scale, units = 10.0**precision, []
    for number in numbers:
        about = number * scale
        unit = round(about)
        near = -0.49999 < unit - about < 0.49999 and -LARGE < about < LARGE
        units.append(unit if near else exact_units(number, precision))
    return units


def text_of(points, precision):
    """The encoded polyline of points (x, y) in degrees, each number rounded as by units_of."""
    scale = 10.0**precision
    units = [
        unit
        for x, y in points
        for about in (y * scale, x * scale)
        if -0.49999 < (unit := round(about)) - about < 0.49999 and -LARGE < about < LARGE
    ]
    if len(units) < 2 * len(points):
        units = units_of([number for x, y in points for number in (y, x)], precision)
    return text_of_units(units)


def text_of_units(numbers):
    """The encoded polyline of points in units: y and x of each."""
    return "".join(map(TEXTS.__getitem__, map(sub, numbers, [0, 0] + numbers)))


def numbers_of(text):
    """The x and the y of the points of an encoded polyline, in units.

    It checks nothing: for tables that polytwkb wrote.
    """
    steps = list(map(STEPS.__getitem__, NUMBER.findall(text)))
    return accumulate(steps[1::2]), accumulate(steps[::2])


def decimal_text(number, precision):
    """The decimal number of a whole number of units of 10^-precision, with as many decimals."""
    if precision <= 0:
        return str(number * 10**-precision)
    digits = f"{abs(number):0{precision + 1}}"
    return f"{'-' if number < 0 else ''}{digits[:-precision]}.{digits[-precision:]}"
