"""Decimal degrees to whole units of 10^-precision: the one place where the package rounds.

A coordinate becomes the whole number nearest to it times 10^precision, of two the one farther from 0. Up to 10^14 units a float that is the
nearest one to a half counts as that half; docs/FORMATS.md has the rule. Floats are rounded by the library, many at once. One number is
rounded by fractions: an int, a Decimal or a Fraction counts as what it is, so that only an exact half is one.
"""
from __future__ import annotations

import math
import operator
from array import array
from decimal import Decimal
from numbers import Rational
from typing import Any, Optional

from ._library import library
from ._memory import address_of
from ._reasons import Status

# Floats have all whole numbers below this.
_WHOLE = 1 << 53


def power(precision: int) -> int:
    """A precision that is in range."""
    precision = operator.index(precision)
    if not -8 <= precision <= 7:
        raise ValueError(f"a precision is from -8 to 7, not {precision}")
    return precision


def _near(number: Any) -> Any:
    """The number, but one that is far out of range or next to 0 in place of a Decimal whose fraction would have millions of digits."""
    if not isinstance(number, Decimal) or not number.is_finite() or abs(number.adjusted()) < 100:
        return number
    return Decimal(0) if not number or number.adjusted() < 0 else Decimal("1e99").copy_sign(number)


def nearest(number: Any, precision: int) -> int:
    """The whole number nearest to this many units of 10^-precision, of two the one farther from 0, by fractions."""
    number = _near(number)
    try:
        ratio = above, below = number.as_integer_ratio()
        is_float = not isinstance(number, (Rational, Decimal))
    except (AttributeError, TypeError):
        ratio = above, below = operator.index(number), 1
        is_float = False
    except (OverflowError, ValueError):
        raise ValueError(f"a coordinate is a finite number, not {number}") from None
    factor, divisor = 10 ** max(precision, 0), 10 ** max(-precision, 0)
    size, below = abs(above) * factor, below * divisor
    units: int = (2 * size + below) // (2 * below)
    # The quotient of two ints is the float nearest to it. It is compared by its ratio, as a float of numpy may have fewer bits.
    if (
        is_float
        and size < 10**14 * below
        and ((2 * units + 1) * divisor / (2 * factor)).as_integer_ratio() == (abs(ratio[0]), ratio[1])
    ):
        units += 1
    return units if above >= 0 else -units


def _floats_of(numbers: Any) -> Optional[array[float]]:
    """An array of the floats that are equal to the numbers of a list; None if there are others, or if they are not looked for."""
    others = set(map(type, numbers)) - {float}
    if not all(kind is int or issubclass(kind, float) and kind.__module__ == "numpy" for kind in others):
        return None
    try:
        floats = array("d", numbers)
    except OverflowError:
        return None
    return floats if int not in others or -_WHOLE < min(floats) and max(floats) < _WHOLE else None


def rounded(numbers: Any, precision: int) -> Optional[array[int]]:
    """The units of a list of numbers or a view of floats, or None if they have to be rounded one by one: there is none, one is no float, or
    one has no unit in range."""
    if isinstance(numbers, list):
        floats = _floats_of(numbers)
    else:
        floats = array("d", numbers.tobytes() if numbers.format == "d" else numbers)
    if not floats:
        return None
    units = array("q", bytes(8 * len(floats)))
    report = library.polytwkb_round(floats.buffer_info()[0], len(floats), precision, units.buffer_info()[0], len(units))
    return units if report.status == Status.DONE else None


class NotFinite(ValueError):
    """A float that is not finite, with its place among others."""

    def __init__(self, place: int, number: float) -> None:
        super().__init__(f"a coordinate is a finite number, not {number}")
        self.place = place


def round_floats(numbers: memoryview, address: int, precision: int, units: memoryview) -> None:
    """Puts the units of floats, which begin at this address. In place of one that has no unit it puts a number that is out
    of range."""
    done, count = 0, len(numbers)
    while done < count:
        put = address_of(units) + 8 * done
        report = library.polytwkb_round(address + 8 * done, count - done, precision, put, count - done)
        done += report.sent
        if report.status == Status.REFUSED:
            if not math.isfinite(numbers[done]):
                raise NotFinite(done, numbers[done])
            units[done] = 1 << 62 if numbers[done] > 0 else -(1 << 62) - 1
            done += 1
