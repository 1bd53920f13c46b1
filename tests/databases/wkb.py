"""WKB and boxes of the trees of the second implementation, written from the standard."""
import math
import os
import struct
import sys
from fractions import Fraction

sys.path.insert(0, os.path.join(os.path.dirname(os.path.abspath(__file__)), "..", "fuzz"))

import blob
from geometry import KINDS, points_of, precisions_of

HAS_SRID = 0x20000000
# Up to here a double has each whole number, so a coordinate is the double next to its fraction.
EXACT = 2**53


class Heads:
    """How the heads of geometries are written: little-endian, or by chance in either order, now and then with the number
    of a reference system."""

    def __init__(self, chance=None):
        self.chance = chance

    def order_and_head(self, number):
        if not self.chance:
            return "<", struct.pack("<BI", 1, number)
        order, has_system = self.chance.choice("<>"), self.chance.random() < 0.3
        head = struct.pack(order + "BI", order == "<", number | HAS_SRID * has_system)
        return order, head + (struct.pack(order + "I", 4326) if has_system else b"")


def wkb_of(geometry, heads=Heads()):
    """The WKB of a tree, without its ids."""
    kind, precision, _, members = geometry
    order, head = heads.order_and_head(KINDS.index(kind) + 1)

    def coordinates(points):
        return b"".join(
            struct.pack(order + "d", float(number / Fraction(10) ** precision)) for p in points for number in p
        )

    def counted(parts):
        return struct.pack(order + "I", len(parts)) + b"".join(parts)

    def listed(points):
        return struct.pack(order + "I", len(points)) + coordinates(points)

    def of_kind(part_kind, part):
        return wkb_of(geometry._replace(kind=part_kind, members=part), heads)

    if kind == "point":
        return head + (coordinates(members) or struct.pack(order + "2d", math.nan, math.nan))
    if kind == "linestring":
        return head + listed(members)
    if kind == "polygon":
        return head + counted([listed(ring) for ring in members])
    if kind == "collection":
        return head + counted([wkb_of(member, heads) for member in members])
    parts = [[point] for point in members] if kind == "multipoint" else members
    return head + counted([of_kind(kind.removeprefix("multi"), part) for part in parts])


def without_ids(geometry):
    members = geometry.members
    if geometry.kind == "collection":
        members = [without_ids(member) for member in members]
    return geometry._replace(ids=None, members=members)


def has_ids(geometry):
    return bool(geometry.ids) or geometry.kind == "collection" and any(map(has_ids, geometry.members))


def is_exact(geometry):
    """Whether doubles have its coordinates."""
    return all(abs(number) < EXACT for point in points_of(geometry) for number in point)


def packed_of(geometry, style):
    """Precision and blob of the WKB of a tree that has one precision, whose coordinates come back from doubles."""
    if len(precisions_of(geometry)) > 1 or any(
        abs(number) > 2**46 for point in points_of(geometry) for number in point
    ):
        return None
    return geometry.precision, blob.canonical(without_ids(geometry), style == "full")


def degrees_of(geometry):
    """All points, as doubles."""
    if geometry.kind == "collection":
        return [point for member in geometry.members for point in degrees_of(member)]
    return [tuple(float(n / Fraction(10) ** geometry.precision) for n in point) for point in points_of(geometry)]


def box_of(geometry):
    """Least and greatest x, then of y; None without points."""
    points = degrees_of(geometry)
    if not points:
        return None
    xs, ys = zip(*points)
    return min(xs), max(xs), min(ys), max(ys)


def _hex(*parts):
    """Hexadecimal digits of parts: a double is little-endian, a whole number one of four bytes, a text digits."""
    spelled = {float: lambda n: struct.pack("<d", n).hex(), int: lambda n: struct.pack("<I", n).hex(), str: str}
    return "".join(spelled[type(part)](part) for part in parts)


_POINT, _LINE, _POLYGON, _POINTS, _POLYGONS, _ALL = (f"01{kind:02x}000000" for kind in (1, 2, 3, 4, 6, 7))
NAN, INFINITE = math.nan, math.inf

# What is refused, and the byte at which it is. Types are those of ISO 13249-3 and of EWKB.
REFUSED_WKB = {
    "": "byte 0: truncated",
    "02": "byte 0: byte order is neither 0 nor 1",
    "01": "byte 1: truncated",
    "0101000000": "byte 5: truncated",
    _hex(_POINT, 1.0): "byte 13: truncated",
    _hex(_POINT, 1.0, "000000"): "byte 13: truncated",
    "0100000000": "byte 1: unknown type",
    "0108000000": "byte 1: unknown type",
    "01f8030000": "byte 1: unknown type",
    "01a10f0000": "byte 1: unknown type",
    "01ffffffff": "byte 1: unknown type",
    _hex("01e9030000", 1.0, 2.0, 3.0): "byte 1: Z coordinates",
    _hex("01d1070000", 1.0, 2.0, 3.0): "byte 1: M coordinates",
    _hex("01b90b0000", 1.0, 2.0, 3.0, 4.0): "byte 1: Z and M coordinates",
    _hex("0101000080", 1.0, 2.0, 3.0): "byte 1: Z coordinates",
    _hex("0101000040", 1.0, 2.0, 3.0): "byte 1: M coordinates",
    _hex("01010000c0", 1.0, 2.0, 3.0, 4.0): "byte 1: Z and M coordinates",
    _hex(_ALL, 1, "01ea030000", 0): "byte 10: Z coordinates",
    _hex("0101000020", "e610"): "byte 5: truncated",
    _hex(_POINT, NAN, 1.0): "byte 5: coordinate is no finite number",
    _hex(_POINT, 1.0, NAN): "byte 13: coordinate is no finite number",
    _hex(_LINE, 1, NAN, NAN): "byte 9: coordinate is no finite number",
    _hex(_LINE, 2, 1.0, 2.0, 3.0, INFINITE): "byte 33: coordinate is no finite number",
    _hex(_POINT, 1e300, 2.0): "byte 5: coordinate out of range",
    _hex(_LINE, 2, 1.0, -1e18, NAN): "byte 17: coordinate out of range",
    _hex(_LINE, 3, 1.0, 2.0, 3.0): "byte 33: truncated",
    _hex(_LINE, 2**24 + 1): "byte 5: too many points",
    _hex(_LINE, "ffffffff"): "byte 5: too many points",
    _hex(_POLYGONS, 2**20): "byte 5: too many nodes",
    _hex(_POLYGON, "ffffffff"): "byte 5: too many nodes",
    _hex(_POLYGON, 1, 1, 1.0): "byte 21: truncated",
    _hex(_POINTS, 1, _POINT, NAN, NAN): "byte 14: empty point in a multipoint",
    _hex(_POINTS, 1, _LINE, 0): "byte 10: kind not allowed there",
    _hex(_POLYGONS, 1, _POLYGONS, 0): "byte 10: kind not allowed there",
    _hex(_POINTS, 2, _POINT, 1.0, 2.0): "byte 30: truncated",
    _hex(_POINT, 1.0, 2.0, "00"): "byte 21: bytes after the geometry",
    _hex(*(_ALL, 1) * 17, _POINT, 1.0, 2.0): "byte 153: nested too deep",
}

# What is taken, and its blob at precision 1 in the plain style, by hand from the specification of TWKB.
TAKEN_WKB = {
    _hex(_POINT, NAN, NAN): "2110",
    "00000000017ff80000000000007ff8000000000000": "2110",
    _hex(_POINT, 1.0, -2.0): "21001427",
    "00000000013ff0000000000000c000000000000000": "21001427",
    _hex("0101000020", 4326, 1.0, -2.0): "21001427",
    "0020000001000010e63ff0000000000000c000000000000000": "21001427",
    # halves go away from 0, and 0.15 counts as the half that it is nearest to
    _hex(_LINE, 2, 0.15, -0.15, 0.25, 0.35): "2200020403020c",
    _hex(_LINE, 0): "2210",
    _hex(_POLYGON, 0): "2310",
    _hex(_POLYGON, 1, 0): "23000100",
    _hex(_POINTS, 0): "2410",
    _hex(_ALL, 0): "2710",
    _hex(_ALL, 2, "0101000020", 4326, 1.0, 2.0, "000000000140080000000000004010000000000000"): "2700022100142821003c50",
}
