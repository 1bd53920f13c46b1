"""Geometries as whole trees with absolute points, and what is asked of a whole tree."""
from collections import namedtuple
from fractions import Fraction
from itertools import chain

# members: points as (x, y) for point, linestring and multipoint; lists of points for polygon and multilinestring;
# lists of such lists for multipolygon; geometries for collection. ids: a list as long as members, or None.
Geometry = namedtuple("Geometry", "kind precision ids members")

KINDS = ("point", "linestring", "polygon", "multipoint", "multilinestring", "multipolygon", "collection")
SINGLE = ("point", "linestring", "multipoint")  # members are points
DOUBLE = ("polygon", "multilinestring")  # members are lists of points
LEAST, MOST = -(2**62), 2**62 - 1
NODES, POINTS = 2**20, 2**24  # of one geometry
NEST, MOST_NEST = 16, 32


def zigzag(number):
    return 2 * number if number >= 0 else -2 * number - 1


def signed(form):
    return form // 2 if form % 2 == 0 else -(form + 1) // 2


def points_of(geometry):
    """All points, those of members included, in order."""
    if geometry.kind in SINGLE:
        return list(geometry.members)
    if geometry.kind in DOUBLE:
        return list(chain.from_iterable(geometry.members))
    if geometry.kind == "multipolygon":
        return [point for polygon in geometry.members for ring in polygon for point in ring]
    return [point for member in geometry.members for point in points_of(member)]


def precisions_of(geometry):
    """The precision of the geometry and of each collection member in it, at any depth."""
    if geometry.kind != "collection":
        return {geometry.precision}
    return {geometry.precision}.union(*(precisions_of(member) for member in geometry.members))


NAMES = dict(
    zip(
        KINDS, ("Point", "LineString", "Polygon", "MultiPoint", "MultiLineString", "MultiPolygon", "GeometryCollection")
    )
)


def with_precision(geometry, precision):
    """The geometry with this precision, and its members too."""
    members = geometry.members
    if geometry.kind == "collection":
        members = [with_precision(member, precision) for member in members]
    return geometry._replace(precision=precision, members=members)


def in_degrees(members, precision):
    """Points, or lists of them, with exact coordinates."""
    if isinstance(members, tuple):
        return tuple(number / Fraction(10) ** precision for number in members)
    return [in_degrees(member, precision) for member in members]


def mapping_of(geometry):
    """The mapping of the geo interface, as GeoJSON has it, with exact coordinates."""
    kind, precision, ids, members = geometry
    mapping = {"type": NAMES[kind], **({"ids": ids} if ids else {})}
    if kind == "collection":
        return {**mapping, "geometries": list(map(mapping_of, members))}
    coordinates = in_degrees(members, precision)
    return {**mapping, "coordinates": (coordinates or [()])[0] if kind == "point" else coordinates}


def differences(points):
    """The first point, and each later one less the one before it."""
    return [(x - u, y - v) for (x, y), (u, v) in zip(points, [(0, 0)] + points)]


def box_of(points):
    """Least x, width, least y, height."""
    xs, ys = zip(*points)
    return [min(xs), max(xs) - min(xs), min(ys), max(ys) - min(ys)]


def has_box(geometry):
    return geometry.kind != "point" and len(points_of(geometry)) > 0 and len(precisions_of(geometry)) == 1
