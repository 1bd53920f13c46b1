#!/usr/bin/env python3
"""What other readers make of the GeoJSON that the command writes.

    readings.py write PROGRAM FILE        writes a line for each of some geometries, and reads lines by json with Decimal
    readings.py collection PROGRAM FILE   the same of collections, the last of which it writes; status 77 without --collection
    readings.py shapely FILE              reads lines by Shapely; status 77 without it
    readings.py json FILE                 compares lines of JSON with the geometries, number by number as doubles
    readings.py wkb FILE                  compares lines of hexadecimal WKB with them

The geometries are random, of seed 1, and as RFC 7946 has them: lines of two positions or more, closed rings, no empty ones; with
coordinates of at most 2^53, at all precisions. `write` also takes both ends of the units. Status 1 if something differs.
"""
import json
import os
import random
import struct
import subprocess
import sys
from decimal import Decimal

sys.dont_write_bytecode = True
sys.path.insert(0, os.path.join(os.path.dirname(os.path.abspath(__file__)), "..", "fuzz"))

from blob import canonical
from geometry import KINDS, LEAST, MOST, Geometry, mapping_of

COUNT, DEEPEST = 400, 2
MISSING = 77
EDGES = (0, 1, -1, 9, 10, -10, 99, 100, -999, 1000, 10**7, -(10**8), 2**53, -(2**53))


def number(chance, precision):
    """Units of a coordinate of at most 2^53: GDAL 3.6 reads greater whole numbers as 2^64 - 1."""
    units = chance.choice(EDGES) if chance.random() < 0.3 else chance.randint(-18000000, 18000000)
    return units if precision >= 0 or abs(units) * 10**-precision <= 2**53 else units % 1000


def points(chance, precision, least):
    return [(number(chance, precision), number(chance, precision)) for _ in range(least + chance.randrange(5))]


def ring(chance, precision):
    around = points(chance, precision, 3)
    return [*around, around[0]]


def some(chance, make):
    return [make() for _ in range(chance.choice((1, 1, 2, 3)))]


def some_geometry(chance, room=DEEPEST):
    kind = chance.choice(KINDS if room else KINDS[:-1])
    precision = chance.randint(-8, 7)
    members = {
        "point": lambda: points(chance, precision, 1)[:1],
        "linestring": lambda: points(chance, precision, 2),
        "polygon": lambda: some(chance, lambda: ring(chance, precision)),
        "multipoint": lambda: points(chance, precision, 1),
        "multilinestring": lambda: some(chance, lambda: points(chance, precision, 2)),
        "multipolygon": lambda: some(chance, lambda: some(chance, lambda: ring(chance, precision))),
        "collection": lambda: some(chance, lambda: some_geometry(chance, room - 1)),
    }[kind]()
    has_ids = kind.startswith("multi") or kind == "collection"
    ids = [chance.randint(-(2**53), 2**53) for _ in members] if has_ids and chance.random() < 0.5 else None
    return Geometry(kind, precision, ids, members)


def geometries():
    chance = random.Random(1)
    return [some_geometry(chance) for _ in range(COUNT)]


def converted(value, of):
    """A mapping with all coordinates as `of` makes them of fractions, and lists in place of tuples."""
    if isinstance(value, dict):
        return {name: member if name in ("type", "ids") else converted(member, of) for name, member in value.items()}
    if isinstance(value, (list, tuple)):
        return [converted(member, of) for member in value]
    return of(value)


def exact(fraction):
    return Decimal(int(fraction * 10**7)).scaleb(-7)


def without_ids(value):
    if isinstance(value, dict):
        return {name: without_ids(member) for name, member in value.items() if name != "ids"}
    return [without_ids(member) for member in value] if isinstance(value, list) else value


def differing(name, found, expected):
    """How many of the readings are not as expected; the first is shown."""
    wrong = [place for place, (one, other) in enumerate(zip(found, expected)) if one != other]
    if len(found) != len(expected):
        print(f"{name}: {len(found)} readings, {len(expected)} expected")
    if wrong:
        print(f"{name}: {len(wrong)} differ; geometry {wrong[0]}: {found[wrong[0]]!r}, expected {expected[wrong[0]]!r}")
    return len(wrong) + abs(len(found) - len(expected))


def run(program, words, stream):
    return subprocess.run([program, *words], input=stream, capture_output=True, check=False)


def ends():
    """Both ends of the units, at each precision."""
    return [Geometry("point", precision, None, [(LEAST, MOST)]) for precision in range(-8, 8)]


def exact_readings(lines):
    return [json.loads(line, parse_float=Decimal, parse_int=Decimal) for line in lines]


def whole_ids(value):
    """Ids as numbers of Python's json are, in place of decimals."""
    if isinstance(value, dict):
        return {name: list(map(int, member)) if name == "ids" else whole_ids(member) for name, member in value.items()}
    return [whole_ids(member) for member in value] if isinstance(value, list) else value


def write(program, file):
    trees = [*geometries(), *ends()]
    answer = run(program, ["unpack", "--geojson"], b"".join(canonical(tree, True) for tree in trees))
    assert answer.returncode == 0, answer.stderr
    lines = answer.stdout.decode().splitlines()
    with open(file, "w", encoding="ascii") as output:
        output.write("".join(line + "\n" for line in lines[:COUNT]))
    due = [converted(mapping_of(tree), exact) for tree in trees]
    return differing("json with Decimal", list(map(whole_ids, exact_readings(lines))), due)


def collection(program, file):
    wrong, trees = 0, geometries()
    for some_trees in ([], trees[:1], trees):
        stream = b"".join(canonical(tree, True) for tree in some_trees)
        answer = run(program, ["unpack", "--geojson", "--collection"], stream)
        if answer.returncode == 2:
            sys.exit(MISSING)
        features = [
            {"type": "Feature", "properties": {}, "geometry": converted(mapping_of(tree), exact)} for tree in some_trees
        ]
        found = whole_ids(json.loads(answer.stdout, parse_float=Decimal, parse_int=Decimal))
        wrong += differing("collection", [found], [{"type": "FeatureCollection", "features": features}])
        wrong += answer.stdout.count(b"\n") != len(some_trees) + 2
        with open(file, "wb") as output:
            output.write(answer.stdout)
    return wrong


def shapely(file):
    try:
        from shapely.geometry import mapping, shape
    except ImportError:
        sys.exit(MISSING)
    with open(file, encoding="ascii") as source:
        found = [json.loads(json.dumps(mapping(shape(json.loads(line))))) for line in source]
    return differing("Shapely", found, [without_ids(converted(mapping_of(tree), float)) for tree in geometries()])


def read_json(file):
    with open(file, encoding="ascii") as source:
        found = [json.loads(line, parse_int=float) for line in source]
    due = [converted(mapping_of(tree), float) for tree in geometries()]
    for mapping in due:
        floats_in_ids(mapping)
    return differing("json", found, due)


def floats_in_ids(mapping):
    if "ids" in mapping:
        mapping["ids"] = list(map(float, mapping["ids"]))
    for member in mapping.get("geometries", []):
        floats_in_ids(member)


class Wkb:
    """Reads a little-endian WKB geometry as a mapping."""

    NAMES = ("Point", "LineString", "Polygon", "MultiPoint", "MultiLineString", "MultiPolygon", "GeometryCollection")

    def __init__(self, data):
        self.data, self.place = data, 0

    def take(self, form):
        values = struct.unpack_from("<" + form, self.data, self.place)
        self.place += struct.calcsize("<" + form)
        return values

    def points(self):
        return [list(self.take("2d")) for _ in range(self.take("I")[0])]

    def geometry(self):
        order, kind = self.take("BI")
        assert order == 1 and 1 <= kind <= 7, (order, kind)
        name = self.NAMES[kind - 1]
        if kind == 1:
            return {"type": name, "coordinates": list(self.take("2d"))}
        if kind == 2:
            return {"type": name, "coordinates": self.points()}
        count = self.take("I")[0]
        if kind == 3:
            return {"type": name, "coordinates": [self.points() for _ in range(count)]}
        members = [self.geometry() for _ in range(count)]
        if kind == 7:
            return {"type": name, "geometries": members}
        return {"type": name, "coordinates": [member["coordinates"] for member in members]}


def read_wkb(file):
    with open(file, encoding="ascii") as source:
        found = [Wkb(bytes.fromhex(line.strip())).geometry() for line in source]
    return differing("WKB", found, [without_ids(converted(mapping_of(tree), float)) for tree in geometries()])


def main(what, *words):
    readings = {"write": write, "collection": collection, "shapely": shapely, "json": read_json, "wkb": read_wkb}
    sys.exit(1 if readings[what](*words) else 0)


if __name__ == "__main__":
    main(*sys.argv[1:])
