#!/usr/bin/env python3
"""A table to GeoJSON, a line for each geometry.

    table_to_geojson.py [--rest FILE] [--collection] < TABLE > LINES

With the FILE of `geojson_to_table.py --rest` each line is the feature again. With --collection the output is one
FeatureCollection, as map clients and QGIS read it. Ids of parts are in a member "ids" of the geometry. It is for
coordinates up to 2^53, since numbers are exact up to there.
"""
import itertools
import sys
from collections import deque

sys.dont_write_bytecode = True

import tables
from polylines import numbers_of

NAMES = {
    "point": "Point",
    "linestring": "LineString",
    "polygon": "Polygon",
    "multipoint": "MultiPoint",
    "multilinestring": "MultiLineString",
    "multipolygon": "MultiPolygon",
    "collection": "GeometryCollection",
}


def listed(texts):
    return f"[{','.join(texts)}]"


def points_of(text, precision):
    """The points of an encoded polyline, each as the text of its coordinates in degrees."""
    unit, scale = 10 ** max(-precision, 0), 10 ** max(precision, 0)
    divided = [map(repr, [number * unit / scale for number in numbers]) for numbers in numbers_of(text)]
    return ["[%s,%s]" % point for point in zip(*divided)]


def shape(rows, precision):
    """Takes a row and those of its parts from the start of rows: the text of the geometry, and of its coordinates."""
    depth, kind, _, decimals, text = rows.popleft()
    precision = int(decimals or precision)
    ids, parts = [], []
    while rows and int(rows[0][0]) > int(depth):
        ids.append(rows[0][2])
        parts.append(shape(rows, precision))
    places, name = listed(places for _, places in parts), "coordinates"
    if kind == "collection":
        places, name = listed(whole for whole, _ in parts), "geometries"
    elif kind == "point":
        places = "".join(points_of(text, precision)) or "[]"
    elif kind in ("linestring", "ring"):
        places = listed(points_of(text, precision))
    ids = f'"ids":{listed(ids)},' if any(ids) else ""
    return f'{{"type":"{NAMES.get(kind)}",{ids}"{name}":{places}}}', places


def shapes():
    """The geometries of the table, one by one."""
    rows = deque()
    for row in itertools.chain(tables.table_rows(), [["0"]]):
        if row[0] == "0" and rows:
            yield shape(rows, 0)[0]
        rows.append(row)


def features(file):
    """The geometries as features, with the rest of each from a line of a file."""
    for geometry, line in itertools.zip_longest(shapes(), file):
        if geometry is None or line is None:
            raise tables.Fault(f"{file.name} has {'fewer' if line is None else 'more'} lines than there are geometries")
        yield f'{line.rstrip()[:-1]},"geometry":{geometry}}}'


def bare_features():
    """The geometries as features without properties."""
    for geometry in shapes():
        yield f'{{"type":"Feature","properties":{{}},"geometry":{geometry}}}'


def write_collection(lines):
    """Writes features as one collection, a line for each. If one is refused, the end is missing, so it is no JSON."""
    sys.stdout.write('{"type":"FeatureCollection","features":[')
    for number, line in enumerate(lines):
        sys.stdout.write((",\n" if number else "\n") + line)
    sys.stdout.write("\n]}\n")


def main():
    words = tables.words_of(
        __doc__,
        ("--rest", {"metavar": "FILE", "help": "all else of the features, line by line"}),
        ("--collection", {"action": "store_true", "help": "write one FeatureCollection"}),
    )
    if words.rest:
        lines = features(open(words.rest, encoding="utf-8"))
    else:
        lines = bare_features() if words.collection else shapes()
    if words.collection:
        return write_collection(lines)
    for line in lines:
        sys.stdout.write(line + "\n")


tables.run(main)
