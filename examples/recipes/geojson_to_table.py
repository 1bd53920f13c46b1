#!/usr/bin/env python3
"""GeoJSON to a table, a geometry for each feature, in their order.

    geojson_to_table.py [--xy] [--skip-null] [--rest FILE] PRECISION < GEOJSON > TABLE

GEOJSON is a FeatureCollection, a Feature or a geometry, or lines of these. It is read piece by piece: memory is for
one feature. Coordinates are rounded to PRECISION decimals; halfway, away from zero. The first feature that is no
geometry of two dimensions ends it, with status 1 and a line that has the feature's number.
"""
import json
import sys

sys.dont_write_bytecode = True

import tables
from geojson import features_of
from polylines import text_of, units_of

PARTS = {"Polygon": "Ring", "MultiPoint": "Point", "MultiLineString": "LineString", "MultiPolygon": "Polygon"}
KINDS = ("Point", "LineString", *PARTS)
LINE_OF = json.JSONEncoder(separators=(",", ":")).encode
WRONG = (TypeError, ValueError, ArithmeticError, LookupError)


def is_point(place):
    try:
        x, y = units_of(place if type(place) is list else (), 0)
    except WRONG:
        return False
    return True


def point_fault(points):
    """What is wrong with points of which one is wrong."""
    place = next((place for place in points if not is_point(place)), points)
    more = type(place) is list and len(place) > 2
    return f"{json.dumps(place):.100} is no point" + (" of two numbers; --xy takes the first two" if more else "")


class Rows:
    """Writes the rows of geometries."""

    def __init__(self, precision, xy):
        self.precision, self.xy, self.write = precision, xy, sys.stdout.write

    def polyline(self, points):
        """The encoded polyline of points in degrees."""
        try:
            if self.xy:
                points = [place[:2] for place in points]
            return text_of(points, self.precision)
        except WRONG:
            raise tables.Fault(point_fault(points)) from None

    def part(self, depth, kind, places, decimals):
        """Writes the row of a geometry, and those of its parts."""
        if type(places) is not list:
            raise tables.Fault(f"the coordinates of a {kind} are {json.dumps(places):.100}")
        if kind in PARTS:
            self.write(f"{depth},{kind.lower()},,{decimals},\n")
            for part in places:
                self.part(depth + 1, PARTS[kind], part, "")
        else:
            points = [places] if kind == "Point" and places else places
            self.write(f"{depth},{kind.lower()},,{decimals},{self.polyline(points)}\n")

    def shape(self, depth, shape):
        """Writes the rows of a geometry of GeoJSON."""
        kind = shape.get("type") if type(shape) is dict else None
        if kind in KINDS:
            self.part(depth, kind, shape.get("coordinates"), self.precision)
        elif kind == "GeometryCollection" and type(shape.get("geometries")) is list:
            self.write(f"{depth},collection,,{self.precision},\n")
            for member in shape["geometries"]:
                self.shape(depth + 1, member)
        else:
            raise tables.Fault(f"{json.dumps(shape):.100} is no geometry")


def put(feature, rows, words, rest):
    """Writes the rows of a feature, or of a geometry, and the rest of it."""
    geometry = feature
    if type(feature) is dict and "geometry" in feature:
        geometry = feature.pop("geometry")
        if geometry is None:
            if words.skip_null:
                return
            raise tables.Fault("no geometry; --skip-null leaves such features out")
    rows.shape(0, geometry)
    if rest:
        rest.write(LINE_OF({"type": "Feature", "properties": {}} if feature is geometry else feature) + "\n")


def main():
    words = tables.words_of(
        __doc__,
        ("--xy", {"action": "store_true", "help": "take the first two numbers of each point"}),
        ("--skip-null", {"action": "store_true", "help": "leave features without a geometry out"}),
        ("--rest", {"metavar": "FILE", "help": "each feature without its geometry, a line for each that is written"}),
        tables.PRECISION,
    )
    rest = open(words.rest, "w", encoding="utf-8") if words.rest else None
    rows, number = Rows(words.precision, words.xy), 1
    rows.write(tables.HEADER)
    try:
        for feature in features_of(tables.input_text()):
            put(feature, rows, words, rest)
            number += 1
    except tables.Fault as fault:
        raise tables.Fault(f"feature {number}: {fault}") from None


tables.run(main, "refused\n")
