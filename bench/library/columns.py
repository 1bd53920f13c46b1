#!/usr/bin/env python3
"""Times of columns of shapes: as TWKB by the package for Python, and as WKB by Shapely and GeoPandas.

    POLYTWKB_LIBRARY=out/libpolytwkb.so PYTHONPATH=python bench/library/columns.py [SHARE]

200,000 lines of 50 points, each at most 1,000 units from the one before, 1,000,000 points, and 100,000 polygons of five points with a hole
of five; SHARE divides these. Of each way the least of three rounds, by turns, in processor seconds. Needs numpy, Shapely and GeoPandas.
"""
import sys
import time

try:
    import geopandas
    import numpy
    import shapely.wkb
except ImportError as missing:
    sys.exit(print(f"skip  columns of shapes: {missing.name} is not there"))

import polytwkb
from polytwkb import NO_PRECISION, Kind

ROUNDS, PRECISION = 3, 5
SQUARE = numpy.array([(0, 0), (6000, 0), (6000, 4000), (0, 4000), (0, 0)])
HOLE = numpy.array([(2000, 1000), (2000, 3000), (4000, 3000), (4000, 1000), (2000, 1000)])


def lines(chance, count):
    steps = chance.integers(-1000, 1001, (count, 50, 2))
    steps[:, 0] = chance.integers(-10_000_000, 10_000_000, (count, 2))
    return {"kind": Kind.LINESTRING, "counts": numpy.full(count, 50), "precision": PRECISION}, steps.cumsum(axis=1)


def points(chance, count):
    columns = {"kind": Kind.POINT, "counts": numpy.ones(count, int), "precision": PRECISION}
    return columns, chance.integers(-18_000_000, 18_000_000, (count, 2))


def polygons(chance, count):
    columns = {
        "kind": [Kind.POLYGON, Kind.RING, Kind.RING] * count,
        "counts": [0, 5, 5] * count,
        "depth": [0, 1, 1] * count,
        "precision": [PRECISION, NO_PRECISION, NO_PRECISION] * count,
    }
    return columns, numpy.concatenate([SQUARE, HOLE])[None] + chance.integers(-10_000_000, 10_000_000, (count, 1, 2))


def least(calls):
    """The least time of each call, and what it returned."""
    times, found = [float("inf")] * len(calls), [None] * len(calls)
    for _ in range(ROUNDS):
        for place, call in enumerate(calls):
            found[place] = None
            began = time.process_time()
            found[place] = call()
            times[place] = min(times[place], time.process_time() - began)
    return times, found


def told(name, ways, count):
    """Prints the times of several ways in microseconds a geometry, and as many times the first."""
    times, found = least(list(ways.values()))
    print(
        f"{name}:",
        ", ".join(f"{way} {1e6 * own / count:.2f} ({own / times[0]:.2f})" for way, own in zip(ways, times)),
        flush=True,
    )
    return found


def compare(name, count, columns, coordinates):
    stream = polytwkb.write(columns, coordinates.reshape(-1, 2))
    blobs = polytwkb.split(stream)
    print(f"{count} {name}, {len(stream) / 1e6:.1f} MB, microseconds a geometry")
    _, _, column, *_ = told(
        "  reading",
        {
            "read": lambda: polytwkb.read(stream),
            "read in units": lambda: polytwkb.read(stream, degrees=False),
            "ragged": lambda: polytwkb.ragged(stream),
            "ragged of a list": lambda: polytwkb.ragged(blobs),
            "boxes": lambda: polytwkb.boxes(stream),
            "to_wkb": lambda: polytwkb.to_wkb(stream),
        },
        count,
    )
    wkbs = polytwkb.to_wkb(stream)
    told(
        "  writing",
        {
            "write of units": lambda: polytwkb.write(columns, coordinates.reshape(-1, 2)),
            "pack_ragged": lambda: polytwkb.pack_ragged(column, PRECISION),
            "from_wkb": lambda: polytwkb.from_wkb(wkbs, PRECISION),
        },
        count,
    )
    series = geopandas.GeoSeries(polytwkb.shapes(blobs))
    _, packed = told(
        "  shapes to blobs",
        {
            "to_wkb": series.to_wkb,
            "pack_geometries": lambda: polytwkb.pack_geometries(series, PRECISION),
        },
        count,
    )
    assert packed == stream
    told(
        "  blobs to shapes",
        {"wkb.loads": lambda: list(map(shapely.wkb.loads, wkbs)), "shapes": lambda: polytwkb.shapes(blobs)},
        count,
    )


def main():
    chance, share = numpy.random.default_rng(1), int(sys.argv[1]) if len(sys.argv) > 1 else 1
    for name, count, make in (
        ("lines", 200_000, lines),
        ("points", 1_000_000, points),
        ("polygons", 100_000, polygons),
    ):
        compare(name, count // share, *make(chance, count // share))


main()
