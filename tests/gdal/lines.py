#!/usr/bin/env python3
"""Writes a stream of lines in full style at precision 5, by the second implementation, and the same lines as WKB
and as encoded polylines, one in each line of a text:

    lines.py FILE COUNT [WKB_FILE POLYLINE_FILE]

Each has 6 to 41 points, a walk of some 100 metres a step, around Switzerland.
"""
import os
import random
import struct
import sys

sys.dont_write_bytecode = True
sys.path.insert(0, os.path.join(os.path.dirname(os.path.abspath(__file__)), "..", "fuzz"))

from blob import canonical
from geometry import Geometry
from polyline import encode


def line(chance):
    x, y = chance.randrange(600000, 1000000), chance.randrange(4560000, 4780000)
    points = []
    for _ in range(chance.randrange(6, 42)):
        points.append((x, y))
        x, y = x + chance.randrange(-150, 151), y + chance.randrange(-150, 151)
    return Geometry("linestring", 5, None, points)


def wkb_of(points):
    """A linestring of degrees, little-endian."""
    degrees = [unit / 1e5 for point in points for unit in point]
    return struct.pack(f"<BII{len(degrees)}d", 1, 2, len(points), *degrees)


def main(file, count, wkb_file=os.devnull, polyline_file=os.devnull):
    chance = random.Random(1)
    with open(file, "wb") as output, open(wkb_file, "wb") as wkb_output, open(polyline_file, "wb") as polylines:
        for _ in range(int(count)):
            geometry = line(chance)
            output.write(canonical(geometry, True))
            wkb_output.write(wkb_of(geometry.members))
            polylines.write(encode(geometry.members) + b"\n")


if __name__ == "__main__":
    main(*sys.argv[1:])
