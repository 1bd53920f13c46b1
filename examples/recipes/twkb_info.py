#!/usr/bin/env python3
"""What is in a stream: its headers in columns with the names of their bits, totals by kind, the largest geometry and
the box of all points.

    twkb_info.py [--headers NUMBER] [--svg FILE] STREAM

It runs 'polytwkb show' and 'polytwkb unpack' on the file STREAM and holds one geometry at a time, so the stream may
be of any size; a million points in long lines take 2 s. The first NUMBER headers are listed, 20 if it is not given.
The box is that of the points, and not what headers say. With --svg a picture of all points goes to FILE, with x to
the right and y up. If the stream is refused, the totals are of the blobs before, and the status is that of 'polytwkb
show'.
"""
import os
import subprocess
import sys
from collections import defaultdict

sys.dont_write_bytecode = True

import tables
from polylines import decimal_text, numbers_of

BITS = ((1, "box"), (2, "size"), (4, "ids"), (8, "extended"), (16, "empty"))
HEADER = "{:>8} {:>6} {:>12} {:<16} {:>9} {:<14} {:>12} {:>10}"
TOTAL = "{:<16} {:>12} {:>15} {:>13}  {}"
WIDTH, MARGIN = 1000, 20


def output_of(command, path):
    """The lines that a command writes about a stream; Ended, if its status is not 0."""
    with open(path, "rb") as stream:
        run = subprocess.Popen(["polytwkb", command], stdin=stream, stdout=subprocess.PIPE, text=True)
        yield from run.stdout
    if run.wait():
        raise tables.Ended(run.returncode)


def names_of(metadata):
    """The names of the bits of a metadata byte."""
    return " ".join(name for bit, name in BITS if metadata & bit) or "-"


class Totals:
    """What the headers of a stream come to: geometries, bytes, points and precisions of each kind."""

    def __init__(self):
        self.kinds, self.number, self.members, self.largest = defaultdict(lambda: [0, 0, 0, set()]), 0, 0, None

    def add(self, level, offset, kind, precision, length, points):
        if level:
            self.members += 1
            return
        self.number += 1
        total = self.kinds[kind]
        total[0], total[1], total[2] = total[0] + 1, total[1] + length, total[2] + points
        total[3].add(precision)
        if self.largest is None or length > self.largest[0]:
            self.largest = length, self.number, offset, kind, points

    def print(self):
        print(TOTAL.format("kind", "geometries", "bytes", "points", "precision"))
        for kind, (count, length, points, precisions) in sorted(self.kinds.items()):
            print(TOTAL.format(kind, count, length, points, " ".join(map(str, sorted(precisions)))))
        sums = (sum(total[place] for total in self.kinds.values()) for place in range(3))
        print(TOTAL.format("total", *sums, "").rstrip())
        if self.members:
            print(f"members of collections: {self.members}")
        if self.largest:
            length, number, offset, kind, points = self.largest
            print(f"largest: geometry {number}, a {kind} of {length} bytes and {points} points, at byte {offset}")


def headers(path, listed, totals):
    """Prints the first headers of a stream, and adds all to the totals."""
    print(HEADER.format("geometry", "level", "offset", "kind", "precision", "metadata", "length", "points"))
    for count, line in enumerate(output_of("show", path), 1):
        level, offset, kind, precision, metadata, length, points = line.split()
        totals.add(int(level), int(offset), kind, int(precision), int(length), int(points))
        if count <= listed:
            names = names_of(int(metadata, 16))
            print(HEADER.format(totals.number, level, offset, kind, precision, names, length, points))
        elif count == listed + 1:
            print(f"and more, which are counted here; --headers {10 * max(listed, 1)} lists more")


def parts_of(path):
    """The kind, the precision and the x and y in units of each row of a stream that has points."""
    rows, precision = output_of("unpack", path), 0
    next(rows, None)
    for row in rows:
        _, kind, _, decimals, text = row.rstrip("\n").split(",")
        precision = int(decimals or precision)
        if text:
            yield kind, precision, *map(list, numbers_of(text))


def box_of(path):
    """The least x and y and the greatest x and y of the points, in units, of each precision."""
    boxes = {}
    for _, precision, x, y in parts_of(path):
        least_x, least_y, most_x, most_y = boxes.get(precision, (x[0], y[0], x[0], y[0]))
        boxes[precision] = min(least_x, *x), min(least_y, *y), max(most_x, *x), max(most_y, *y)
    return boxes


def joined(boxes):
    """The texts of the least and greatest numbers of boxes of several precisions."""
    sides = [[decimal_text(box[place], precision) for precision, box in boxes.items()] for place in range(4)]
    return [(min if place < 2 else max)(texts, key=float) for place, texts in enumerate(sides)]


def draw(path, box, file):
    """Writes a picture of the points of a stream."""
    left, low, right, high = map(float, box)
    scale = (WIDTH - 2 * MARGIN) / (max(right - left, high - low) or 1)
    sizes = [round((most - least) * scale) + 2 * MARGIN for least, most in ((left, right), (low, high))]
    file.write(
        f'<svg xmlns="http://www.w3.org/2000/svg" viewBox="0 0 {sizes[0]} {sizes[1]}">\n<style>path {{ fill: none; '
        "stroke: #1f5fa8; stroke-width: 1.5 } .ring { fill: #1f5fa822 } circle { fill: #c2410c }</style>\n"
    )
    for kind, precision, x, y in parts_of(path):
        unit = 10.0**-precision
        places = [
            (round(2 * ((a * unit - left) * scale + MARGIN)) / 2, round(2 * ((high - b * unit) * scale + MARGIN)) / 2)
            for a, b in zip(x, y)
        ]
        if kind == "point":
            file.write('<circle cx="%s" cy="%s" r="3"/>\n' % places[0])
        else:
            kept = [place for place, before in zip(places, [None, *places]) if place != before]
            mark = ' class="ring"' if kind == "ring" else ""
            file.write(f'<path{mark} d="M{" ".join("%s,%s" % place for place in kept)}"/>\n')
    file.write("</svg>\n")


def main():
    words = tables.words_of(
        __doc__,
        ("--headers", {"metavar": "NUMBER", "type": int, "default": 20, "help": "how many headers are listed"}),
        ("--svg", {"metavar": "FILE", "help": "the file for a picture"}),
        ("stream", {"metavar": "STREAM", "help": "the file of a stream"}),
    )
    if not os.path.isfile(words.stream):
        raise tables.Fault(f"{words.stream} is no file")
    totals, ended = Totals(), None
    try:
        headers(words.stream, words.headers, totals)
    except tables.Ended as fault:
        ended = fault
    print()
    totals.print()
    if ended:
        raise ended
    boxes = box_of(words.stream)
    if boxes:
        box = joined(boxes)
        print(f"box: x {box[0]} to {box[2]}, y {box[1]} to {box[3]}")
    if boxes and words.svg:
        with open(words.svg, "w", encoding="utf-8") as file:
            draw(words.stream, box, file)


tables.run(main)
