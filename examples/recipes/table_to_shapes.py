#!/usr/bin/env python3
"""A table of linestrings to rows of points in a CSV: what shapes_to_table.py --rest made, back.

    table_to_shapes.py [--columns KEY SEQUENCE LATITUDE LONGITUDE] [--delimiter CHARACTER] REST < TABLE > SHAPES

REST has a record for each point. Records come out in its order, and coordinates have as many decimals as their
precision. REST is read twice, and the points are held, 33 bytes each.
"""
import csv
import itertools
import sys
from array import array

sys.dont_write_bytecode = True

import tables
from polylines import decimal_text, numbers_of


def places_of(records, key, sequence):
    """For each key, in the order of their first records, the numbers of its records in the order of their sequence."""
    shapes = {}
    for number, record in enumerate(records):
        shapes.setdefault(record[key], array("q")).extend((int(record[sequence]), number))
    for name, pairs in shapes.items():
        yield name, [number for _, number in sorted(zip(pairs[::2], pairs[1::2]))]


def put_points(shapes, rows, place):
    """Calls place with the number of a record, its latitude, its longitude and their precision, for all points."""
    for shape, row in itertools.zip_longest(shapes, rows):
        if shape is None or row is None:
            more = "fewer" if row is None else "more"
            raise tables.Fault(f"the table has {more} lines than the records have keys")
        (name, numbers), (depth, kind, _, precision, polyline) = shape, row
        if (depth, kind) != ("0", "linestring"):
            raise tables.Fault(f"a row {depth},{kind} in place of a linestring")
        x, y = map(list, numbers_of(polyline))
        if len(x) != len(numbers):
            raise tables.Fault(f"{name} has {len(numbers)} records, and its line {len(x)} points")
        for point in zip(numbers, y, x):
            place(*point, int(precision))


def main():
    words = tables.words_of(__doc__, tables.DELIMITER, tables.SHAPES_COLUMNS, tables.REST_BACK)
    rows = tables.table_rows()
    with open(words.rest, encoding="utf-8", newline="") as file:
        records = csv.reader(file, delimiter=words.delimiter)
        header, (key, sequence, latitude, longitude) = tables.columns_of(records, *words.columns)
        shapes = list(places_of(records, key, sequence))
        count = sum(len(numbers) for _, numbers in shapes)
        ys, xs, precisions = array("q", bytes(8 * count)), array("q", bytes(8 * count)), array("b", bytes(count))

        def place(number, y, x, precision):
            ys[number], xs[number], precisions[number] = y, x, precision

        put_points(shapes, rows, place)
        file.seek(0)
        output = csv.writer(sys.stdout, delimiter=words.delimiter, lineterminator="\n")
        output.writerow(next(records))
        for record, y, x, precision in zip(records, ys, xs, precisions):
            record[latitude], record[longitude] = decimal_text(y, precision), decimal_text(x, precision)
            output.writerow(record)


tables.run(main)
