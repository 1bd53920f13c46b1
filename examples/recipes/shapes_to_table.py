#!/usr/bin/env python3
"""Lines from rows of points to a table of linestrings, and their keys to a file beside it, a line for each linestring.

    shapes_to_table.py [--columns KEY SEQUENCE LATITUDE LONGITUDE] [--rest FILE] [--delimiter CHARACTER]
        PRECISION KEYS < SHAPES > TABLE

SHAPES is CSV with a header; without --columns its columns are those of shapes.txt in GTFS: shape_id,
shape_pt_sequence, shape_pt_lat, shape_pt_lon. Points with one key are one linestring, in the order of SEQUENCE, which
are whole numbers; linestrings are in the order of their first rows. Two points of a line with one number are refused.
Rows may be in any order, so all of them are held, 24 bytes each. Coordinates are rounded to PRECISION decimals;
halfway, away from zero. With --rest FILE the same CSV without latitudes and longitudes goes to FILE, for
table_to_shapes.py.
"""
import sys
from array import array

sys.dont_write_bytecode = True

import tables
from polylines import text_of_units, units_of


def add(shapes, precision, key, sequence, *place):
    """Adds a point to the line of its key: sequence, latitude, longitude."""
    try:
        shapes.setdefault(key, array("q")).extend([int(sequence), *units_of(map(float, place), precision)])
    except (ValueError, ArithmeticError):
        raise tables.Fault(f"{', '.join((sequence, *place))} are no sequence, latitude and longitude") from None


def numbers_of(key, shape):
    """The y and x of the points of a line, in the order of their sequence."""
    rows = sorted(zip(shape[::3], shape[1::3], shape[2::3]), key=lambda row: row[0])
    for one, next_one in zip(rows, rows[1:]):
        if one[0] == next_one[0]:
            raise tables.Fault(f"two points of {key} have the sequence {one[0]}")
    return [number for row in rows for number in row[1:]]


def main():
    words = tables.words_of(
        __doc__,
        tables.DELIMITER,
        tables.SHAPES_COLUMNS,
        tables.REST,
        tables.PRECISION,
        ("keys", {"metavar": "KEYS", "help": "the file for the keys"}),
    )
    records, shapes = tables.input_records(words.delimiter), {}
    sys.stdout.write(tables.HEADER)
    header, places = tables.columns_of(records, *words.columns)
    with tables.Rest(words, header, places[2:]) as rest:

        def put(record):
            add(shapes, words.precision, *[record[place] for place in places])
            rest.put(record)

        tables.for_records(records, len(header), put)
    with open(words.keys, "w", encoding="utf-8") as keys:
        for key, shape in shapes.items():
            keys.write(tables.key_line(key))
            sys.stdout.write(f"0,linestring,,{words.precision},{text_of_units(numbers_of(key, shape))}\n")
    alone = sum(len(shape) == 3 for shape in shapes.values())
    if alone:
        sys.stderr.write(f"shapes_to_table.py: {alone} of {len(shapes)} lines have one point; PostGIS refuses such\n")


tables.run(main, "refused\n")
