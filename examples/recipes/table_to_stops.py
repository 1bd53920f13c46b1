#!/usr/bin/env python3
"""A table of points to latitudes and longitudes in a CSV: what stops_to_table.py --rest made, back.

    table_to_stops.py [--columns KEY LATITUDE LONGITUDE] [--delimiter CHARACTER] REST < TABLE > STOPS

REST has a record for each point. Coordinates have as many decimals as their precision; an empty point has none.
"""
import csv
import itertools
import sys

sys.dont_write_bytecode = True

import tables
from polylines import decimal_text, numbers_of


def place_of(row):
    """The latitude and the longitude of a point, as texts."""
    depth, kind, _, precision, polyline = row
    if (depth, kind) != ("0", "point"):
        raise tables.Fault(f"a row {depth},{kind} in place of a point")
    x, y = numbers_of(polyline)
    return [decimal_text(number, int(precision)) for point in zip(y, x) for number in point] or ["", ""]


def main():
    words = tables.words_of(__doc__, tables.DELIMITER, tables.STOPS_COLUMNS, tables.REST_BACK)
    rows = tables.table_rows()
    with open(words.rest, encoding="utf-8", newline="") as file:
        records = csv.reader(file, delimiter=words.delimiter)
        header, (_, latitude, longitude) = tables.columns_of(records, *words.columns)
        output = csv.writer(sys.stdout, delimiter=words.delimiter, lineterminator="\n")
        output.writerow(header)
        for record, row in itertools.zip_longest(records, rows):
            if record is None or row is None:
                more = "more" if row is None else "fewer"
                raise tables.Fault(f"{words.rest} has {more} records than the table has points")
            record[latitude], record[longitude] = place_of(row)
            output.writerow(record)


tables.run(main)
