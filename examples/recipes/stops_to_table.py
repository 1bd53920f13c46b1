#!/usr/bin/env python3
"""Points with latitude and longitude to a table of points, and their keys to a file beside it, a line for each point.

    stops_to_table.py [--columns KEY LATITUDE LONGITUDE] [--rest FILE] [--delimiter CHARACTER] [--null TEXT]
        PRECISION KEYS < STOPS > TABLE

STOPS is CSV with a header; without --columns its columns are those of stops.txt in GTFS: stop_id, stop_lat, stop_lon.
Coordinates are rounded to PRECISION decimals; halfway, away from zero. A stop without coordinates is an empty point.
With --rest FILE the same CSV without latitudes and longitudes goes to FILE, for table_to_stops.py.
"""
import sys

sys.dont_write_bytecode = True

import tables
from polylines import text_of


def row_of(latitude, longitude, precision):
    """The row of a point."""
    try:
        points = [(float(longitude), float(latitude))] if latitude or longitude else []
        return f"0,point,,{precision},{text_of(points, precision)}\n"
    except (ValueError, ArithmeticError):
        raise tables.Fault(f"{latitude!r}, {longitude!r} are no latitude and longitude") from None


def main():
    words = tables.words_of(
        __doc__,
        tables.DELIMITER,
        tables.NULL,
        tables.STOPS_COLUMNS,
        tables.REST,
        tables.PRECISION,
        ("keys", {"metavar": "KEYS", "help": "the file for the keys"}),
    )
    records = tables.input_records(words.delimiter)
    sys.stdout.write(tables.HEADER)
    header, places = tables.columns_of(records, *words.columns)
    with open(words.keys, "w", encoding="utf-8") as keys, tables.Rest(words, header, places[1:]) as rest:

        def put(record):
            key, latitude, longitude = (tables.value_of(record[place].strip(), words.null) for place in places)
            keys.write(tables.key_line(key))
            sys.stdout.write(row_of(latitude, longitude, words.precision))
            rest.put(record)

        tables.for_records(records, len(header), put)


tables.run(main, "refused\n")
