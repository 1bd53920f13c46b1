#!/usr/bin/env python3
"""A table of linestrings to a column of encoded polylines in a CSV: what column_to_table.py made, back.

    table_to_column.py [--delimiter CHARACTER] COLUMN REST < TABLE > CSV

REST is CSV with COLUMN in its header, and a record for each linestring, which may be the parts of multilinestrings.
"""
import csv
import itertools
import sys

sys.dont_write_bytecode = True

import tables


def polylines_of(rows):
    """The polylines of linestrings and of the parts of multilinestrings."""
    for depth, kind, _, _, polyline in rows:
        if kind == "linestring" and depth in "01":
            yield polyline
        elif (depth, kind) != ("0", "multilinestring"):
            raise tables.Fault(f"a row {depth},{kind}: only linestrings have one polyline")


def main():
    words = tables.words_of(
        __doc__,
        tables.DELIMITER,
        ("column", {"metavar": "COLUMN", "help": "the column for the polylines"}),
        ("rest", {"metavar": "REST", "help": "the file with the other columns"}),
    )
    rows = tables.input_records()
    output = csv.writer(sys.stdout, delimiter=words.delimiter, lineterminator="\n")
    tables.columns_of(rows, *tables.HEADER.strip().split(","))
    with open(words.rest, encoding="utf-8", newline="") as file:
        records = csv.reader(file, delimiter=words.delimiter)
        header, (place,) = tables.columns_of(records, words.column)
        output.writerow(header)
        for record, polyline in itertools.zip_longest(records, polylines_of(rows)):
            if record is None or polyline is None:
                more = "more" if polyline is None else "fewer"
                raise tables.Fault(f"{words.rest} has {more} records than the table has linestrings")
            record[place] = polyline
            output.writerow(record)


tables.run(main)
