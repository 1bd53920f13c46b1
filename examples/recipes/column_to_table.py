#!/usr/bin/env python3
"""A column of encoded polylines to a table of linestrings, and the other columns to a file beside it.

    column_to_table.py [--delimiter CHARACTER] [--null TEXT] [--ids KEY] COLUMN PRECISION REST < CSV > TABLE

CSV has a header. REST is the same CSV with COLUMN left empty: its record N, after the header, belongs to geometry N.
The polylines are copied as they are: their precision is PRECISION. An empty one is a line without points. NULL, \\N,
NA, NaN, NaT, NONE and [NULL], which could be polylines of points near (0, 0), are refused; with --null TEXT a field
TEXT is taken as empty. With --ids the lines are the parts of one multilinestring, whose ids are the whole numbers in
the column KEY.
"""
import csv
import sys

sys.dont_write_bytecode = True

import tables


def polyline_of(field, nulls):
    """The polyline in a field, empty for a missing one."""
    polyline = tables.value_of(field, nulls)
    if polyline in tables.MISSING_WORDS:
        raise tables.Fault(f"{polyline} in place of a polyline; --null '{polyline}' takes it as empty")
    return polyline


def main():
    words = tables.words_of(
        __doc__,
        tables.DELIMITER,
        tables.NULL,
        ("--ids", {"metavar": "KEY", "help": "the column of whole numbers that become ids"}),
        ("column", {"metavar": "COLUMN", "help": "the column of polylines"}),
        tables.PRECISION,
        ("rest", {"metavar": "REST", "help": "the file for the other columns"}),
    )
    records = tables.input_records(words.delimiter)
    sys.stdout.write(tables.HEADER)
    header, (place, *keys) = tables.columns_of(records, words.column, *([words.ids] if words.ids else []))
    with open(words.rest, "w", encoding="utf-8", newline="") as file:
        rest = csv.writer(file, delimiter=words.delimiter, lineterminator="\n")
        table = csv.writer(sys.stdout, lineterminator="\n")
        rest.writerow(header)
        if keys:
            table.writerow((0, "multilinestring", None, words.precision, None))

        def put(record):
            polyline = polyline_of(record[place], words.null)
            if keys:
                table.writerow((1, "linestring", record[keys[0]], None, polyline))
            else:
                table.writerow((0, "linestring", None, words.precision, polyline))
            record[place] = None
            rest.writerow(record)

        tables.for_records(records, len(header), put)


tables.run(main, "refused\n")
