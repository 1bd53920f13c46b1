#!/usr/bin/env python3
"""Blobs of a stream and their keys to rows that PostgreSQL reads by COPY in binary: a key as text, and a blob as bytea.

    stream_to_copy.py [--column NAME [--delimiter CHARACTER]] STREAM [KEYS] > COPY

KEYS has a line for each blob; with --column it is CSV with a header, such as the REST of column_to_table.py, and a key
is the field in the column NAME. Without KEYS a key is the number of the blob, from 1. If the stream is refused, or
there are more or fewer keys than blobs, the last row has no fields, so that PostgreSQL refuses all of them.
"""
import csv
import itertools
import struct
import sys

sys.dont_write_bytecode = True

import tables
from blobs import blobs_of


def keys_of(path, column, delimiter):
    """The lines of a file of keys, or the fields of a column of CSV, as UTF-8; or the numbers from 1."""
    if path is None:
        yield from (str(number).encode() for number in itertools.count(1))
    elif column is not None:
        with open(path, encoding="utf-8-sig", newline="") as file:
            records = csv.reader(file, delimiter=delimiter)
            _, (place,) = tables.columns_of(records, column)
            yield from (record[place].encode() for record in records if record)
    else:
        with open(path, "rb") as file:
            yield from (line.rstrip(b"\r\n") for line in file)


def main():
    words = tables.words_of(
        __doc__,
        ("--column", {"metavar": "NAME", "help": "the column of KEYS, which is CSV"}),
        tables.DELIMITER,
        ("stream", {"metavar": "STREAM", "help": "the file of a stream"}),
        ("keys", {"metavar": "KEYS", "nargs": "?", "help": "the file with the keys"}),
    )
    if words.column is not None and words.keys is None:
        raise tables.Fault("--column needs the file KEYS")
    write, keys, count = sys.stdout.buffer.write, keys_of(words.keys, words.column, words.delimiter), 0
    write(b"PGCOPY\n\xff\r\n\0" + struct.pack(">ii", 0, 0))
    for count, (_, blob) in enumerate(blobs_of(words.stream), 1):
        key = next(keys, None)
        if key is None:
            raise tables.Fault(f"{words.keys} has fewer lines than there are blobs")
        write(struct.pack(">hi", 2, len(key)) + key + struct.pack(">i", len(blob)) + blob)
    if words.keys and next(keys, None) is not None:
        raise tables.Fault(f"{words.keys} has more lines than the {count} blobs")
    write(struct.pack(">h", -1))


tables.run(main, "\0\0")
