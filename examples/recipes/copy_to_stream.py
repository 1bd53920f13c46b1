#!/usr/bin/env python3
"""Keys and blobs that PostgreSQL wrote by COPY in binary to a stream, and the keys to a file, a line for each blob.

    copy_to_stream.py KEYS < COPY > STREAM

A row is a key as text, and a blob. A row whose blob is NULL is left out, with its key.
"""
import struct
import sys

sys.dont_write_bytecode = True

import tables

SIGNATURE = b"PGCOPY\n\xff\r\n\0"


def read(count):
    """So many bytes of standard input."""
    piece = sys.stdin.buffer.read(count)
    if len(piece) < count:
        raise tables.Fault("cut short: the end of COPY is missing")
    return piece


def number(form):
    return struct.unpack(form, read(struct.calcsize(form)))[0]


def field():
    """The bytes of a field, or None for NULL."""
    length = number(">i")
    return None if length < 0 else read(length)


def rows():
    """The key and the blob of each row."""
    if read(len(SIGNATURE)) != SIGNATURE:
        raise tables.Fault("no COPY in binary: needs TO STDOUT (FORMAT binary)")
    number(">i")
    read(number(">i"))
    while (fields := number(">h")) >= 0:
        if fields != 2:
            raise tables.Fault(f"{fields} columns: needs a key and a blob")
        yield field(), field()


def main():
    words = tables.words_of(__doc__, ("keys", {"metavar": "KEYS", "help": "the file for the keys"}))
    with open(words.keys, "wb") as keys:
        for count, (key, blob) in enumerate(rows(), 1):
            if key is None or b"\0" in key:
                raise tables.Fault(f"row {count}: the key is no text: cast it, as in id::text")
            if b"\n" in key or b"\r" in key:
                raise tables.Fault(f"row {count}: the key has a line end")
            if blob is not None:
                keys.write(key + b"\n")
                sys.stdout.buffer.write(blob)


tables.run(main, "\0")
