#!/usr/bin/env python3
"""Cuts a stream into its blobs, in one pass: a line of hexadecimal digits for each, or with FOLDER a file for each.

    cut_stream.py STREAM [FOLDER]

It holds one blob at a time. The status is that of 'polytwkb show', which says where blobs end: if it is not 0, the
blobs before the refused one have been written, and no other.
"""
import sys

sys.dont_write_bytecode = True

import tables
from blobs import blobs_of


def main():
    words = tables.words_of(
        __doc__,
        ("stream", {"metavar": "STREAM", "help": "the file of a stream"}),
        ("folder", {"metavar": "FOLDER", "nargs": "?", "help": "the folder for a file for each blob"}),
    )
    for offset, blob in blobs_of(words.stream):
        if words.folder:
            with open(f"{words.folder}/blob-{offset:012}.twkb", "wb") as file:
                file.write(blob)
        else:
            print(blob.hex())


tables.run(main)
