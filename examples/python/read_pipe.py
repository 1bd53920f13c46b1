#!/usr/bin/env python3
"""Geometries of a pipe that may never end, each told as soon as its last byte has come:

    some_program_that_writes_blobs | PYTHONPATH=python python3 examples/python/read_pipe.py

Of each geometry the number, the type and the first point are printed. Memory holds one blob and what has come after it. A pipe that is cut
within a blob, or has bytes that are none, ends the program with the reason and the byte of the whole stream.
"""
import sys

import polytwkb


def first_point(found):
    """The first pair in nested lists of pairs; None if there is none."""
    while found and not isinstance(found[0], float):
        found = found[0]
    return found or None


def main():
    try:
        for number, geometry in enumerate(polytwkb.stream(sys.stdin.buffer, form="geometries")):
            print(number, geometry["type"], first_point(geometry.get("coordinates")), flush=True)
    except polytwkb.Refused as refused:
        sys.exit(f"after {refused.done} geometries: {refused}")


if __name__ == "__main__":
    main()
