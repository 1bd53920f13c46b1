#!/usr/bin/env python3
"""Where a table or a stream can be cut: prints start and length of parts of some BYTES.

    cuts.py table|stream FILE BYTES

A table is cut before a row of depth 0, which begins with '0,' after a newline; each part but the
first then needs the header's line. A stream is cut after a blob, by the size that the style full
writes; blobs without one are read by `polytwkb show`. If a cut is wrong, for it is in a quoted field
or a size is wrong, the input is refused whole, and so is the part before the cut.
"""
import mmap
import os
import subprocess
import sys


def table_ends(table, size):
    """Where parts of a table end."""
    end = 0
    while (found := table.find(b"\n0,", end + size)) >= 0:
        end = found + 1
        yield end
    yield len(table)


def said_end(stream, start):
    """Where the blob that begins here ends, as it says: 0 if it does not say."""
    try:
        metadata = stream[start + 1]
        if not metadata & 2:
            return 0
        place = start + (3 if metadata & 8 else 2)
        size = stream[place]
        if size > 127:
            size, shift = size & 127, 7
            while (byte := stream[place := place + 1]) > 127:
                size, shift = size | (byte & 127) << shift, shift + 7
            size |= byte << shift
        return place + 1 + size
    except IndexError:
        return len(stream)


def read_end(stream, start, size, last_end):
    """Where the last blob ends that is whole in so many bytes, or in twice as many, and so on."""
    while not (length := last_end(stream[start : start + size])) and start + size < len(stream):
        size *= 2
    return start + length if length else len(stream)


def stream_ends(stream, size, last_end):
    """Where parts of a stream end."""
    start, end, whole = 0, 0, len(stream)
    while end < whole:
        end = said_end(stream, end) or read_end(stream, end, size, last_end)
        if end - start >= size or end >= whole:
            yield min(end, whole)
            start = end


def last_shown(blobs):
    """Where the last blob ends that is whole in these bytes: 0 if there is none."""
    lines = subprocess.run(["polytwkb", "show"], input=blobs, capture_output=True, check=False).stdout
    for line in reversed(lines.splitlines()):
        level, offset, _, _, _, length, _ = line.split()
        if level == b"0":
            return int(offset) + int(length)
    return 0


def parts_of(path, form, size, last_end=last_shown):
    """Start and length of each part, in their order; an empty file has one."""
    if not os.path.getsize(path):
        yield 0, 0
        return
    with open(path, "rb") as file, mmap.mmap(file.fileno(), 0, access=mmap.ACCESS_READ) as content:
        ends = table_ends(content, size) if form == "table" else stream_ends(content, size, last_end)
        start = 0
        for end in ends:
            yield start, end - start
            start = end


if __name__ == "__main__":
    for part in parts_of(sys.argv[2], sys.argv[1], int(sys.argv[3])):
        print(*part)
