#!/usr/bin/env python3
"""Reads a stream of so many MB through the package, in each form of `stream`, and says how much more memory that took than the first MB:

    POLYTWKB_LIBRARY=out/libpolytwkb.so PYTHONPATH=python bench/library/long_stream.py [MB]

The stream is made while it is read: MB after MB of lines of 50 points, and of single points. Arrays are in units. Status 1 if the memory grew by more than 16 MB, or if
other geometries came than went in. 2,000 MB if no number is given; of geometries a tenth, since a mapping takes more time.
"""
import random
import sys
import time
from array import array

import polytwkb

MB, MOST = 1 << 20, 16 << 10


def some_geometries(chance):
    """A stream of about 1 MB, and how many geometries it has."""
    counts = [50] * 3000 + [1] * 100000
    units = array("q", (chance.randrange(-1000, 1001) for _ in range(2 * sum(counts))))
    kinds = [2 if count > 1 else 1 for count in counts]
    return polytwkb.write({"kind": kinds, "counts": counts, "precision": 5}, units), len(counts)


class Made:
    """A file that is made while it is read: the same bytes again and again, cut anywhere."""

    def __init__(self, block, size):
        self.block, self.place, self.left = block, 0, size

    def read(self, size):
        some = self.block[self.place : self.place + min(size, self.left)]
        self.place = (self.place + len(some)) % len(self.block)
        self.left -= len(some)
        return some


COUNTS = {
    "blobs": lambda found: len(polytwkb.read(found, degrees=False).offsets) - 1,
    "arrays": lambda found: len(found.offsets) - 1,
    "geometries": lambda found: 1,
}


def read(form, block, count, size):
    """Reads the block so often that it has about this size; how many geometries came, and how many went in."""
    times = max(size // len(block), 1)
    found = polytwkb.stream(Made(block, times * len(block)), form=form, degrees=False)
    return sum(map(COUNTS[form], found)), times * count


def peak():
    """The most memory of this process since the last call, in kB."""
    with open("/proc/self/status", encoding="ascii") as status:
        most = next(int(line.split()[1]) for line in status if line.startswith("VmHWM"))
    with open("/proc/self/clear_refs", "w", encoding="ascii") as references:
        references.write("5")
    return most


def main():
    size = int(sys.argv[1]) * MB if sys.argv[1:] else 2000 * MB
    block, count = some_geometries(random.Random(1))
    for form in COUNTS:
        peak()
        read(form, block, count, 1)
        before, began = peak(), time.process_time()
        own = size // 10 if form == "geometries" else size
        came, went = read(form, block, count, own)
        grew, took = peak() - before, time.process_time() - began
        print(f"{form}: {own // MB} MB, {came} geometries, {took:.1f} s, {grew} kB more memory than 1 MB takes")
        if came != went or grew > MOST:
            sys.exit(f"{form}: {came} of {went} geometries, {grew} kB more memory")


if __name__ == "__main__":
    main()
