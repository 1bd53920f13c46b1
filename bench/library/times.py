#!/usr/bin/env python3
"""Times of calls of the package for Python, beside those of the library alone, which are handed a buffer that is long enough:

    POLYTWKB_LIBRARY=out/libpolytwkb.so PYTHONPATH=python bench/library/times.py

10,000 linestrings of 50 points, and a polyline of a million points, each at most 1,000 units from the one before. The best of 20 rounds, by
turns, in processor seconds. Arrays of rows and points are read of a stream of 10 MB, 50,000 such linestrings, and written to it, also of
single points; beside that the same points by way of a table and of polylines, by python3-polyline and by PostGIS, if these are there.
"""
import csv
import ctypes
import os
import random
import subprocess
import time
from array import array

try:
    import polyline
except ImportError:
    polyline = None

import polytwkb
from polytwkb._conversions import _limits
from polytwkb._library import library
from polytwkb._memory import address_of, memory_of

LINES, POINTS, MANY, ROUNDS = 10_000, 50, 1_000_000, 20
LONG, FEW_ROUNDS = 50_000, 7
LIMITS = _limits(None)


def walk(chance, count):
    """Points that lie apart by at most 1,000."""
    numbers = array("q", [0, 0])
    while len(numbers) < 2 * count:
        numbers.append(numbers[-2] + chance.randrange(-1000, 1001))
    return numbers


def best(calls, rounds=ROUNDS):
    """The least time of each call."""
    least = [float("inf")] * len(calls)
    for _ in range(rounds):
        for place, call in enumerate(calls):
            began = time.process_time()
            call()
            least[place] = min(least[place], time.process_time() - began)
    return least


def compare(name, package, call, given, count, room, size, *more):
    """A call of the package beside that of the library on the same bytes."""
    output = ctypes.create_string_buffer(room * size)

    def alone():
        assert call(given, count, ctypes.addressof(output), room, *more).status == 0

    alone()
    ours, own = best([package, alone])
    print(f"{name}: {1e3 * ours:.2f} ms, the library alone {1e3 * own:.2f} ms, {ours / own:.2f} times as long")


def told(name, calls, points, rounds=FEW_ROUNDS):
    """Times of several ways, in nanoseconds a point and as many times the first."""
    times = best(list(calls.values()), rounds)
    print(
        f"{name}:",
        ", ".join(
            f"{way} {1e9 * own / points:.1f} ns a point ({own / times[0]:.2f})" for way, own in zip(calls, times)
        ),
    )


def read_by_text(stream):
    rows, flat = csv.DictReader(polytwkb.unpack(stream).splitlines()), array("q")
    for row in rows:
        flat.extend(polytwkb.decode_flat(row["polyline"]))
    return flat


def compare_arrays(chance):
    """Reading arrays: the package, the library into memory that is new and that was used before, and other ways."""
    flat = array("q")
    lines = [walk(chance, POINTS) for _ in range(LONG // 10)] * 10
    for line in lines:
        flat.extend(line)
    count = len(flat) // 2
    stream = polytwkb.pack(
        "depth,kind,id,precision,polyline\n" + "".join(f"0,linestring,,5,{polytwkb.encode(line)}\n" for line in lines)
    )
    memories = [memory_of(size) for size in (24 * LONG, 16 * count)]
    for memory in memories:
        ctypes.memset(address_of(memory), 0, len(memory))

    def read(rows, points):
        arrays = address_of(rows), LONG, address_of(points), count
        no_ends = address_of(rows), 0
        assert library.polytwkb_read(stream, len(stream), *arrays, *no_ends, LIMITS, 0).status == 0

    print(f"arrays: {len(stream) / 1e6:.1f} MB, {count} points")
    told(
        "read",
        {
            "the library into used memory": lambda: read(*memories),
            "into new memory": lambda: read(memory_of(24 * LONG), memory_of(16 * count)),
            "the package": lambda: polytwkb.read(stream, degrees=False),
            "in degrees": lambda: polytwkb.read(stream),
        },
        count,
    )
    told(
        "read otherwise",
        {
            "the package": lambda: polytwkb.read(stream, degrees=False),
            "by table and decode_flat": lambda: read_by_text(stream),
        },
        count,
        3,
    )
    compare_others(stream, lines[: LONG // 10])
    compare_writing("lines", stream)
    corners = walk(chance, LONG)
    points = "".join(f"0,point,,5,{polytwkb.encode(corners[place : place + 2])}\n" for place in range(0, 2 * LONG, 2))
    compare_writing("points", polytwkb.pack("depth,kind,id,precision,polyline\n" + points * 32))


def write_by_text(kinds, precisions, counts, points):
    """Rows of depth 0 by way of a table."""
    names, lines, start = ["", "point", "linestring"], ["depth,kind,id,precision,polyline\n"], 0
    for kind, precision, count in zip(kinds, precisions, counts):
        lines.append(f"0,{names[kind]},,{precision},{polytwkb.encode(points[2 * start : 2 * (start + count)])}\n")
        start += count
    return polytwkb.pack("".join(lines))


def compare_writing(name, stream):
    """Writing arrays: the package, the library into memory that is new and that was used before, and by way of a table."""
    rows, points = polytwkb.read(stream, degrees=False)
    records, flat, room = rows.records.tobytes(), points.tobytes(), len(stream)
    used, numbers = memory_of(room), array("q", flat)
    ctypes.memset(address_of(used), 0, room)
    columns = rows.kind.tolist(), rows.precision.tolist(), rows.counts.tolist()

    def written(memory):
        assert (
            library.polytwkb_write(
                records, len(rows), flat, len(points), address_of(memory), room, address_of(memory), 0, LIMITS, 0, 0
            ).status
            == 0
        )

    assert polytwkb.write(rows, points) == write_by_text(*columns, numbers) == stream
    print(f"arrays of {name}: {room / 1e6:.1f} MB, {len(rows)} rows, {len(points)} points")
    told(
        "write",
        {
            "the library into used memory": lambda: written(used),
            "into new memory": lambda: written(memory_of(room)),
            "the package": lambda: polytwkb.write(rows, points),
        },
        len(points),
    )
    ways = {
        "the package": lambda: polytwkb.write(rows, points),
        "by table and encode": lambda: write_by_text(*columns, numbers),
    }
    told("write otherwise", ways, len(points), 3)


def compare_others(stream, lines):
    """python3-polyline and PostGIS, on the same points."""
    count = len(lines) * POINTS
    if polyline:
        pairs = [list(zip(*[iter(line)] * 2)) for line in lines]
        texts = [polyline.encode(line, 0) for line in pairs]
        told(
            "python3-polyline",
            {
                "decode": lambda: [polyline.decode(text, 0) for text in texts],
                "encode": lambda: [polyline.encode(line, 0) for line in pairs],
            },
            count,
            3,
        )
    script = os.path.join(os.path.dirname(os.path.abspath(__file__)), "dump_points.sh")
    blobs = "".join(blob.hex() + "\n" for blob in polytwkb.split(stream))
    said = subprocess.run([script], input=blobs, stdout=subprocess.PIPE, text=True, check=False).stdout.strip()
    print(
        f"PostGIS, ST_DumpPoints: {float(said) * 1e6 / (LONG * POINTS):.1f} ns a point" if said[:1].isdigit() else said
    )


def compare_floats(chance):
    """Rounding of floats."""
    flat = array("d", [chance.uniform(-180, 180) for _ in range(400_000)])
    pairs = list(zip(flat[::2], flat[1::2]))
    told(
        "encode with rounding",
        {
            "an array of floats": lambda: polytwkb.encode(flat, precision=5),
            "pairs of floats": lambda: polytwkb.encode(pairs, precision=5),
            "pairs of whole numbers": lambda: polytwkb.encode(((1, 2),) * len(pairs)),
        },
        len(pairs),
    )


def main():
    chance = random.Random(1)
    table = "depth,kind,id,precision,polyline\n"
    table += "".join(f"0,linestring,,5,{polytwkb.encode(walk(chance, POINTS))}\n" for _ in range(LINES))
    given, stream = table.encode(), polytwkb.pack(table)
    compare("pack", lambda: polytwkb.pack(table), library.polytwkb_pack, given, len(given), len(given), 1, LIMITS, 0)
    compare(
        "unpack", lambda: polytwkb.unpack(stream), library.polytwkb_unpack, stream, len(stream), len(given), 1, LIMITS
    )
    points = walk(chance, MANY)
    flat, text = points.tobytes(), polytwkb.encode(points)
    letters = text.encode()
    compare("encode", lambda: polytwkb.encode(points), library.polytwkb_encode, flat, MANY, len(letters), 1)
    compare("decode_flat", lambda: polytwkb.decode_flat(text), library.polytwkb_decode, letters, len(letters), MANY, 16)
    compare("decode", lambda: polytwkb.decode(text), library.polytwkb_decode, letters, len(letters), MANY, 16)
    compare_floats(chance)
    compare_arrays(chance)


main()
