#!/usr/bin/env python3
"""The extension of SQLite on the largest values, on hostile ones, and in several threads.

    hostile.py EXTENSION
"""
import os
import sqlite3
import sys
import threading
import time

sys.dont_write_bytecode = True
MOST = 2**24  # points of a geometry
ROWS = 2**20


def opened(extension):
    connection = sqlite3.connect(":memory:", check_same_thread=False)
    connection.enable_load_extension(True)
    connection.load_extension(os.path.abspath(extension))
    return connection


def answer(connection, statement, *values):
    try:
        return connection.execute(statement, values).fetchone()
    except (sqlite3.Error, OverflowError) as error:
        return str(error)


def check(found, expected):
    if found != expected:
        raise SystemExit(f"{str(found)[:300]}, not {str(expected)[:300]}")


def largest(connection):
    """What a geometry may have works; one point more, and values up to SQLite's length, are refused by name."""
    (blob,) = answer(connection, "SELECT twkb_pack('linestring', 7, ?)", "AC" * MOST)
    # the header, the size and the number of points of four bytes each, the box, and two bytes a point
    check(len(blob), 2 + 4 + 10 + 4 + 2 * MOST)
    check(answer(connection, "SELECT twkb_fault(?)", blob), (None,))
    check(answer(connection, "SELECT twkb_polyline(?)", blob), ("AC" * MOST,))
    check(answer(connection, "SELECT count(*), max(length(polyline)) FROM twkb_rows(?)", blob), (1, 2 * MOST))
    check(answer(connection, "SELECT points, length FROM twkb_show(?)", blob), (MOST, len(blob)))
    check(answer(connection, "SELECT length(twkb_geojson(?)) > 20 * ?", blob, MOST), (1,))
    check(
        answer(connection, "SELECT minx, maxx, miny, maxy FROM twkb_box(?)", blob), (2e-7, 3.3554432, 1e-7, 1.6777216)
    )
    (wkb,) = answer(connection, "SELECT twkb_wkb(?)", blob)
    check(len(wkb), 9 + 16 * MOST)
    check(answer(connection, "SELECT twkb_from_wkb(?, 7) = ?", wkb, blob), (1,))
    more = wkb[:5] + (MOST + 1).to_bytes(4, "little") + wkb[9:] + bytes(16)
    check(answer(connection, "SELECT twkb_from_wkb(?, 7)", more), "polytwkb: byte 5: too many points")
    check(answer(connection, "SELECT twkb_pack('linestring', 7, ?)", "AC" * (MOST + 1)), "polytwkb: too many points")
    check(answer(connection, "SELECT twkb_fault(x'020081808008')"), ("byte 2: too many points",))


def hostile(connection):
    """Values of 60 MB that begin with a blob, with bytes of none, with a wrong size, or with a count that is too large."""
    for fault, begin in (
        ("byte 3: bytes after the blob", b"\x01\x12\x00"),
        ("byte 0: unknown type", b"\x00"),
        ("byte 6: size mismatch", b"\x01\x02\xff\x01"),
        ("byte 2: too many points", b"\x02\x00\xff\xff\xff\x7f"),
        ("byte 2: too many nodes", b"\x07\x00\xff\xff\xff\x7f"),
    ):
        value = begin + bytes(60_000_000)
        check(answer(connection, "SELECT twkb_fault(?)", value), (fault,))
        for call in ("twkb_polyline(?)", "twkb_geojson(?)", "count(*) FROM twkb_show(?)"):
            check(answer(connection, f"SELECT {call}", value), f"polytwkb: {fault}")
    many = b"\x01\x12\x00" * 20_000_000
    for call in ("twkb_polyline(?)", "twkb_geojson(?)", "count(*) FROM twkb_rows(?)", "count(*) FROM twkb_show(?)"):
        check(answer(connection, f"SELECT {call}", many), "polytwkb: byte 3: bytes after the blob")
    check(answer(connection, "SELECT twkb_fault(?)", bytes(1_000_000_001)), "string or blob too big")


def many_rows(connection):
    """As many rows as a geometry may have, and one more; rows after a refused one are not kept."""
    rows = "WITH RECURSIVE n (i) AS (VALUES (0) UNION ALL SELECT i + 1 FROM n WHERE i < ?) SELECT {} FROM n"
    packed = rows.format(
        "twkb_pack(min(i, 1), iif(i = 0, 'multilinestring', 'linestring'), NULL, iif(i = 0, 0, NULL), iif(i = ?, 'A', ''))"
    )
    check(len(answer(connection, packed, ROWS - 1, -1)[0]), ROWS + 7)
    check(answer(connection, packed, ROWS, -1), f"polytwkb: row {ROWS + 1}: too many rows in one geometry")
    check(answer(connection, packed, 2 * ROWS, 5), "polytwkb: row 6: polyline at 1: latitude without longitude")


class Stopper:
    """Counts calls, and interrupts the statement at one of them."""

    def __init__(self, connection, at):
        self.connection, self.at, self.calls = connection, at, 0

    def __call__(self, *_):
        self.calls += 1
        if self.calls == self.at:
            self.connection.interrupt()
        return 1


def interrupted(connection):
    """A statement that is interrupted stops at the row at which it is, and inside twkb_geojson at the end of a call that wrote much."""
    connection.execute("CREATE TABLE large AS SELECT twkb_pack('linestring', 5, ?) AS b", ("AC" * 1_000_000,))
    rows = "WITH RECURSIVE n (i) AS (VALUES (0) UNION ALL SELECT i + 1 FROM n WHERE i < 100000) SELECT {} FROM n"
    for call in ("twkb_fault(x'0102020402')", "twkb_polyline(x'0102020402')", "length(twkb_geojson(x'0102020402'))"):
        stop = Stopper(connection, 1000)
        connection.create_function("stop", 0, stop)
        check(answer(connection, rows.format(f"max(stop() || {call})")), "interrupted")
        check(stop.calls, 1000)
    # twkb_geojson asks SQLite by a statement of its own, which is traced, after each call that wrote more than a megabyte:
    # here the first one, whose room is too small, and the second
    for at in (1, 2):
        stop = Stopper(connection, at + 1)
        connection.set_trace_callback(stop)
        check(answer(connection, "SELECT length(twkb_geojson(b)) FROM large"), "interrupted")
        connection.set_trace_callback(None)
        check(stop.calls in (at + 1, at + 2), True)
    (length,) = answer(connection, "SELECT length(twkb_geojson(b)) FROM large")
    check(length > 10_000_000, True)


def threads(extension):
    """Several connections at the same time: nothing is shared."""
    wrong = []

    def run(number):
        connection = opened(extension)
        for count in range(2000):
            text = "AC" * (count % 200 + number)
            found = answer(connection, "SELECT twkb_polyline(twkb_pack('linestring', 5, ?)), twkb_fault(x'0100')", text)
            if found != (text, "byte 2: truncated"):
                wrong.append(found)

    running = [threading.Thread(target=run, args=(number,)) for number in range(8)]
    for thread in running:
        thread.start()
    for thread in running:
        thread.join()
    check(wrong, [])


def main(extension):
    connection = opened(extension)
    for part in (largest, hostile, many_rows, interrupted):
        part(connection)
        print(f"{part.__name__}: {time.process_time():.1f} s")
    threads(extension)
    print(f"all right, in {time.process_time():.0f} s of the processor")


if __name__ == "__main__":
    main(*sys.argv[1:])
