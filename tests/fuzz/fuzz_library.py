#!/usr/bin/env python3
"""Compares calls of the library and of the package for Python with the second implementation: rows and points in arrays are read from random
streams, and written as streams, by the library into rooms of all sizes and in windows of all sizes, streams are converted into rooms of all sizes, doubles are rounded, random shapes are packed and tables checked, and
degrees of rows, columns of one kind and lists with gaps go through the package.

fuzz_library.py [--cases N] [--seed S] [--processes P] [--only CASE] LIBRARY

Case K of seed S is always the same. Status 1 where a case differs.
"""
import os
import random
import struct
import sys
import time

HERE = os.path.dirname(os.path.abspath(__file__))
sys.path[:0] = [HERE, *(os.path.join(HERE, "../..", folder) for folder in ("python", "scripts", "examples/recipes"))]

import blob
import polylines
import reasons
import table
from arrays import arrays_of, bytes_of_points, bytes_of_rows, index_outside, named_by, some_arrays
from columns import Columns
from fuzz import some_stream, some_table
from fuzzing import MOST_FOUND, in_processes, report, words_of
from geometry import NODES, POINTS, mapping_of, with_precision
from library import Library
from listings import Listings
from pieces import Pieces, some_room
from rounding import some_double, some_half, unit_of
from trees import nested, some_tree

# In 20,000 cases so many a time are 100,000.
HALVES = 75


def numbers_of(*kinds):
    """The numbers of reasons, by their texts."""
    return {row.text: row.number for row in reasons.table() if row.what in kinds}


TEXT_REASONS, BLOB_REASONS = numbers_of("polyline"), numbers_of("blob")
REASONS = {**TEXT_REASONS, **numbers_of("row", "array")}

STYLES = ("full", "plain")


def is_stream(first, second):
    """Whether bytes that begin with these two are a stream for the package: control characters begin no text, but for tabs and line ends, and
    those are no second byte of a character."""
    blanks = (b"\t", b"\n", b"\r")
    return any(byte and byte < b" " and byte not in blanks for byte in (first, second)) or (
        first > b"\x7f" and second in blanks
    )


def some_limits(chance):
    """Limits of a case; the second implementation has those of nodes and points as constants of its modules."""
    nest = chance.choice((16, 16, 16, 0, 1, 2, 32))
    nodes = chance.choice((NODES, NODES, NODES, 1, 2, 3, 7))
    points = chance.choice((POINTS, POINTS, POINTS, 0, 1, 2, 5))
    table.NODES = blob.NODES = nodes
    table.POINTS = blob.POINTS = points
    return nest, nodes, points


def standard_limits():
    table.NODES = blob.NODES = NODES
    table.POINTS = blob.POINTS = POINTS
    return 16, NODES, POINTS


def refusal_of(number, text):
    """The record, the reason and the byte of a polyline of what the second implementation says of a record."""
    words, _, reason = text.rpartition(": ")
    return (number, TEXT_REASONS[reason], int(words.split()[-1])) if words else (number, REASONS[text], 0)


def refusals_of(text, nest):
    """The first refusal of each geometry: records up to one of depth 0 are judged by themselves."""
    records = table.records_of(text)
    if not records or records[0] != table.HEADER:
        return [(1, 1, 0)]
    refusals, rows = [], []
    for number, record in enumerate(records[1:], 2):
        if record[0] == b"0":
            rows = []
        if rows is not None:
            row = table.judged(rows, record, nest)
            if isinstance(row, str):
                refusals.append(refusal_of(number, row))
                rows = None
            else:
                rows.append(row)
    return refusals


class Comparing(Columns, Pieces, Listings):
    blob_reasons, reasons = BLOB_REASONS, REASONS

    def __init__(self, path):
        self.library, self.ends = Library(path), {}

    def met(self, end):
        self.ends[end] = self.ends.get(end, 0) + 1

    def read(self, chance, limits):
        """A stream is read as the second implementation reads it, into any room."""
        stream = some_stream(chance, limits[0])
        geometries, _, fault = blob.spelled_in(stream, limits[0])
        arrays = list(map(arrays_of, geometries))
        needed = [sum(len(pair[column]) for pair in arrays) for column in (0, 1)] + [len(arrays)]
        rooms = [some_room(chance, count) for count in needed]
        found = self.read_call(stream, rooms, limits, chance.randrange(2))
        self.met("read " + ("room too small" if found[0][0] == 5 else fault[1] if fault else "ok"))
        self.read_in_windows(chance, stream, limits)
        self.read_by_package(stream, limits, arrays, fault)
        self.wkb_by_package(chance, stream, polytwkb.Limits(*limits), fault)

    def read_by_package(self, stream, limits, arrays, fault):
        rows, points = (
            b"".join(bytes_of(pair[column]) for pair in arrays)
            for column, bytes_of in ((0, bytes_of_rows), (1, bytes_of_points))
        )
        refused = None
        try:
            found = polytwkb.read(stream, limits=polytwkb.Limits(*limits), degrees=False)
        except polytwkb.Refused as caught:
            refused, found = caught, caught.output
        assert (bytes(found.rows.records), found.points.tobytes()) == (
            rows,
            points,
        ), f"the package reads {stream.hex()} otherwise"
        assert (
            refused and (refused.place, refused.text)
        ) == fault, f"the package refuses {stream.hex()} otherwise: {refused}"
        self.stream_by_package(stream, limits, found.offsets.tolist(), fault)

    def wkb_by_package(self, chance, stream, limits, fault):
        """Geometries are WKB whose boxes are theirs. With bytes of it changed it is taken, or refused at one of its bytes."""
        try:
            wkbs = polytwkb.to_wkb(stream, limits=limits, ids="drop")
            boxes = list(polytwkb.boxes(stream, limits=limits))
            assert not fault
        except polytwkb.Refused as refused:
            assert (refused.place, refused.text) == fault, f"as WKB {stream.hex()} is refused otherwise: {refused}"
            wkbs, boxes = refused.output, [None] * refused.done
        assert len(wkbs) == len(boxes), f"{stream.hex()} has {len(wkbs)} WKB and {len(boxes)} boxes"
        for wkb, box in zip(wkbs, boxes):
            assert box is None or struct.pack("<d", box[0]) in wkb, f"the box of {wkb.hex()} is no part of it"
            changed = bytearray(wkb)
            for _ in range(chance.choice((0, 1, 1, 3))):
                changed[chance.randrange(len(changed))] = chance.choice((0, 1, 2, 127, 255, chance.randrange(256)))
            changed = changed[: chance.choice((len(wkb), chance.randrange(len(wkb) + 1)))]
            try:
                polytwkb.from_wkb(changed, chance.randrange(-8, 8), limits=limits)
                self.met("WKB ok")
            except polytwkb.Refused as refused:
                assert 0 <= refused.place <= len(changed), f"{changed.hex()} is refused at a byte that is not there"
                self.met("WKB " + refused.text)

    @staticmethod
    def stream_by_package(stream, limits, offsets, fault):
        """The stream in pieces gives its blobs up to the fault, and where each of them is is known."""
        size, found, refused = 1 + len(stream) // 3, [], None
        try:
            for blobs in polytwkb.stream(
                (stream[place : place + size] for place in range(0, len(stream), size)), limits=polytwkb.Limits(*limits)
            ):
                found.append(blobs)
        except polytwkb.Refused as caught:
            refused = caught
        assert (b"".join(found), refused and (refused.place, refused.text)) == (
            stream[: offsets[-1]],
            fault,
        ), f"in pieces {stream.hex()} is read otherwise"
        lengths = [end - start for start, end in zip(offsets, offsets[1:])]
        assert lengths == [
            len(blob) for part in found for blob in polytwkb.split(part, limits=polytwkb.Limits(*limits))
        ], f"the places in {stream.hex()} are others"

    def write(self, chance, limits):
        """Arrays are written as the second implementation writes them, into any room."""
        trees = [some_tree(chance) for _ in range(chance.choice((0, 1, 1, 2, 3)))]
        trees = [nested(chance, tree) if chance.random() < 0.2 else tree for tree in trees]
        rows, points = some_arrays(chance, trees)
        geometries, fault = named_by(rows, points, limits[0])
        style = chance.randrange(2)
        blobs = [blob.canonical(geometry, style == 0) for geometry in geometries]
        needed = sum(map(len, blobs)), len(blobs)
        rooms = [some_room(chance, count) for count in needed]
        found = self.write_call(rows, points, rooms, limits, style, chance.randrange(2))
        self.met("write " + ("room too small" if found[0][0] == 5 else fault[1] if fault else "ok"))
        whole = self.write_call(rows, points, [count + 1 for count in needed], limits, style, chance.randrange(2))
        self.write_in_pieces(chance, rows, points, limits, style, whole)
        self.write_by_package(chance, rows, points, limits, style, b"".join(blobs), fault and (*fault, len(blobs)))

    def write_by_package(self, chance, rows, points, limits, style, output, fault):
        columns = (
            dict(zip(("id", "counts", "depth", "kind", "has_id", "precision"), map(list, zip(*rows))))
            if rows
            else {"kind": [], "counts": []}
        )
        form = chance.choice((bytes_of_rows(rows), polytwkb.Rows(bytearray(bytes_of_rows(rows))), columns))
        refused = None
        try:
            found = polytwkb.write(form, points, style=STYLES[style], limits=polytwkb.Limits(*limits))
        except polytwkb.Refused as caught:
            refused, found = caught, caught.output
        assert found == output, f"the package writes {rows} and {points} otherwise"
        assert (
            refused and (refused.place, refused.text, refused.done)
        ) == fault, f"the package refuses {rows} and {points} otherwise: {refused}"
        assert not refused or refused.text_offset == index_outside(
            rows, points, fault
        ), f"the package names another point: {refused.text_offset}"

    def round(self, chance, limits):
        """Doubles are rounded as fractions round them, up to the first that has no coordinate, into any room. The package's own rounding of one
        number and that of the recipes are the same."""
        out_of_range = chance.choice((-9, 8, -128, 127, 261, -251, (1 << 31) - 1, -(1 << 31)))
        precision = chance.choice((5, 7, chance.randint(-8, 7), chance.randint(-8, 7), out_of_range))
        numbers = [some_double(chance, max(-8, min(precision, 7))) for _ in range(chance.choice((0, 1, 1, 2, 5)))]
        room = max(len(numbers) + chance.choice((0, 0, 0, 1, -1, 5)), 0)
        is_precision, units = -8 <= precision <= 7, []
        # a power of ten by a precision of ten digits would take hours
        for number in numbers if is_precision else ():
            unit = unit_of(number, precision)
            if unit is None:
                break
            units.append(unit)
        status = 2 if not is_precision else 5 if room < len(numbers) else 0 if len(units) == len(numbers) else 1
        units = units if status < 2 else []
        reason, place, needed = (
            (26, len(units), len(units)) if status == 1 else (0, 0, len(numbers) if status != 2 else 0)
        )
        wanted = (status, reason, place, 0, int(status == 0), len(units), needed), units
        found = self.library.round(numbers, precision, room)
        assert found == wanted, f"round {numbers} at {precision} into {room}: {found}, not {wanted}"
        self.met(f"round {('ok', 'refused', 'no precision', '', '', 'room too small')[status]}")
        if status < 2:
            others = [nearest(number, precision) for number in numbers[: len(units)]], polylines.units_of(
                numbers[: len(units)], precision
            )
            assert others == (
                units,
                units,
            ), f"round {numbers} at {precision}: the package and the recipes have {others}, not {units}"
        if is_precision:
            self.halves(chance, precision)

    def halves(self, chance, precision):
        """Doubles at and beside halves are rounded as fractions round them, by the library, by the package one by one, and by the recipes."""
        numbers = [some_half(chance, precision) for _ in range(HALVES)]
        units = [unit_of(number, precision) for number in numbers]
        found = (
            self.library.round(numbers, precision, HALVES)[1],
            [nearest(number, precision) for number in numbers],
            polylines.units_of(numbers, precision),
        )
        for by, others in zip(("the library", "the package", "the recipes"), found):
            wrong = [place for place, pair in enumerate(zip(units, others)) if pair[0] != pair[1]]
            assert (
                not wrong
            ), f"round {numbers[wrong[0]]!r} at {precision}: {by} has {others[wrong[0]]}, not {units[wrong[0]]}"

    def shapes(self, chance, limits):
        """Mappings of the geo interface are packed as the second implementation packs them."""
        precision = chance.randint(-8, 7)
        trees = [with_precision(some_tree(chance), precision) for _ in range(chance.choice((0, 1, 2, 3)))]
        arrays = list(map(arrays_of, trees))
        rows, points = ([part for pair in arrays for part in pair[column]] for column in (0, 1))
        geometries, fault = named_by(rows, points, limits[0])
        output = b"".join(blob.canonical(geometry, True) for geometry in geometries)
        refused = None
        try:
            found = polytwkb.pack_geometries(list(map(mapping_of, trees)), precision, limits=polytwkb.Limits(*limits))
        except polytwkb.Refused as caught:
            refused, found = caught, caught.output
        wanted = fault and (len(geometries), fault[1], len(geometries))
        assert found == output, f"the package packs {trees} otherwise, limits {limits}"
        assert (
            refused and (refused.place, refused.text, refused.done)
        ) == wanted, f"the package refuses {trees} otherwise: {refused}"
        self.met("shapes " + (fault[1] if fault else "ok"))

    def check(self, chance, limits):
        """All refusals of a table are those of its geometries, each by itself."""
        text = b"\n".join(some_table(chance) for _ in range(chance.choice((1, 1, 2, 3))))
        if is_stream(text[:1], text[1:2]):
            return
        wanted = refusals_of(text, limits[0])
        found = [
            (refused.place, refused.reason, refused.text_offset)
            for refused in polytwkb.check(text, limits=polytwkb.Limits(*limits))
        ]
        assert found == wanted, f"check {text}, limits {limits}: {found}, not {wanted}"
        self.met(f"check {min(len(wanted), 3)} refusals")

    def compare(self, seed, number):
        chance = random.Random(f"{seed}:{number}")
        limits = some_limits(chance)
        limited = self.read, self.read, self.write, self.write, self.listing, self.round, self.shapes, self.check
        call = chance.choice((*limited, self.degrees, self.ragged, self.ragged, self.listed))
        call(chance, limits if call in limited else standard_limits())


def run_cases(given, numbers):
    """How many of these cases differ, and how often each end was met."""
    comparing, found = Comparing(given.library), 0
    for number in numbers:
        try:
            comparing.compare(given.seed, number)
        except AssertionError as fault:
            print(f"case {number} differs: {fault}", flush=True)
            found += 1
            if found == MOST_FOUND:
                break
    return found, comparing.ends


def main():
    words = words_of(__doc__, 20000)
    words.add_argument("library")
    given = words.parse_args()
    os.environ["POLYTWKB_LIBRARY"] = given.library = os.path.abspath(given.library)
    global nearest, polytwkb
    import polytwkb
    from polytwkb._rounding import nearest

    Comparing.package, start = polytwkb, time.monotonic()
    found, ends = in_processes(given, run_cases) if given.only is None else run_cases(given, [given.only])
    return report("fuzz of the library", given, start, found, ends)


if __name__ == "__main__":
    sys.exit(main())
