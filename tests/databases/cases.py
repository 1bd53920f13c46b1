#!/usr/bin/env python3
"""Values and rows for the databases, with the answers of the command: text for text and byte for byte.

    cases.py FILE [CASES [SEED]]

writes them to FILE, for in_sqlite.py and in_postgresql.py. Rows of tests/vectors and blobs of PostGIS come first, with
what they expect, and then random ones. Half of the random cases are values, and half are rows.
"""
import csv
import io
import os
import pickle
import random
import re
import sys
from typing import NamedTuple, Optional

sys.dont_write_bytecode = True
HERE = os.path.dirname(os.path.abspath(__file__))
REPO = os.path.join(HERE, "..", "..")
sys.path[:0] = [os.path.join(REPO, "tests", "fuzz"), os.path.join(REPO, "python", "tests")]

import vectors
from blob import canonical, spelled_in
from geometry import KINDS, NEST, mapping_of
from run_command import Command
from slips import any_bytes, stream_slip
from table import HEADER_LINE, rows_text
from trees import free, nested, some_tree


class Value(NamedTuple):
    """A value of a column, and what the functions of a blob say of it."""

    value: bytes
    fault: Optional[str]
    rows: Optional[list] = None  # depth, kind, id, precision, polyline
    headers: Optional[list] = None
    tree: Optional[tuple] = None  # of the second implementation
    mapping: Optional[dict] = None  # the tree with exact coordinates


class Rows(NamedTuple):
    """Rows, and their blob or fault."""

    rows: list
    style: str
    blob: Optional[bytes]
    fault: Optional[str] = None


class Asked:
    """The command, and what it says."""

    def __init__(self):
        self.command = Command(os.path.join(REPO, "bin", "polytwkb"))

    def run(self, words, source):
        status, output, errors = self.command.run(words, source)
        if status not in (0, 1):
            raise SystemExit(f"polytwkb {' '.join(words)}: status {status}, {errors!r}")
        return output.decode(), errors.decode().removeprefix("polytwkb: ").rstrip("\n") or None

    def value(self, value):
        """What the functions say of a value: it is one blob, or begins with one, or is refused."""
        lines, fault = self.run(["show"], value)
        headers = [header_of(line) for line in lines.splitlines()]
        if headers and (fault or headers[0][5] != len(value)):
            return Value(value, f"byte {headers[0][5]}: bytes after the blob")
        if fault or not headers:
            return Value(value, fault or "byte 0: truncated")
        table, _ = self.run(["unpack"], value)
        rows = [row_of(*line.split(",", 4)) for line in table.splitlines()[1:]]
        tree = spelled_in(value, NEST)[0][0]
        return Value(value, None, rows, headers, tree, mapping_of(tree))

    def packed(self, rows, style):
        """The blob of rows. Those of the command are records, of which the header is the first."""
        table = io.StringIO()
        csv.writer(table, lineterminator="\n").writerows(rows)
        status, output, errors = self.command.run(["pack", "--style", style], HEADER_LINE + table.getvalue().encode())
        second = next((place for place, row in enumerate(rows) if row[0] == 0 and place > 0), None)
        number, reason = None, None
        if status:
            number, _, reason = errors.decode().rstrip("\n").removeprefix("polytwkb: record ").partition(": ")
            number = int(number) - 1
        if second is not None and (
            number is None or number > second + 1 or number == second + 1 and reason != "unknown kind"
        ):
            number, reason = second + 1, "more than one geometry"
        return Rows(rows, style, None, f"row {number}: {reason}") if number else Rows(rows, style, output or None)


def header_of(line):
    level, offset, kind, precision, metadata, length, points = line.split(" ")
    return int(level), int(offset), kind, int(precision), int(metadata, 16), int(length), int(points)


def row_of(depth, kind, identifier, precision, polyline):
    """The values of a row of a table. Kinds without points of their own have no polyline."""
    has_points = kind in ("point", "linestring", "ring")
    return (
        int(depth),
        kind,
        int(identifier) if identifier else None,
        int(precision) if precision else None,
        polyline if has_points else None,
    )


def some_value(chance):
    kind = chance.random()
    if kind < 0.03:
        return chance.choice((b"", any_bytes(chance)))
    count = 1 if kind < 0.9 else chance.choice((2, 2, 3))
    trees = [nested(chance, some_tree(chance)) if chance.random() < 0.1 else some_tree(chance) for _ in range(count)]
    spell = (free, free, lambda _, tree: canonical(tree, True), lambda _, tree: canonical(tree, False))
    value = b"".join(chance.choice(spell)(chance, tree) for tree in trees)
    if chance.random() < 0.35:
        value = stream_slip(chance, value)
    return value + any_bytes(chance) if chance.random() < 0.04 else value


# Values that a row may have by mistake.
SLIPS = (
    (None, -1, 0, 0, 1, 2, 3, 17, 999, 1000, 2**31 - 1, -(2**31)),
    (None, "", "Point", "pont", "ring", "ring", *KINDS),
    (None, None, 0, 7, -(2**63), 2**63 - 1),
    (None, None, -9, -8, 0, 7, 8, 128, 256, -128, -129, 2**31 - 1),
    (None, "", "A", "AA", "AC??", "_", "_?", " ", "é", "AA,", 'A"A', "~" * 13, "A\nA", "_" * 12 + "G?", "???"),
)


def some_rows(chance):
    """Rows of a geometry, now and then of several, with slips."""
    text = b"".join(rows_text(some_tree(chance)) for _ in range(chance.choice((1, 1, 1, 1, 1, 2))))
    rows = [list(row_of(*line.split(",", 4))) for line in text.decode().splitlines()]
    while chance.random() < 0.45:
        place = chance.randrange(len(rows))
        slip = chance.random()
        if slip < 0.6:
            column = chance.randrange(5)
            rows[place][column] = chance.choice(SLIPS[column])
        elif slip < 0.8:
            rows.insert(chance.randrange(len(rows) + 1), list(rows[place]))
        elif len(rows) > 1:
            rows.pop(place)
    # an outer join gives rows of five NULLs, which are no rows
    return [tuple(row) for row in rows if any(field is not None for field in row)] or [(0, "point", None, 0, None)]


def rows_within(name, *words):
    """Of a file of vectors the rows that begin with one of the words: the word, what is given, how many geometries are done, the output,
    and the line of a refusal; and whether they have other limits than the standard ones."""
    has_limits = False
    for line, printed in vectors.rows_of(name):
        word, _, given = line.partition(" ")
        if word == "limits":
            has_limits = given != "16 1048576 16777216"
        if word in words:
            done, output, refusal = re.fullmatch(rf"{word} (\d+) \d+ ?([^;]*)(?:; (.*))?", printed[0]).groups()
            yield word, given, int(done), output, refusal, has_limits


def fields_of(rows):
    """The rows of a text of vectors; None if one has other fields than values can be."""
    rows = [row.split(",") for row in rows.removeprefix("depth,kind,id,precision,polyline/").split("/") if row]
    try:
        rows = [row_of(*row) for row in rows] if all(len(row) == 5 for row in rows) else []
    except ValueError:
        return None
    bits = ((0, 31), (2, 63), (3, 31))
    return rows if all(-(2**bit) <= (row[column] or 0) < 2**bit for row in rows for column, bit in bits) else None


def written(asked):
    """The blobs and rows of tests/vectors and of PostGIS, with what these expect where they say it of one blob within the standard
    limits."""
    for _, given, done, output, refusal, has_limits in rows_within("streams", "unpack"):
        case = asked.value(bytes.fromhex(given))
        if not has_limits and refusal and done == 0:
            case = case._replace(fault=refusal)
        elif not has_limits and not refusal and done == 1:
            case = case._replace(fault=None, rows=fields_of(output))
        yield case
    for style, given, done, output, refusal, has_limits in rows_within("tables", "full", "plain"):
        rows = fields_of(given)
        if not rows:
            continue
        case = asked.packed(rows, style)
        if not has_limits and not refusal and done == 1:
            case = case._replace(blob=bytes.fromhex(output), fault=None)
        yield case
    for one in vectors.postgis():
        case = asked.value(bytes.fromhex(one["hex"]))
        yield case._replace(fault=None, rows=[row_of(*row.split(",", 4)) for row in one["rows"]])


def cases_of(count, seed):
    asked = Asked()
    cases = list(written(asked))
    chance = random.Random(seed)
    for number in range(count):
        cases.append(
            asked.value(some_value(chance))
            if number % 2
            else asked.packed(some_rows(chance), chance.choice(("full", "plain")))
        )
    return cases


def main(file, count="20000", seed="0"):
    cases = cases_of(int(count), seed)
    with open(file, "wb") as output:
        pickle.dump(cases, output)
    faults = sum(case.fault is not None for case in cases)
    print(f"{len(cases)} cases of the command, {faults} refused, seed {seed}")


if __name__ == "__main__":
    # by this name the programs that read the file know the cases
    sys.path.insert(0, HERE)
    import cases

    cases.main(*sys.argv[1:])
