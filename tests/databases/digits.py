#!/usr/bin/env python3
"""Blobs as digits in a column of a CSV, from `pack --hex` into a database, and out of it to `unpack --hex`.

    digits.py postgresql
    digits.py sqlite EXTENSION

psql is connected by the variables of the environment, as examples/recipes/postgres.bash does it; for SQLite the shell
`sqlite3` runs. Blobs, and what the stream of `pack --column` is cut into, are those of the second implementation.
"""
import json
import os
import random
import subprocess
import sys
import tempfile
from typing import NamedTuple, Optional

sys.dont_write_bytecode = True
REPO = os.path.join(os.path.dirname(os.path.abspath(__file__)), "..", "..")
sys.path.insert(0, os.path.join(REPO, "tests", "fuzz"))

import blob
import polyline
from geometry import LEAST, MOST, Geometry

COMMAND = os.path.join(REPO, "bin", "polytwkb")
RECORDS = 600
NAMES = ["key", "geom", "note"]
MISSING = ("", "NULL", "NA")  # the empty field, and a word for each --null
NULLS = ("--null", "NULL", "--null", "NA")
# At precision 0 and without sizes digits may look like a number, such as 0200010204, of which no database may make one.
STYLES = ((5, "full"), (0, "plain"))
NOTES = (
    "",
    "",
    "Bern",
    " blanks ",
    "at night, on Sundays",
    'a "stop"',
    '"',
    '""',
    ",",
    "two\nlines",
    "two\r\nlines\n",
    "NULL",
    "\\N",
    "\\x0102",
    "it's",
    "Zürich → Genève",
)


class Record(NamedTuple):
    """A record of the CSV: three texts, and the points of the second, or None for a missing value."""

    key: str
    geom: str
    note: str
    points: Optional[list]


def some_points(chance):
    """Points of a line in units: steps as of a route, and now and then coordinates at the edges of the range."""
    if chance.random() < 0.05:
        edges = (LEAST, MOST, 0, -1, 2**31, 2**53 + 1)
        return [(chance.choice(edges), chance.choice(edges)) for _ in range(chance.choice((1, 2, 5)))]
    x, y, points = chance.randint(-(10**7), 10**7), chance.randint(-(10**7), 10**7), []
    for _ in range(chance.choice((1, 2, 3, 10, 40, 2000))):
        x, y = x + chance.randint(-900, 900), y + chance.randint(-900, 900)
        points.append((x, y))
    return points


def records_of(seed):
    """Random records, after small ones: some whose digits have no letter, and each missing value."""
    chance = random.Random(seed)
    lines = [[(2, 1)], [(0, 0)], [(10, 20), (30, 41)]]
    records = []
    for number in range(RECORDS):
        points = lines[number] if number < len(lines) else some_points(chance)
        geom = polyline.encode(points).decode()
        missing = number - len(lines)
        if missing >= 0 and (missing < len(MISSING) or chance.random() < 0.15):
            points, geom = None, MISSING[missing % len(MISSING)]
        key = chance.choice((f"{number}", f"N{number}, at night", f'"{number}"', f"0{number}"))
        records.append(Record(key, geom, chance.choice(NOTES), points))
    return records


def spelled(field, is_quoted=False):
    """A field of RFC 4180, with quotes if it needs them or is to have them."""
    needs = any(mark in field for mark in ',"\r\n')
    return '"' + field.replace('"', '""') + '"' if needs or is_quoted else field


def written(records, chance=None):
    """The CSV of records as they are, with quotes and line ends by chance; or, without one, as the command writes it,
    with quotes where they are needed, and missing values empty."""
    lines = [",".join(NAMES) + "\n"]
    for key, geom, note, points in records:
        geom = geom if chance or points else ""
        fields = [spelled(field, chance and chance.random() < 0.3) for field in (key, geom, note)]
        lines.append(",".join(fields) + (chance.choice(("\n", "\r\n")) if chance else "\n"))
    return "".join(lines).encode()


def run(words, source=b""):
    """What a program writes; it must end with status 0, and write no error."""
    done = subprocess.run(words, input=source, capture_output=True)
    if done.returncode or done.stderr:
        raise SystemExit(f"{words}: status {done.returncode}, {done.stderr.decode()!r}")
    return done.stdout


def packed(precision, style, *words):
    given = ("--column", "geom", "--precision", str(precision), "--style", style)
    return [COMMAND, "pack", *given, *NULLS, *words]


def unpacked(source):
    return run([COMMAND, "unpack", "--column", "geom", "--hex"], source)


def cut(stream):
    """The blobs of a stream, by the second implementation, which finds no fault in them."""
    blobs, start = [], 0
    while start < len(stream):
        items, stop = blob.items_of(stream, start)
        assert not stop and not blob.faults_of(items, 16), (start, stop)
        blobs.append(stream[start : items[-1].end])
        start = items[-1].end
    return blobs


def blobs_of(records, source, precision, style):
    """The blob of each record, or None of a missing value: of its points, and of the stream of the CSV too."""
    made = cut(run(packed(precision, style), source))
    trees = [Geometry("linestring", precision, None, one.points or []) for one in records]
    assert made == [blob.canonical(tree, style == "full") for tree in trees], "the stream has other blobs"
    return [one if record.points else None for one, record in zip(made, records)]


def same(database, rows, expected):
    """Compares what a database has with what it must have, row by row."""
    rows = [json.loads(line) for line in rows.decode().splitlines()]
    for found, wanted in zip(rows, expected):
        assert found == wanted, f"{database} has {str(found)[:300]}, not {str(wanted)[:300]}"
    assert len(rows) == len(expected), f"{database} has {len(rows)} rows of {len(expected)}"


class PostgreSQL:
    """The server, through psql. COPY reads an empty field without quotes as NULL, and writes NULL so."""

    def ask(self, statement, source=b""):
        return run(["psql", "-X", "-q", "-A", "-t", "-v", "ON_ERROR_STOP=1", "-c", statement], source)

    def compared(self, records, source, precision, style):
        blobs = blobs_of(records, source, precision, style)
        self.ask("DROP TABLE IF EXISTS loaded")
        self.ask("CREATE TABLE loaded (n serial, key text, geom bytea CHECK (twkb_fault(geom) IS NULL), note text)")
        digits = run(packed(precision, style, "--hex"), source)
        self.ask("COPY loaded (key, geom, note) FROM STDIN (FORMAT csv, HEADER)", digits)
        rows = self.ask(
            "SELECT json_build_array(key, length(geom), encode(geom, 'hex'), twkb_fault(geom), twkb_polyline(geom),"
            " note) FROM loaded ORDER BY n"
        )
        expected = [
            [key, made and len(made), made and made.hex(), None, geom if made else None, note or None]
            for (key, geom, note, _), made in zip(records, blobs)
        ]
        same("PostgreSQL", rows, expected)
        out = self.ask("COPY (SELECT key, geom, note FROM loaded ORDER BY n) TO STDOUT (FORMAT csv, HEADER)")
        assert unpacked(out) == written(records), "the CSV of COPY comes back otherwise"

    def alone(self):
        """A column alone: an empty field has quotes there, of which COPY makes no NULL, unless it is told to, but a value of
        no bytes. It writes this as digits of no blob."""
        digits = run(packed(0, "plain", "--hex"), b'geom\n""\nAC\nNA\n')
        made = blob.canonical(Geometry("linestring", 0, None, [(2, 1)]), False)
        for force, empty in (("", [0, "byte 0: truncated"]), (", FORCE_NULL (geom)", [None, None])):
            self.ask("DROP TABLE IF EXISTS alone")
            self.ask("CREATE TABLE alone (n serial, geom bytea)")
            self.ask(f"COPY alone (geom) FROM STDIN (FORMAT csv, HEADER{force})", digits)
            rows = self.ask("SELECT json_build_array(length(geom), twkb_fault(geom)) FROM alone ORDER BY n")
            same("PostgreSQL", rows, [empty, [len(made), None], empty])
        out = self.ask("COPY (SELECT ''::bytea AS geom) TO STDOUT (FORMAT csv, HEADER)")
        done = subprocess.run([COMMAND, "unpack", "--column", "geom", "--hex"], input=out, capture_output=True)
        refused = (1, b"polytwkb: record 2: byte 0: no hexadecimal digits\n")
        assert (done.returncode, done.stderr) == refused, (out, done)

    def main(self, records, source):
        for precision, style in STYLES:
            self.compared(records, source, precision, style)
        self.alone()
        return "COPY"


# How digits of a column become blobs of another: by a literal in a statement for each row, which SQLite itself writes,
# and by its function, from 3.41 on.
BY_LITERALS = (
    "SELECT 'UPDATE loaded SET twkb = x''' || geom || ''' WHERE rowid = ' || rowid || ';' FROM loaded WHERE geom <> ''"
)
BY_UNHEX = "UPDATE loaded SET twkb = unhex(geom) WHERE geom <> ''"


class SQLite:
    """The shell of SQLite, with the extension, over a file of its own."""

    def __init__(self, extension):
        self.extension = os.path.abspath(extension)
        self.folder = tempfile.TemporaryDirectory()
        self.digits = os.path.join(self.folder.name, "digits.csv")
        probe = ["sqlite3", "-batch", ":memory:", "SELECT unhex('00')"]
        self.has_unhex = subprocess.run(probe, capture_output=True).returncode == 0

    def ask(self, *statements, words=(), source=b""):
        file = os.path.join(self.folder.name, "my.db")
        given = ["sqlite3", "-batch", "-bail", *words, "-cmd", f".load {self.extension}", file]
        return run([*given, *statements], source)

    def loaded(self, by_unhex):
        self.ask("DROP TABLE IF EXISTS loaded", f".import --csv {self.digits} loaded")
        self.ask("ALTER TABLE loaded ADD COLUMN twkb BLOB CHECK (twkb_fault(twkb) IS NULL)")
        if by_unhex:
            self.ask(BY_UNHEX)
        else:
            self.ask(source=b"BEGIN;\n" + self.ask(BY_LITERALS) + b"COMMIT;\n")

    def compared(self, records, source, precision, style):
        blobs = blobs_of(records, source, precision, style)
        with open(self.digits, "wb") as file:
            file.write(run(packed(precision, style, "--hex=bare"), source))
        expected = [
            [key, made and len(made), made.hex() if made else "", None, geom if made else None, note]
            for (key, geom, note, _), made in zip(records, blobs)
        ]
        for by_unhex in (False, True)[: 1 + self.has_unhex]:
            self.loaded(by_unhex)
            rows = self.ask(
                "SELECT json_array(key, length(twkb), lower(hex(twkb)), twkb_fault(twkb), twkb_polyline(twkb), note)"
                " FROM loaded ORDER BY rowid"
            )
            same("SQLite", rows, expected)
            asked = "SELECT key, hex(twkb) AS geom, note FROM loaded ORDER BY rowid"
            out = self.ask(asked, words=("-csv", "-header"))
            assert unpacked(out) == written(records), "the CSV of SQLite comes back otherwise"

    def main(self, records, source):
        for precision, style in STYLES:
            self.compared(records, source, precision, style)
        return "literals and unhex" if self.has_unhex else "literals; this SQLite has no unhex"


def main(name, *words):
    database = {"postgresql": PostgreSQL, "sqlite": SQLite}[name](*words)
    records = records_of("digits")
    way = database.main(records, written(records, random.Random("spelling")))
    missing = sum(one.points is None for one in records)
    print(f"{RECORDS} records, {missing} without a value, in {len(STYLES)} styles, by {way}")


if __name__ == "__main__":
    main(*sys.argv[1:])
