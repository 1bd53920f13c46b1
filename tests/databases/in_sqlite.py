#!/usr/bin/env python3
"""The extension of SQLite on the cases of cases.py, and on values that no case has.

    in_sqlite.py EXTENSION CASES [GEOJSON]

With GEOJSON it writes there a line for each blob, its hexadecimal digits and its GeoJSON, for geojson.mjs. Needs a Python
whose sqlite3 loads extensions, as Debian's does.
"""
import os
import pickle
import sqlite3
import struct
import sys

sys.dont_write_bytecode = True
sys.path.insert(0, os.path.dirname(os.path.abspath(__file__)))

import wkb
from answers import differing, exchanged, geojson_fault, ids_refused, shown
from cases import Rows
from wkb import REFUSED_WKB, TAKEN_WKB

PACK = "SELECT twkb_pack(depth, kind, id, precision, polyline, ?) FROM (SELECT * FROM given ORDER BY place)"


class Database:
    """A database in memory with the extension."""

    def __init__(self, extension):
        self.connection = sqlite3.connect(":memory:")
        self.connection.enable_load_extension(True)
        self.connection.load_extension(os.path.abspath(extension))
        self.connection.execute("CREATE TABLE given (place INTEGER PRIMARY KEY, depth, kind, id, precision, polyline)")

    def ask(self, statement, *values):
        """The rows of a statement, or its error as text."""
        try:
            return self.connection.execute(statement, values).fetchall()
        except sqlite3.Error as error:
            return str(error)

    def one(self, statement, *values):
        answer = self.ask(statement, *values)
        return answer if isinstance(answer, str) else answer[0][0]

    def of_value(self, value):
        """The answers of all functions of a blob."""
        return {
            "fault": self.one("SELECT twkb_fault(?)", value),
            "rows": self.ask("SELECT * FROM twkb_rows(?)", value),
            "headers": self.ask("SELECT * FROM twkb_show(?)", value),
            "polyline": self.ask("SELECT twkb_polyline(?)", value),
            "geojson": self.ask("SELECT twkb_geojson(?)", value),
        }

    def not_exchanged(self, case):
        """The functions of WKB and boxes whose answer is not that of the second implementation, with it."""
        made, box, given = exchanged(case)
        asked = {
            "wkb": (self.one("SELECT twkb_wkb(?, 'drop')", case.value), made),
            "ids": (self.one("SELECT twkb_wkb(?)", case.value), ids_refused(case) or made),
            "box": (self.ask("SELECT minx, maxx, miny, maxy FROM twkb_box(?)", case.value), [box] if box else []),
        }
        if given:
            asked["from_wkb"] = (self.one("SELECT twkb_from_wkb(?, ?)", *given[:2]), given[2])
        return [(name, answer) for name, (answer, expected) in asked.items() if answer != expected]

    def packed(self, rows, style):
        self.connection.execute("DELETE FROM given")
        self.connection.executemany("INSERT INTO given VALUES (NULL, ?, ?, ?, ?, ?)", rows)
        return self.ask(PACK, style)


def compared(database, cases, geojson):
    """The number of cases that differ."""
    found = 0
    for case in cases:
        if isinstance(case, Rows):
            answer, expected = database.packed(case.rows, case.style), [(case.blob,)]
            faults = (
                [] if answer == (f"polytwkb: {case.fault}" if case.fault else expected) else [("twkb_pack", answer)]
            )
        else:
            answers = database.of_value(case.value)
            faults = differing(case, answers)
            if not case.fault and isinstance(answers["geojson"], str):
                faults.append(("geojson", answers["geojson"]))
            elif not case.fault:
                text = answers["geojson"][0][0]
                faults += geojson_fault(case, text)
                geojson.write(f"{case.value.hex()} {text}\n")
                faults += database.not_exchanged(case) if exchanged(case) else []
        found += bool(faults)
        if faults and found <= 5:
            print(shown(case, faults))
    return found


MULTIPOINT = "(VALUES (0, 'multipoint', 0, NULL), (1, 'point', NULL, 'AC'))"
HAS_EXTENDED = 8  # a bit of the metadata byte
TEXTS = {
    "SELECT twkb_fault(NULL)": [(None,)],
    "SELECT twkb_fault('abc'), twkb_fault(1), twkb_fault(1.5)": [
        ("a text in place of a blob", "an integer in place of a blob", "a float in place of a blob")
    ],
    "SELECT twkb_fault(x'')": [("byte 0: truncated",)],
    "SELECT twkb_fault(zeroblob(5000000))": [("byte 0: unknown type",)],
    "SELECT * FROM twkb_rows(NULL)": [],
    "SELECT * FROM twkb_show(NULL)": [],
    "SELECT * FROM twkb_rows('abc')": "polytwkb: a text in place of a blob",
    "SELECT * FROM twkb_show(7)": "polytwkb: an integer in place of a blob",
    "SELECT * FROM twkb_rows": "polytwkb: a blob is missing: it is the argument",
    "SELECT hex(blob), kind FROM twkb_rows(x'0102020402') WHERE blob = x'0102020402'": [("0102020402", "point")],
    "SELECT hex(blob) FROM twkb_show(x'0102020402')": [("0102020402",)],
    "SELECT hex(blob), minx FROM twkb_box(x'0102020402')": [("0102020402", 2.0)],
    "SELECT * FROM twkb_rows(x'0102020402', 1)": "too many arguments on twkb_rows() - max 1",
    "SELECT twkb_polyline(NULL), twkb_geojson(NULL), twkb_pack(NULL, 0, ''), twkb_pack('point', NULL, ''), twkb_pack('point', 0, NULL)": [
        (None,) * 5
    ],
    "SELECT twkb_polyline('AC')": "polytwkb: a text in place of a blob",
    "SELECT twkb_polyline(x'0102020402')": [("AC",)],
    "SELECT twkb_polyline(x'011200')": [("",)],
    "SELECT twkb_polyline(x'03031300080008020300000800070803020502000102')": [(None,)],
    "SELECT twkb_geojson(x'a20014')": "polytwkb: byte 3: truncated",
    "SELECT hex(twkb_pack('point', 0, 'AC'))": [("0102020402",)],
    "SELECT hex(twkb_pack('polygon', 0, ''))": [("031200",)],
    "SELECT twkb_pack('ring', 0, '')": "polytwkb: kind not allowed there",
    "SELECT twkb_pack('rings', 0, '')": "polytwkb: unknown kind",
    "SELECT twkb_pack(x'706f696e74', 0, 'AC')": "polytwkb: unknown kind",
    "SELECT twkb_pack('point', 8, 'AC')": "polytwkb: bad precision",
    "SELECT twkb_pack('point', 256, 'AC')": "polytwkb: bad precision",
    "SELECT twkb_pack('point', '0', 'AC')": "polytwkb: bad precision",
    "SELECT twkb_pack('point', 0.0, 'AC')": "polytwkb: bad precision",
    "SELECT twkb_pack('point', 9223372036854775807, 'AC')": "polytwkb: bad precision",
    "SELECT twkb_pack('point', 0, 'ACA')": "polytwkb: polyline at 3: latitude without longitude",
    "SELECT twkb_pack('point', 0, 'A' || char(0) || 'C')": "polytwkb: polyline at 1: bad character",
    "SELECT twkb_pack('polygon', 0, 'AC')": "polytwkb: polyline not allowed",
    "SELECT twkb_pack('point', 0, x'4143')": "polytwkb: a polyline is a text",
    "SELECT twkb_pack('point', 0, 7)": "polytwkb: a polyline is a text",
    "SELECT twkb_pack(0, 'point', NULL, 0, 'AC') WHERE 0": [(None,)],
    "SELECT twkb_pack(NULL, NULL, NULL, NULL, NULL)": [(None,)],
    "SELECT twkb_pack('0', 'point', NULL, 0, 'AC')": "polytwkb: row 1: bad depth",
    "SELECT twkb_pack(0, 'point', 'x', 0, 'AC')": "polytwkb: row 1: bad id",
    "SELECT twkb_pack(0, 'point', 1, 0, 'AC')": "polytwkb: row 1: id not allowed",
    "SELECT twkb_pack(0, 'point', NULL, 0, 'AC', 'short')": "polytwkb: a style is 'full' or 'plain', the same for all rows",
    "SELECT twkb_pack(0, 'point', NULL, 0, 'AC', NULL)": "polytwkb: a style is 'full' or 'plain', the same for all rows",
    "SELECT twkb_pack(0, 'point', NULL, 0, 'AC', column1) FROM (VALUES ('full'), ('plain'))": (
        "polytwkb: a style is 'full' or 'plain', the same for all rows"
    ),
    # JSON inside JSON is no text, as of SQLite's own functions
    "SELECT json_object('geometry', twkb_geojson(x'0102020402'))": [
        ('{"geometry":{"type":"Point","coordinates":[2,1]}}',)
    ],
    "SELECT json_array(twkb_geojson(x'0102020402'), NULL, json('[1]'))": [
        ('[{"type":"Point","coordinates":[2,1]},null,[1]]',)
    ],
    # a window that begins at the first row, and one that does not
    f"SELECT hex(twkb_pack(column1, column2, NULL, column3, column4, 'plain') OVER (ROWS UNBOUNDED PRECEDING)) FROM {MULTIPOINT}": [
        ("0410",),
        ("0400010402",),
    ],
    f"SELECT hex(twkb_pack(column1, column2, NULL, column3, column4, 'plain') OVER ()) FROM {MULTIPOINT}": [
        ("0400010402",),
        ("0400010402",),
    ],
    f"SELECT twkb_pack(column1, column2, NULL, column3, column4) OVER (ROWS 0 PRECEDING) FROM {MULTIPOINT}": (
        "polytwkb: a window of twkb_pack begins at the first row of its partition"
    ),
    "SELECT * FROM twkb_box(NULL)": [],
    "SELECT * FROM twkb_box(x'011200')": [],
    "SELECT * FROM twkb_box('abc')": "polytwkb: a text in place of a blob",
    "SELECT * FROM twkb_box": "polytwkb: a blob is missing: it is the argument",
    "SELECT twkb_wkb(NULL), twkb_wkb(NULL, 'drop'), twkb_from_wkb(NULL, 5), twkb_from_wkb(x'00', NULL)": [(None,) * 4],
    "SELECT twkb_wkb(7)": "polytwkb: an integer in place of a blob",
    "SELECT twkb_wkb(x'0102020402', 'keep')": "polytwkb: ids are 'refuse' or 'drop'",
    "SELECT twkb_wkb(x'0102020402', NULL)": "polytwkb: ids are 'refuse' or 'drop'",
    "SELECT twkb_from_wkb('abc', 5)": "polytwkb: a text in place of a blob",
    "SELECT twkb_from_wkb(x'00', 8)": "polytwkb: bad precision",
    "SELECT twkb_from_wkb(x'00', 5.0)": "polytwkb: bad precision",
    "SELECT twkb_from_wkb(x'00', 5, 'none')": "polytwkb: a style is 'full' or 'plain', the same for all rows",
    **{f"SELECT twkb_from_wkb(x'{given}', 1)": f"polytwkb: {said}" for given, said in REFUSED_WKB.items()},
    **{f"SELECT hex(twkb_from_wkb(x'{given}', 1, 'plain'))": [(made.upper(),)] for given, made in TAKEN_WKB.items()},
    "SELECT twkb_pack()": "wrong number of arguments to function twkb_pack()",
}


def texts(database):
    """The number of statements whose answer is not the one that is written here."""
    found = 0
    for statement, expected in TEXTS.items():
        answer = database.ask(statement)
        if answer != expected:
            found += 1
            print(f"{statement}: {answer!r}, not {expected!r}")
    return found


def suits_spatialite(tree):
    """Whether SpatiaLite 5.0.1 reads it as we do. It divides by negative precisions, drops empty members, takes an extended
    byte for heights, and ends its process at a ring without points."""
    if tree.kind == "collection" or tree.precision < 0 or not tree.members:
        return False
    lines = {"linestring": [tree.members], "multilinestring": tree.members}.get(tree.kind, [])
    polygons = {"polygon": [tree.members], "multipolygon": tree.members}.get(tree.kind, [])
    return all(len(line) > 1 for line in lines) and all(
        polygon and all(len(ring) > 3 and ring[0] == ring[-1] for ring in polygon) for polygon in polygons
    )


def beside_spatialite(database, cases):
    """WKB of SpatiaLite, of the same blobs, and of our WKB."""
    try:
        database.connection.load_extension("mod_spatialite")
    except sqlite3.Error as error:
        print(f"skip  SpatiaLite: {error}")
        return 0
    compared, found = 0, 0
    statement = "SELECT AsBinary(GeomFromTWKB(?1)), AsBinary(GeomFromWKB(twkb_wkb(?1, 'drop'))), twkb_wkb(?1, 'drop')"
    for case in cases:
        if isinstance(case, Rows) or case.fault or not wkb.is_exact(case.tree):
            continue
        if case.headers[0][4] & HAS_EXTENDED or not suits_spatialite(case.tree):
            continue
        of_twkb, of_wkb, ours = database.ask(statement, case.value)[0]
        compared += (of_twkb is not None) + (of_wkb is not None)
        faults = [("SpatiaLite", made) for made in (of_twkb, of_wkb) if made not in (None, ours)]
        found += bool(faults)
        if faults and found <= 5:
            print(shown(case, faults + [("twkb_wkb", ours)]))
    print(f"{compared} answers of SpatiaLite, {found} differ")
    return found


def in_tables(database):
    """A CHECK, an index over a function, which must be deterministic, a transaction that is as before, and a view."""
    ask = database.ask
    for statement in (
        "CREATE TABLE kept (b BLOB CHECK (twkb_fault(b) IS NULL))",
        "CREATE INDEX kinds ON kept (twkb_polyline(b))",
        "CREATE VIEW rows AS SELECT r.* FROM kept, twkb_rows(kept.b) AS r",
        "INSERT INTO kept VALUES (x'0102020402'), (NULL), (x'021200')",
    ):
        assert ask(statement) == [], (statement, ask(statement))
    for bad in ("x'01020204'", "x'010202040200'", "x''", "'0102020402'", "7"):
        assert ask(f"INSERT INTO kept VALUES (x'011200'), ({bad})").startswith("CHECK constraint failed"), bad
    assert ask("SELECT count(*) FROM kept") == [(3,)]
    assert ask("SELECT kind, polyline FROM rows") == [("point", "AC"), ("linestring", "")]
    # each table-valued function in the other's place, and a join in which the blob comes last
    assert ask("SELECT count(*) FROM twkb_rows(b) AS r, kept") == [(2,)]
    assert ask("SELECT s.length FROM kept JOIN twkb_show(kept.b) AS s ON s.level = 0 WHERE s.kind = 'point'") == [(5,)]
    again = "SELECT twkb_pack(depth, kind, id, precision, polyline) FROM twkb_rows(x'0102020402')"
    assert ask(f"SELECT hex(({again}))") == [("0102020402",)]
    grouped = "SELECT k.rowid, hex(twkb_pack(r.depth, r.kind, r.id, r.precision, r.polyline)) FROM kept k LEFT JOIN twkb_rows(k.b) r GROUP BY 1"
    assert ask(grouped) == [(1, "0102020402"), (2, ""), (3, "021200")], ask(grouped)


def in_index(database):
    """Boxes in an R*Tree that a trigger keeps, and a query that goes through it."""
    ask = database.ask
    for statement in (
        "CREATE TABLE routes (id INTEGER PRIMARY KEY, twkb BLOB)",
        "CREATE VIRTUAL TABLE boxes USING rtree(id, minx, maxx, miny, maxy)",
        "CREATE TRIGGER added AFTER INSERT ON routes BEGIN "
        "INSERT INTO boxes SELECT new.id, b.minx, b.maxx, b.miny, b.maxy FROM twkb_box(new.twkb) AS b; END",
    ):
        assert ask(statement) == [], (statement, ask(statement))
    for number in range(1000):
        ask(
            "INSERT INTO routes VALUES (?, twkb_from_wkb(?, 5))",
            number,
            struct.pack("<BIdd", 1, 1, number % 50, number // 50),
        )
    assert ask("INSERT INTO routes VALUES (5000, x'011200'), (5001, NULL)") == []
    query = "SELECT id FROM boxes JOIN routes USING (id) WHERE minx <= 7.5 AND maxx >= 6.5 AND miny <= 3 AND maxy >= 2 ORDER BY id"
    assert ask(query) == [(107,), (157,)], ask(query)
    plan = " ".join(row[3] for row in ask("EXPLAIN QUERY PLAN " + query))
    assert "SCAN boxes VIRTUAL TABLE INDEX 2:" in plan and "SEARCH routes USING INTEGER PRIMARY KEY" in plan, plan


def main(extension, cases, geojson=os.devnull):
    database = Database(extension)
    with open(cases, "rb") as source:
        cases = pickle.load(source)
    with open(geojson, "w", encoding="ascii") as output:
        found = compared(database, cases, output)
    found += texts(database)
    in_tables(database)
    in_index(database)
    found += beside_spatialite(database, cases)
    print(f"{len(cases)} cases and {len(TEXTS)} statements, {found} differ")
    return found > 0


if __name__ == "__main__":
    sys.exit(main(*sys.argv[1:]))
