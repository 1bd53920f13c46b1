#!/usr/bin/env python3
"""The extension of PostgreSQL on the cases of cases.py, by psql, in one backend that each refusal leaves as it was.

    in_postgresql.py CASES

psql is connected by the variables of the environment, as examples/recipes/postgres.bash does it.
"""
import csv
import io
import json
import os
import pickle
import subprocess
import sys

sys.dont_write_bytecode = True
sys.path.insert(0, os.path.dirname(os.path.abspath(__file__)))

from answers import differing, exchanged, geojson_fault, ids_refused, shown
from cases import Rows
from wkb import REFUSED_WKB, TAKEN_WKB

csv.field_size_limit(2**30)

# The answer of a statement: its text, or its SQLSTATE and message.
SAID = """
CREATE FUNCTION said(statement text, value bytea, place int) RETURNS text LANGUAGE plpgsql AS $$
DECLARE answer text;
BEGIN
    EXECUTE statement INTO answer USING value, place;
    RETURN 'ok ' || coalesce(answer, 'null');
EXCEPTION WHEN OTHERS THEN RETURN SQLSTATE || ' ' || SQLERRM;
END $$;
"""
OF_VALUE = {
    "fault": "SELECT to_json(twkb_fault($1))",
    "rows": """SELECT json_agg(json_build_array(depth, kind, id, "precision", polyline)) FROM twkb_rows($1)""",
    "headers": """SELECT json_agg(json_build_array(level, "offset", kind, "precision", metadata, length, points)) FROM twkb_show($1)""",
    "polyline": "SELECT to_json(twkb_polyline($1))",
    "geojson": "SELECT to_json(twkb_geojson($1))",
    "wkb": "SELECT to_json(encode(twkb_wkb($1, 'drop'), 'hex'))",
    "ids": "SELECT to_json(encode(twkb_wkb($1), 'hex'))",
    "box": "SELECT json_build_array((b[1])[0], (b[0])[0], (b[1])[1], (b[0])[1]) FROM (SELECT twkb_box($1) AS b) AS box",
    "from_wkb": """SELECT to_json(encode(twkb_from_wkb(wkb, "precision"), 'hex')) FROM vals WHERE n = $2""",
}
PACKED = """SELECT to_json(encode(twkb_pack(depth, kind, id, "precision", polyline, style ORDER BY place), 'hex')) FROM given WHERE n = $2"""
BLOB_STATE, VALUE_STATE = "22P03", "22023"


class Session:
    """Statements that one backend runs, and what it writes."""

    def __init__(self):
        self.parts = []

    def put(self, text):
        self.parts.append(text if text.endswith("\n") else text + "\n")

    def table(self, name, rows):
        self.put(f"COPY {name} FROM STDIN (FORMAT csv, NULL '\\N');")
        text = io.StringIO()
        csv.writer(text, lineterminator="\n", quoting=csv.QUOTE_NONNUMERIC).writerows(rows)
        # NULL is what stands without quotes
        self.put(text.getvalue().replace('"\\N"', "\\N") + "\\.")

    def run(self):
        run = subprocess.run(
            ["psql", "-X", "-q", "-A", "-t", "-v", "ON_ERROR_STOP=1"],
            input="".join(self.parts),
            stdout=subprocess.PIPE,
            text=True,
            check=True,
        )
        return run.stdout


def field(value):
    return "\\N" if value is None else value


def bytea(value):
    return "\\x" + value.hex()


def wkb_given(case):
    """WKB of a case and its precision, if it comes back from it."""
    given = exchanged(case) and exchanged(case)[2]
    return (bytea(given[0]), given[1]) if given else ("\\N", "\\N")


def asked(cases):
    """What the functions say of the cases: by the number of the case and the name of the function."""
    session = Session()
    session.put("CREATE EXTENSION IF NOT EXISTS polytwkb;" + SAID)
    session.put('CREATE TABLE vals (n int PRIMARY KEY, value bytea, wkb bytea, "precision" int);')
    session.put(
        'CREATE TABLE given (n int, place int, depth int, kind text, id bigint, "precision" int, polyline text, style text);'
    )
    session.table(
        "vals",
        [(n, bytea(case.value), *wkb_given(case)) for n, case in enumerate(cases) if not isinstance(case, Rows)],
    )
    session.table(
        "given",
        [
            (n, place, *map(field, row), case.style)
            for n, case in enumerate(cases)
            if isinstance(case, Rows)
            for place, row in enumerate(case.rows)
        ],
    )
    session.put("CREATE INDEX ON given (n); ANALYZE given; SELECT 'pid', pg_backend_pid();")
    for name, statement in OF_VALUE.items():
        session.put(
            f"COPY (SELECT n, '{name}', said($s${statement}$s$, value, n) FROM vals ORDER BY n) TO STDOUT (FORMAT csv);"
        )
    session.put(
        f"COPY (SELECT n, 'packed', said($s${PACKED}$s$, NULL, n) FROM (SELECT DISTINCT n FROM given) g ORDER BY n) TO STDOUT (FORMAT csv);"
    )
    session.put("SELECT 'pid', pg_backend_pid();")
    answers, pids = {}, []
    for line in csv.reader(io.StringIO(session.run())):
        if line[0].startswith("pid"):
            pids.append(line[0])
        elif line:
            answers[int(line[0]), line[1]] = line[2]
    assert len(pids) == 2 and pids[0] == pids[1], pids
    return answers


def answer_of(text):
    """An answer as SQLite's would be: a value of JSON, or the message without its state."""
    if text == "ok null":
        return None
    return json.loads(text[3:]) if text.startswith("ok ") else text[6:]


def not_exchanged(case, found):
    """The functions of WKB and boxes whose answer is not that of the second implementation."""
    made, box, given = exchanged(case)
    expected = {"wkb": made.hex(), "ids": ids_refused(case) or made.hex(), "box": list(box or [None] * 4)}
    expected["from_wkb"] = given[2].hex() if given else None
    return [(name, found[name]) for name, answer in expected.items() if found[name] != answer]


def faults_of(case, n, answers):
    if isinstance(case, Rows):
        expected = f"{VALUE_STATE} polytwkb: {case.fault}" if case.fault else f'ok "{case.blob.hex()}"'
        return [] if answers[n, "packed"] == expected else [("twkb_pack", answers[n, "packed"])]
    said = {name: answers[n, name] for name in OF_VALUE}
    found = {name: answer_of(text) for name, text in said.items()}
    for name in ("rows", "headers"):
        if not isinstance(found[name], str):
            found[name] = [tuple(row) for row in found[name]]
    if not isinstance(found["polyline"], str) or not case.fault:
        found["polyline"] = [(found["polyline"],)]
    faults = differing(case, found)
    if case.fault:
        return faults + [
            (name, text)
            for name, text in said.items()
            if name not in ("fault", "from_wkb") and not text.startswith(BLOB_STATE)
        ]
    faults += not_exchanged(case, found) if exchanged(case) else []
    return faults + (
        geojson_fault(case, found["geojson"]) if said["geojson"].startswith("ok ") else [("geojson", said["geojson"])]
    )


TEXTS = {
    "SELECT twkb_fault(NULL)": "ok null",
    "SELECT twkb_fault('')": "ok byte 0: truncated",
    "SELECT twkb_fault('\\x010204'::text)": "42883 function twkb_fault(text) does not exist",
    "SELECT count(*) FROM twkb_rows(NULL)": "ok 0",
    "SELECT count(*) FROM twkb_show(NULL)": "ok 0",
    "SELECT twkb_rows('\\x0102020402')": "ok (0,point,,0,AC)",
    "SELECT twkb_show('\\x0102020402')": "ok (0,0,point,0,2,5,1)",
    "SELECT (twkb_rows(b)).polyline FROM (VALUES ('\\x0102020402'::bytea)) AS v (b)": "ok AC",
    "SELECT row(twkb_polyline(NULL), twkb_geojson(NULL), twkb_pack(NULL, 0, ''), twkb_pack('point', NULL, ''), twkb_pack('point', 0, NULL))": (
        "ok (,,,,)"
    ),
    "SELECT twkb_polyline('\\x011200')": "ok ",
    "SELECT twkb_polyline('\\x03031300080008020300000800070803020502000102')": "ok null",
    "SELECT twkb_polyline('\\xa20014')": "22P03 polytwkb: byte 3: truncated",
    "SELECT twkb_geojson('\\x01020204020')": "22023 invalid hexadecimal data: odd number of digits",
    "SELECT twkb_geojson('\\x010202040201')": "22P03 polytwkb: byte 5: bytes after the blob",
    "SELECT twkb_pack('point', 0, 'AC')": "ok \\x0102020402",
    "SELECT twkb_pack('polygon', 0, '')": "ok \\x031200",
    "SELECT twkb_pack('ring', 0, '')": "22023 polytwkb: kind not allowed there",
    "SELECT twkb_pack('rings', 0, '')": "22023 polytwkb: unknown kind",
    "SELECT twkb_pack('point', 8, 'AC')": "22023 polytwkb: bad precision",
    "SELECT twkb_pack('point', 256, 'AC')": "22023 polytwkb: bad precision",
    "SELECT twkb_pack('point', 0, 'ACA')": "22023 polytwkb: polyline at 3: latitude without longitude",
    "SELECT twkb_pack('polygon', 0, 'AC')": "22023 polytwkb: polyline not allowed",
    "SELECT twkb_pack(0, 'point', NULL, 0, 'AC') WHERE false": "ok null",
    "SELECT twkb_pack(NULL, NULL, NULL, NULL, NULL)": "ok null",
    "SELECT twkb_pack(0, 'point', 1, 0, 'AC')": "22023 polytwkb: row 1: id not allowed",
    "SELECT twkb_pack(0, 'point', NULL, 0, 'AC', 'short')": "22023 polytwkb: a style is 'full' or 'plain', the same for all rows",
    "SELECT twkb_pack(0, 'point', NULL, 0, 'AC', NULL)": "22023 polytwkb: a style is 'full' or 'plain', the same for all rows",
    "SELECT twkb_pack(0, 'point', NULL, 0, 'AC', s) FROM (VALUES ('full'), ('plain')) AS v (s)": (
        "22023 polytwkb: a style is 'full' or 'plain', the same for all rows"
    ),
    "SELECT twkb_pack_step(NULL, 0, 'point', NULL, 0, 'AC')": (
        "42883 function twkb_pack_step(unknown, integer, unknown, unknown, integer, unknown) does not exist"
    ),
    # an aggregate over a window reads its rows more than once
    "SELECT string_agg(b::text, ' ') FROM (SELECT twkb_pack(d, 'multipoint', NULL, 0, '') OVER (ORDER BY d) AS b FROM (VALUES (0)) AS v (d)) AS w": (
        "ok \\x041200"
    ),
    # rows of two groups at the same time
    "SELECT string_agg(b::text, ' ' ORDER BY k) FROM (SELECT k, twkb_pack(0, 'point', NULL, k, 'AC') AS b FROM generate_series(0, 2) AS k GROUP BY k) AS g": (
        "ok \\x0102020402 \\x2102020402 \\x4102020402"
    ),
    "SELECT count(*) FROM pg_proc p WHERE proname LIKE 'twkb%' AND (proparallel <> 's' OR (prokind = 'f' AND provolatile <> 'i'))": "ok 0",
    "SELECT string_agg(DISTINCT proname, ' ') FROM pg_proc WHERE proname LIKE 'twkb%' AND proisstrict": (
        "ok twkb_box twkb_fault twkb_from_wkb twkb_geojson twkb_pack twkb_polyline twkb_rows twkb_show twkb_wkb"
    ),
    "SELECT count(*) FROM pg_proc WHERE proname LIKE 'twkb%' AND obj_description(oid, 'pg_proc') IS NULL": "ok 0",
    "SELECT trusted FROM pg_available_extension_versions WHERE name = 'polytwkb'": "ok true",
    "SELECT json_build_object('g', twkb_geojson('\\x0102020402')::jsonb)": (
        'ok {"g" : {"type": "Point", "coordinates": [2, 1]}}'
    ),
    "SELECT twkb_box('\\x0102020402')": "ok (2,1),(2,1)",
    "SELECT twkb_box('\\x011200')": "ok null",
    "SELECT row(twkb_box(NULL), twkb_wkb(NULL), twkb_from_wkb(NULL, 5), twkb_from_wkb('', NULL))": "ok (,,,)",
    "SELECT twkb_wkb('\\x0102020402', 'keep')": "22023 polytwkb: ids are 'refuse' or 'drop'",
    "SELECT twkb_from_wkb('', 8)": "22023 polytwkb: bad precision",
    "SELECT twkb_from_wkb('', 5, 'none')": "22023 polytwkb: a style is 'full' or 'plain', the same for all rows",
    **{
        f"SELECT twkb_from_wkb('\\x{given}', 1)": f"{BLOB_STATE} polytwkb: {said}"
        for given, said in REFUSED_WKB.items()
    },
    **{
        f"SELECT encode(twkb_from_wkb('\\x{given}', 1, 'plain'), 'hex')": f"ok {made}"
        for given, made in TAKEN_WKB.items()
    },
}


def texts():
    """The number of statements whose answer is not the one that is written here."""
    session = Session()
    for place, statement in enumerate(TEXTS):
        session.put(f"COPY (SELECT {place}, said($s${statement}$s$, NULL, 0)) TO STDOUT (FORMAT csv);")
    found = 0
    for line, (statement, expected) in zip(csv.reader(io.StringIO(session.run())), TEXTS.items()):
        if line[1].split("\n")[0] != expected:
            found += 1
            print(f"{statement}: {line[1]!r}, not {expected!r}")
    return found


def main(cases):
    with open(cases, "rb") as source:
        cases = pickle.load(source)
    answers = asked(cases)
    found = 0
    for n, case in enumerate(cases):
        faults = faults_of(case, n, answers)
        found += bool(faults)
        if faults and found <= 5:
            print(shown(case, faults))
    found += texts()
    print(f"{len(cases)} cases in one backend and {len(TEXTS)} statements, {found} differ")
    return found > 0


if __name__ == "__main__":
    sys.exit(main(*sys.argv[1:]))
