#!/usr/bin/env python3
"""Lists the files, functions and lines of crates/ that are too long; status 1 if there are any.

    scripts/too_long.py

A function is counted from its `fn` line to its closing brace, with its clauses. EXCEPTIONS has what may be longer.
"""
import glob
import re
import sys

from pages import REPO, report, text_of

FILE_MOST, PROOFS_MOST, FUNCTION_MOST, WIDTH_MOST = 350, 800, 40, 120
FUNCTION = re.compile(r"\s*(pub(\([a-z]+\))? )?(const )?(unsafe )?(extern \"C\" )?fn (\w+)")
CLAUSE = re.compile(r"\s*(requires|ensures)\b")
EXCEPTIONS = {
    "crates/twkb_grammar/src/samples.rt": "blobs that are written out",
    "crates/workloads/src/main.rt": "the crate stays as it is",
    "crates/workloads/src/digest.rt": "the crate stays as it is",
    "crates/twkb_body/src/laws.rt:reading": "one law, whose clauses are the answers by cases",
    "crates/twkb_table/src/row_reader.rt:read_row": "one row, whose ends are clauses of one call",
}


def ends_at(lines, start):
    """The place of the line that ends the function of a `fn` line; None if it has no body, or one on that line."""
    indent = " " * (len(lines[start]) - len(lines[start].lstrip()))
    for place in range(start, len(lines)):
        line = lines[place].rstrip()
        if line.endswith(";") or line == f"{indent}}}":
            return None
        if line == f"{indent}{{" or line.endswith("{") and not CLAUSE.match(line):
            return next(end for end in range(place + 1, len(lines)) if lines[end].rstrip() == f"{indent}}}")
    return None


def faults_of(path):
    """What is too long in a file: its place, how long it is, and the limit."""
    lines = text_of(path).rstrip("\n").split("\n")
    most = PROOFS_MOST if "/proofs/" in path else FILE_MOST
    if len(lines) > most:
        yield f"{path}: {len(lines)} lines, {most} at most"
    for place, line in enumerate(lines):
        if len(line) > WIDTH_MOST:
            yield f"{path}:{place + 1}: {len(line)} columns, {WIDTH_MOST} at most"
        function = path.endswith(".rt") and FUNCTION.match(line)
        end = ends_at(lines, place) if function else None
        if end is not None and end - place >= FUNCTION_MOST and f"{path}:{function.group(6)}" not in EXCEPTIONS:
            yield f"{path}:{place + 1}: {function.group(6)} has {end - place + 1} lines, {FUNCTION_MOST} at most"


def main():
    """How many things are too long, each reported on standard output."""
    patterns = ("src/**/*.rt", "specs/**/*.antt", "proofs/**/*.antt")
    found = [glob.glob(f"crates/*/{pattern}", root_dir=REPO, recursive=True) for pattern in patterns]
    paths = sorted(sum(found, []))
    faults = [fault for path in paths if path not in EXCEPTIONS for fault in faults_of(path)]
    return report(f"crates/: {len(paths)} files, what is too long", faults)


if __name__ == "__main__":
    sys.exit(1 if main() else 0)
