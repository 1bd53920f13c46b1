#!/usr/bin/env python3
"""Counts the growths of measuring, writing and packing, by refusing one after another until none is refused; and those of the
command, and its reads, over a few geometries and over many.

growths.py PROGRAM REFUSE.SO COMMAND       PROGRAM is that of growths/main.rt.in
"""
import sys

from refusing import Refusing

NEST, POINTS = 32, 10000
HEADER_LINE = b"depth,kind,id,precision,polyline\n"
TABLE = (
    HEADER_LINE
    + b"".join(b"%d,collection,,0,\n" % depth for depth in range(NEST))
    + b"%d,linestring,,0," % NEST
    + b"AC" * POINTS
    + b"\n"
)

# Points, rows and ids at several depths: each list of a reader or a writer is used.
GEOMETRY = b"0,collection,,0,\n1,linestring,5,0,ACAC\n1,multipoint,6,0,\n2,point,7,,AC\n2,point,8,,AC\n1,polygon,9,0,\n2,ring,,,ACAC\n"
FEW, MANY = 2, 1000
HELD = 4096  # bytes that the readers of streams ask for at once


def growths_of(refusing, word):
    """How many growths there are, and which of them may be refused and change nothing."""
    borne, last = [], 0
    for number, _, (status, _, _) in refusing.in_turn([word], TABLE, "growth"):
        if number is None:
            return (last, borne) if status == 0 else (None, borne)
        if status == 0:
            borne.append(number)
        last = number
    raise SystemExit("growths: no run")


def counts_of(refusing, geometries):
    """The output of `pack` of a table of so many geometries, and the calls of each conversion of it and of that."""
    (_, stream, _), packing = refusing.run(["pack"], HEADER_LINE + GEOMETRY * geometries, "")
    return len(stream), {"pack": packing, **{word: refusing.run([word], stream, "")[1] for word in ("unpack", "show")}}


def rules_of_streams(refusing):
    """What is taken for a few geometries does for many, and bytes are read as many at once as a reader holds."""
    (_, few), (length, many) = counts_of(refusing, FEW), counts_of(refusing, MANY)
    for word in few:
        growths, reads = ([counts[word][kind] for counts in (few, many)] for kind in ("growth", "read"))
        print(f"{word} of {FEW} and of {MANY} geometries ({length} bytes): {growths} growths, {reads} reads")
    for word in few:
        yield f"{word}: no growth after the first {FEW} geometries", many[word]["growth"] == few[word]["growth"]
    for word in ("unpack", "show"):
        yield f"{word}: {HELD} bytes a read", length > HELD and many[word]["read"] <= length // HELD + 2


def main():
    refusing = Refusing(*sys.argv[1:3])
    answers = {word: growths_of(refusing, word) for word in ("read", "measure", "count", "pack")}
    counts = {word: count for word, (count, _) in answers.items()}
    print(f"growths below {NEST} collections, {POINTS} points: {counts}")
    if None in counts.values():
        raise SystemExit("growths: a run fails where nothing is refused")
    rules = {
        "each refused growth is told, but for one that all runs make for their words": all(
            borne == answers["read"][1] and len(borne) < 2 for _, borne in answers.values()
        ),
        "measuring makes at most one growth": counts["measure"] <= counts["read"] + 1,
        "counting the bytes of a blob makes none": counts["count"] == counts["measure"],
        "packing makes at most one more than reading": counts["pack"] <= counts["read"] + 1,
    }
    rules.update(rules_of_streams(Refusing(sys.argv[3], sys.argv[2])))
    for rule, holds in rules.items():
        print(f"{'ok  ' if holds else 'FAIL'}  {rule}")
    return not all(rules.values())


if __name__ == "__main__":
    sys.exit(main())
