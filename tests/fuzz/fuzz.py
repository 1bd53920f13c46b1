#!/usr/bin/env python3
"""Compares the built command with a second implementation of its formats, over random streams and tables.

fuzz.py [--cases N] [--seed S] [--processes P] [--only CASE] [--program FILE] [--library FILE]

A case is one input with one subcommand; case K of seed S is always the same. Where the library of tests/hostile/refuse.c
is given, half of the cases are read in pieces of a few bytes. Status 1 where a case differs.
"""
import os
import random
import re
import sys
import time

sys.path.insert(0, os.path.dirname(os.path.abspath(__file__)))

from blob import canonical, spelled_in
from fuzzing import MOST_FOUND, in_processes, report, words_of
from geometry import NEST, Geometry
from run_command import Command
from slips import announced, any_bytes, stream_slip, table_slip
from table import HEADER_LINE, named_by, rows_text, table_text
from trees import free, nested, some_tree

SECONDS_TO_SHORTEN = 20
PIECES = (1, 1, 2, 3, 4, 5, 7, 13, 63, 64, 4095, 4096)


def limit_words(chance):
    """The words that set the limit of nesting, and the limit."""
    if chance.random() < 0.6:
        return [], NEST
    nest = chance.choice((0, 1, 2, 3, 8, 15, 16, 17, 31, 32))
    return ["--max-nest", str(nest)], nest


def some_trees(chance):
    trees = [some_tree(chance) for _ in range(chance.choice((0, 1, 1, 2, 3, 8)))]
    return [nested(chance, tree) if chance.random() < 0.15 else tree for tree in trees]


def filler(chance):
    """Now and then some thousand bytes in front, so that a reader's room is used up at any place of what follows."""
    if chance.random() < 0.96:
        return []
    point = Geometry("point", chance.randint(-8, 7), None, [(chance.randint(-70, 70), chance.randint(-9000, 9000))])
    line = Geometry("linestring", 0, None, [(place, -place) for place in range(chance.randint(1000, 4500))])
    return chance.choice(([point] * chance.randint(700, 1100), [line]))


def some_stream(chance, nest):
    if chance.random() < 0.03:
        return any_bytes(chance)
    spell = (free, free, lambda _, tree: canonical(tree, True), lambda _, tree: canonical(tree, False))
    blobs = [chance.choice(spell)(chance, tree) for tree in some_trees(chance)]
    if blobs and chance.random() < 0.7:
        place = chance.randrange(len(blobs))
        blobs[place] = stream_slip(chance, blobs[place])
    if chance.random() < 0.03:
        blobs.insert(chance.randrange(len(blobs) + 1), announced(chance, nest))
    return b"".join([canonical(tree, True) for tree in filler(chance)] + blobs)


def some_table(chance):
    if chance.random() < 0.03:
        return any_bytes(chance)
    text = table_text(filler(chance) + some_trees(chance))
    return table_slip(chance, text) if chance.random() < 0.85 else text


class Case:
    """The words, the limit of nesting, the input and the pieces in which it is read, if it is."""

    def __init__(self, seed, number):
        chance = random.Random(f"{seed}:{number}")
        limit, self.nest = limit_words(chance)
        self.number = number
        if chance.random() < 0.5:
            style = chance.choice(([], ["--style", "full"], ["--style", "plain"]))
            self.words, self.source = ["pack", *style, *limit], some_table(chance)
        else:
            self.words, self.source = [chance.choice(("unpack", "show")), *limit], some_stream(chance, self.nest)
        self.piece = chance.choice(PIECES) if chance.random() < 0.5 else None


def expected(words, nest, source):
    """Status, output and standard error, by the second implementation."""
    if words[0] == "pack":
        geometries, fault = named_by(source, nest)
        output = b"".join(canonical(geometry, "plain" not in words) for geometry in geometries)
        return told(output, "polytwkb: record %d: %s\n", fault)
    geometries, lines, fault = spelled_in(source, nest)
    output = HEADER_LINE + b"".join(map(rows_text, geometries)) if words[0] == "unpack" else b"".join(lines)
    return told(output, "polytwkb: byte %d: %s\n", fault)


def told(output, line, fault):
    return (1, output, (line % fault).encode()) if fault else (0, output, b"")


class Comparing:
    """Runs cases, and compares."""

    def __init__(self, program, library):
        self.command, self.library = Command(os.path.abspath(program)), library
        self.found, self.ends = 0, {}

    def answer(self, case, source):
        if not self.library or not case.piece:
            return self.command.run(case.words, source)
        environment = {"LD_PRELOAD": os.path.abspath(self.library), "REFUSE": f"piece={case.piece}"}
        return self.command.run(case.words, source, environment)

    def differs(self, case, source):
        return self.answer(case, source) != expected(case.words, case.nest, source)

    def shortened(self, case):
        """A shorter input that differs too, by leaving out pieces, until the time for that is over."""
        source, size, start = case.source, max(len(case.source) // 2, 1), time.monotonic()
        while size:
            place = 0
            while place < len(source):
                if time.monotonic() - start > SECONDS_TO_SHORTEN:
                    return source
                shorter = source[:place] + source[place + size :]
                if self.differs(case, shorter):
                    source = shorter
                else:
                    place += size
            size //= 2
        return source

    def report(self, case):
        short = self.shortened(case)
        words = " ".join(case.words)
        print(f"case {case.number}: polytwkb {words} differs; read in pieces of {case.piece}; {len(case.source)} bytes")
        print(f"  shortened {short.hex(' ')}")
        print(f"  as text   {short!r}")
        print(f"  command   {self.answer(case, short)!r}")
        print(f"  expected  {expected(case.words, case.nest, short)!r}", flush=True)

    def compare(self, case):
        wanted = expected(case.words, case.nest, case.source)
        reason = wanted[2].decode().strip().split(": ", 2)[-1] or "ok"
        end = case.words[0] + " " + re.sub("polyline at .*: ", "polyline: ", reason)
        self.ends[end] = self.ends.get(end, 0) + 1
        if self.answer(case, case.source) != wanted:
            self.found += 1
            self.report(case)


def run_cases(arguments, numbers):
    """How many of these cases differ, and how often each end was met."""
    comparing = Comparing(arguments.program, arguments.library)
    for number in numbers:
        comparing.compare(Case(arguments.seed, number))
        if comparing.found == MOST_FOUND:
            break
    return comparing.found, comparing.ends


def main():
    top = os.path.join(os.path.dirname(os.path.abspath(__file__)), "../..")
    words = words_of(__doc__, 100000)
    words.add_argument("--program", default=os.path.join(top, "bin/polytwkb"))
    words.add_argument("--library", help="what lets the program read in pieces")
    arguments = words.parse_args()
    if arguments.only is not None:
        case = Case(arguments.seed, arguments.only)
        print(case.words, case.piece, case.source, expected(case.words, case.nest, case.source), sep="\n")
        return run_cases(arguments, [arguments.only])[0]
    print(f"fuzz: seed {arguments.seed}, {arguments.cases} cases", flush=True)
    start = time.monotonic()
    found, ends = in_processes(arguments, run_cases)
    return report("fuzz", arguments, start, found, ends)


if __name__ == "__main__":
    sys.exit(main())
