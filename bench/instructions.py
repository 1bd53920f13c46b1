#!/usr/bin/env python3
"""Counts the instructions of both programs by `valgrind --tool=callgrind` on small tables, and names the functions that hold most of
them, with their instructions a row, or a point where a row has many. Steadier than times where other work runs. See beside_plain.sh."""
import os
import re
import subprocess
import sys

from users import CASES, PROGRAMS, WORDS

SIZE = 500_000
LINE_POINTS = 100_000
NAMED = 7

# From so many points a row on, functions are counted a point.
MANY = 5

# A line of callgrind_annotate: instructions, share, file and function, object.
FUNCTION = re.compile(r"^\s*([\d,]+) \(\s*[\d.]+%\)\s+\S*?:(\S.*?)(?: \[.*)?$", re.MULTILINE)


def profile_of(program, word, source, profile):
    """Instructions of one run, and those of the functions that hold most."""
    words = ["valgrind", "--tool=callgrind", f"--callgrind-out-file={profile}", program, word]
    with open(source, "rb") as reads:
        ended = subprocess.run(
            words, stdin=reads, stdout=subprocess.DEVNULL, stderr=subprocess.PIPE, check=True, text=True
        )
    listed = subprocess.run(["callgrind_annotate", profile], stdout=subprocess.PIPE, check=True, text=True).stdout
    functions = [(name, int(count.replace(",", ""))) for count, name in FUNCTION.findall(listed)]
    return int(re.search(r"Collected : (\d+)", ended.stderr).group(1)), functions[:NAMED]


def points_in(table):
    """A point has two numbers, each of which ends with a character below `_` and above `>`."""
    with open(table, "rb") as rows:
        polylines = [row.rstrip(b'"\n').rpartition(b",")[2].lstrip(b'"') for row in rows.readlines()[1:]]
    return sum(sum(63 <= character < 95 for character in polyline) for polyline in polylines) // 2


def name_functions(program, functions, rows, points):
    """One line: the functions and their instructions, without those that round to nothing."""
    unit, count = ("point", points) if points >= MANY * rows else ("row", rows)
    named = [f"{name} {held / count:.0f}" for name, held in functions if held >= count]
    return f"|   {program}, a {unit}: " + "; ".join(named)


def measure(programs, maker, folder, case):
    table, stream, profile = f"{folder}/counted.csv", f"{folder}/counted.twkb", f"{folder}/counted.profile"
    subprocess.run([maker, case, str(LINE_POINTS if case == "long_line" else SIZE), table], check=True)
    with open(table, "rb") as reads, open(stream, "wb") as writes:
        subprocess.run([programs["plain"], "pack"], stdin=reads, stdout=writes, check=True)
    with open(table, "rb") as reads:
        rows = sum(1 for _ in reads) - 1
    points = points_in(table)
    for word in WORDS:
        source = table if word == "pack" else stream
        (ours, our_functions), (plain, its_functions) = [
            profile_of(programs[name], word, source, profile) for name in PROGRAMS
        ]
        each = [f"{count / per:.0f}" for per in (rows, points) for count in (ours, plain)]
        print("| " + " | ".join([CASES[case].format(long="points"), word] + each + [f"{ours / plain:.2f}"]) + " |")
        print(name_functions("polytwkb", our_functions, rows, points))
        print(name_functions("plain", its_functions, rows, points), flush=True)
    for path in (table, stream, profile):
        os.remove(path)


def main():
    programs, maker, folder = dict(zip(PROGRAMS, sys.argv[1:3])), sys.argv[3], sys.argv[4]
    print(
        "| Table | Command | instructions a row | plain | a point | plain | over plain |\n|---|---|---|---|---|---|---|",
        flush=True,
    )
    for case in sys.argv[5:] or CASES:
        measure(programs, maker, folder, case)


if __name__ == "__main__":
    main()
