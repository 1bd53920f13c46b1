#!/usr/bin/env python3
"""Times of the command through Node beside those of the program, by turns:

    js/tests/command_times.py [PROGRAM [MEGABYTES [ROUNDS]]]

Of tables of lines, of single points and of collections: the least processor time and wall time of each of pack, unpack
and show from a file to a file, and how many times that of the program the command takes.
"""
import os
import random
import subprocess
import sys
import tempfile
import time

COMMAND = os.path.join(os.path.dirname(os.path.abspath(__file__)), "..", "command", "polytwkb.js")


def spelled(number):
    number, text = 2 * number if number >= 0 else -2 * number - 1, ""
    while number >= 32:
        text, number = text + chr(32 + number % 32 + 63), number // 32
    return text + chr(number + 63)


def line_of(count):
    first = spelled(random.randrange(4600000, 4700000)) + spelled(random.randrange(700000, 800000))
    return first + "".join(spelled(random.randrange(-100, 100)) for _ in range(2 * count - 2))


ROWS = {
    "lines of 1,000 points": lambda: f"0,linestring,,5,{line_of(1000)}\n",
    "lines of 27 points": lambda: f"0,linestring,,5,{line_of(27)}\n",
    "single points": lambda: f"0,point,,5,{line_of(1)}\n",
    "collections of a point and a line": lambda: f"0,collection,,5,\n1,point,7,5,{line_of(1)}\n1,linestring,8,5,{line_of(2)}\n",
}


def table_of(row, size):
    parts = [row() for _ in range(1000)]
    text = "".join(parts)
    return "depth,kind,id,precision,polyline\n" + text * (size // len(text) + 1)


def run(words):
    """The processor time and the wall time of a program, in seconds."""
    start = time.monotonic()
    process = subprocess.Popen(words)
    _, status, used = os.wait4(process.pid, 0)
    if status:
        sys.exit(f"status {status}: {' '.join(words)}")
    return used.ru_utime + used.ru_stime, time.monotonic() - start


def least(programs, words, rounds):
    """The least times of each program, by turns."""
    times = [[run(program + words) for program in programs] for _ in range(rounds)]
    return [[min(column) for column in zip(*(round[at] for round in times))] for at in range(len(programs))]


def main():
    program, megabytes, rounds = (sys.argv[1:] + ["bin/polytwkb", "20", "10"][len(sys.argv) - 1 :])[:3]
    programs = [[program], ["node", COMMAND]]
    with tempfile.TemporaryDirectory() as folder:
        table, stream, out = (os.path.join(folder, name) for name in ("table", "stream", "out"))
        for name, row in ROWS.items():
            with open(table, "w") as file:
                file.write(table_of(row, int(megabytes) * 10**6))
            run([program, "pack", table, "-o", stream])
            for conversion, source in (("pack", table), ("unpack", stream), ("show", stream)):
                (native, native_wall), (node, node_wall) = least(programs, [conversion, source, "-o", out], int(rounds))
                print(
                    f"{name}: {conversion}: {node / native:.2f} times the processor time, {node:.2f} s beside {native:.2f}; "
                    f"{node_wall / native_wall:.2f} times the wall time, {node_wall:.2f} s beside {native_wall:.2f}"
                )


if __name__ == "__main__":
    main()
