#!/usr/bin/env python3
"""Refuses each growth in turn to the tests that bear one: those whose names have the word growth.

growths_of_tests.py REFUSE.SO PROGRAM..       a PROGRAM is bin/tests_blobs or bin/tests_conversions

Each growth is refused alone, and then with all after it. A test passes whichever it is. The tests of a program
must be some, and must take memory.
"""
import os
import subprocess
import sys

from refusing import Refusing


def tests_of(program):
    """The full names of the tests that bear a refused growth."""
    listed = subprocess.run([os.path.abspath(program), "--list"], capture_output=True, text=True, check=True)
    names = [line.partition(": ")[0] for line in listed.stdout.splitlines()]
    return [name for name in names if "growth" in name]


def refused_in_turn(refusing, name):
    """How many growths a test makes, and its answers that are wrong."""
    last, wrong = 0, []
    for behind in ("", "+"):
        for number, refused, (status, output, errors) in refusing.in_turn([name], b"", "growth", behind):
            last = max(last, number or 0)
            if status != 0:
                wrong.append(f"{refused}: status {status}, {(output + errors)[-200:]!r}")
    return last, wrong


def main():
    failed = 0
    for program in sys.argv[2:]:
        refusing, growths = Refusing(program, sys.argv[1]), 0
        for name in tests_of(program):
            last, wrong = refused_in_turn(refusing, name)
            growths += last
            failed += len(wrong) > 0
            print(f"{'FAIL' if wrong else 'ok  '}  {name}: {last} growths", flush=True)
            for answer in wrong[:3]:
                print(f"  {answer}")
        if growths == 0:
            failed += 1
            print(f"FAIL  {program}: no growth was refused")
    print(f"growths_of_tests: {failed} failed")
    return failed > 0


if __name__ == "__main__":
    sys.exit(main())
