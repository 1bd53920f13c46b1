#!/usr/bin/env python3
"""Runs the built command with each growth, each read and each write failing in turn, and compares every answer.

each_failing.py PROGRAM REFUSE.SO [few]

What the command is given, and what it must answer, stands in rows.py. The word few is for a program that starts slowly:
the rows that reach every place, and of calls that move one byte each fifteenth. A program that is wrong all over may do
anything, so the check ends at the last wrong answer that it would show, or after a few runs that had to be killed.
"""
import signal
import sys

from refusing import Refusing
from rows import FEW, HEADER, ROWS, whole_before

OUT_OF_MEMORY = 4, b"polytwkb: out of memory\n"
READ_FAILED = 3, b"polytwkb: read failed\n"
WRITE_FAILED = 3, b"polytwkb: write failed\n"
# words whose answer is a text of help or usage, and its status
TEXTS = ((["--help"], 0), (["pack", "--help"], 0), (["--version"], 0), (["pack", "--style", "thin"], 2))
MOST_WRONG, MOST_KILLED = 20, 3


class GivenUp(Exception):
    """So many answers were wrong that no more are asked for."""


def shown(written):
    return f"{written[:200]!r}" + (f" and {len(written) - 200} bytes more" if len(written) > 200 else "")


def is_complete(row, output):
    """Whether output is a front of the right one that ends behind a geometry."""
    return row.output.startswith(output) and len(output) in row.fronts


class Comparing:
    """Compares answers, and keeps those that are wrong."""

    def __init__(self, refusing):
        self.refusing = refusing
        self.wrong = []
        self.killed = 0
        self.borne = set()

    def look(self, name, refused, answer, is_right):
        if is_right:
            return
        status, output, errors = answer
        self.wrong.append(f"{name}, {refused or 'nothing refused'}: status {status}, {shown(output)}, {shown(errors)}")
        self.killed += status == -signal.SIGKILL
        if len(self.wrong) == MOST_WRONG or self.killed == MOST_KILLED:
            raise GivenUp

    def in_turn(self, row, kind, behind, beside, is_right):
        """How many calls of a kind were refused; the run behind them must answer as if nothing had been."""
        whole, count = (row.status, row.output, row.errors), 0
        for number, refused, answer in self.refusing.in_turn(row.words, row.source, kind, behind, beside):
            self.look(row.name, refused, answer, answer == whole if number is None else is_right(number, *answer))
            count += number is not None
        return count

    def undisturbed(self, row):
        """Whether the answers are right while no call fails: if not, nothing is learnt from calls that do."""
        before = len(self.wrong)
        for refused in ("", "short_read=1+", "short_write=1+ short_errors=1+", "short_read=1+ short_write=1+"):
            answer, _ = self.refusing.run(row.words, row.source, refused)
            self.look(row.name, refused, answer, answer == (row.status, row.output, row.errors))
        return len(self.wrong) == before

    def growths(self, row, behind):
        """A growth that is refused alone may be borne: room asked for in advance is asked for again."""

        def is_right(number, status, output, errors):
            if not behind and (status, output, errors) == (row.status, row.output, row.errors):
                self.borne.add((row.name, number))
                return True
            return (status, errors) == OUT_OF_MEMORY and is_complete(row, output)

        return self.in_turn(row, "growth", behind, "", is_right)

    def reads(self, row, behind, beside):
        """Where each read gives one byte, it is known of each read which blobs were given whole."""

        def is_right(number, status, output, errors):
            if row.words[0] != "pack" and beside:
                is_known = output == row.output[: whole_before(row, number - 1)]
            else:
                is_known = is_complete(row, output)
            return (status, errors) == READ_FAILED and is_known

        return self.in_turn(row, "read", behind, beside, is_right)

    def writes(self, row, kind, behind, beside):
        """Where each write takes one byte, exactly the bytes before a write that fails for good were taken.

        Behind one that fails alone, what the program's buffer still holds may go out when it ends."""

        def is_right(number, status, output, errors):
            taken = number - 1 if beside else 0
            is_known = len(output) == taken if behind else len(output) >= taken
            return (status, errors) == WRITE_FAILED and row.output.startswith(output) and is_known

        return self.in_turn(row, kind, behind, beside, is_right)

    def errors(self, row):
        """Failed writes to standard error change nothing else."""

        def is_right(number, status, output, errors):
            return (status, output, errors) == (row.status, row.output, row.errors[: number - 1])

        return self.in_turn(row, "errors", "+", "short_errors=1+", is_right)

    def text(self, words, status):
        """Help and refused words: the whole text, or want of memory with nothing written."""
        whole, _ = self.refusing.run(words, HEADER, "")
        self.look(words, "", whole, whole[0] == status)
        if whole[0] != status:
            return
        for number, refused, answer in self.refusing.in_turn(words, HEADER, "growth", "+"):
            wanted = whole if number is None else (4, b"", b"polytwkb: out of memory\n")
            self.look(words, refused, answer, answer == wanted)
        for number, refused, answer in self.refusing.in_turn(words, HEADER, "growth"):
            self.look(words, refused, answer, answer in (whole, (4, b"", b"polytwkb: out of memory\n")))


def compared(comparing, row):
    """The line of a row: how many calls of each kind were refused."""
    if not comparing.undisturbed(row):
        return "wrong while no call fails"
    counts = [f"{comparing.growths(row, '')} growths"]
    comparing.growths(row, "+")
    for behind in ("", "+"):
        reads = comparing.reads(row, behind, ""), comparing.reads(row, behind, "short_read=1+")
        writes = comparing.writes(row, "write", behind, ""), comparing.writes(row, "write", behind, "short_write=1+")
        zeros = comparing.writes(row, "zero", behind, "short_write=1+")
    counts += [f"{reads[0]} reads, {reads[1]} of a byte", f"{writes[0]} writes, {zeros} of a byte"]
    return "; ".join(counts + [f"{comparing.errors(row)} to standard error"])


def compare_all(comparing, is_few):
    for row in (row for row in ROWS if not is_few or row.name in FEW):
        before, counts = len(comparing.wrong), compared(comparing, row)
        print(f"{'ok  ' if len(comparing.wrong) == before else 'FAIL'}  {row.name}: {counts}", flush=True)
    for words, status in TEXTS:
        comparing.text(words, status)
    print(f"borne: {sorted(comparing.borne)}")


def main():
    is_few = sys.argv[3:] == ["few"]
    comparing = Comparing(Refusing(*sys.argv[1:3], stride=15 if is_few else 1))
    try:
        compare_all(comparing, is_few)
    except GivenUp:
        print("FAIL  given up: too many answers are wrong")
    for wrong in comparing.wrong:
        print(f"wrong: {wrong}")
    print(f"each_failing: {len(comparing.wrong)} wrong answers")
    return len(comparing.wrong) > 0


if __name__ == "__main__":
    sys.exit(main())
