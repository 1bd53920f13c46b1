"""Runs a program while one of its growths, reads or writes fails: see refuse.c."""
import os
import struct
import sys

sys.path.insert(0, os.path.join(os.path.dirname(os.path.abspath(__file__)), "../fuzz"))

from run_command import Command

KINDS = ("growth", "read", "write", "errors", "zero", "short_read", "short_write", "short_errors")
MOST_CALLS = 100000


class Refusing:
    """A program, and the library that lets its calls fail."""

    def __init__(self, program, library, stride=1):
        self.stride = stride
        self.command = Command(os.path.abspath(program))
        self.library = os.path.abspath(library)
        self.counts = os.memfd_create("counts")
        os.set_inheritable(self.counts, True)

    def run(self, words, source, refused):
        """The answer (status, output, standard error), and how many calls of each kind were made."""
        os.pwrite(self.counts, bytes(8 * len(KINDS)), 0)
        environment = {"LD_PRELOAD": self.library, "REFUSE": refused, "REFUSE_COUNTS": f"/proc/self/fd/{self.counts}"}
        answer = self.command.run(words, source, environment)
        counts = struct.unpack(f"{len(KINDS)}Q", os.pread(self.counts, 8 * len(KINDS), 0))
        return answer, dict(zip(KINDS, counts))

    def in_turn(self, words, source, kind, behind="", beside=""):
        """Call after call of a kind fails: the number of the call, what was refused, the answer, until none fails.

        `behind` is "+" where all calls behind it fail too, and `beside` what all calls are held to, such as one byte: of so
        many only each of a stride fails. The last number is None: no call of the kind failed."""
        for number in range(1, MOST_CALLS, self.stride if beside else 1):
            refused = f"{kind}={number}{behind} {beside}".strip()
            answer, counts = self.run(words, source, refused)
            was_made = counts[kind] >= number
            yield number if was_made else None, refused, answer
            if not was_made:
                return
        raise SystemExit(f"{words}: calls without end")
