"""Whether a machine was quiet while programs ran by turns: a ratio of times from a busy machine says nothing.

A virtual processor may share its core with one of another guest of the host, which makes it up to twice as slow for as long as that one
works. The counters of the machine hardly show it, but a short loop does: so a program runs on a processor on which the loop is quick.
"""
import os
import statistics
import time

# The median of the runs of one program may be this many times its quickest run, and a loop this many times the quickest loop.
MOST = 1.1

# Programs are timed so many times over until the machine was quiet meanwhile.
TRIES = 3

# The seconds for which a run waits for a quiet processor and is repeated after a disturbance. Another number is in the environment.
PATIENCE = float(os.environ.get("PATIENCE", "10"))

BUSY = "busy"

PROCESSORS = sorted(os.sched_getaffinity(0))

# A loop of 8 ms on the machines here.
LOOPS = 400_000


def loop_seconds(processor):
    """How long a short loop takes on a processor, on which this process and those that it starts then stay."""
    os.sched_setaffinity(0, {processor})
    begun = time.perf_counter()
    sum(range(LOOPS))
    return time.perf_counter() - begun


def quickest_loop(seconds=2.0):
    """The seconds of the quickest of all loops that the processors do one after the other."""
    until = time.monotonic() + seconds
    quickest = min(map(loop_seconds, PROCESSORS))
    while time.monotonic() < until:
        quickest = min(quickest, *map(loop_seconds, PROCESSORS))
    return quickest


class Processors:
    """Those that this process may use, and how quick they can be."""

    def __init__(self):
        self.quickest = quickest_loop()

    def is_quick(self, processor):
        seconds = loop_seconds(processor)
        self.quickest = min(seconds, self.quickest)
        return seconds <= MOST * self.quickest

    def quick_one(self, until):
        """The first on which the loop is quick, or any after the time `until`."""
        while True:
            for processor in PROCESSORS:
                if self.is_quick(processor) or time.monotonic() > until:
                    return processor

    def run(self, program):
        """What a call of `program` returns that was made on a processor on which the loop was quick before and after. Once the time that
        a run may wait is over, it is the last call."""
        until = time.monotonic() + PATIENCE
        while True:
            processor = self.quick_one(until)
            result = program()
            if self.is_quick(processor) or time.monotonic() > until:
                return result


def is_quiet(sides):
    """Whether each side's median is at most a tenth above its quickest run."""
    return all(statistics.median(seconds) <= MOST * min(seconds) for seconds in sides)


def when_quiet(measure):
    """What `measure` returns, which is the seconds of each side's runs, and whether the machine was quiet meanwhile. If it was not, all is
    measured again, at most TRIES times."""
    for _ in range(TRIES):
        sides = measure()
        if is_quiet(sides):
            return sides, True
    return sides, False
