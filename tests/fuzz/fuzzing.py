"""What the fuzzers share: the words that they are given, their processes, when they give up, and the lines at their end."""
import argparse
import json
import os
import time

MOST_FOUND = 5  # so many cases that differ are shown, and then a fuzzer ends


def words_of(description, cases):
    """The parser of the words that each fuzzer takes."""
    words = argparse.ArgumentParser(description=description.split("\n")[0])
    words.add_argument("--cases", type=int, default=cases)
    words.add_argument("--seed", default=str(int(time.time())))
    words.add_argument("--processes", type=int, default=2)
    words.add_argument("--only", type=int, help="the number of one case, which is run and shown")
    return words


def in_processes(arguments, run_cases):
    """The cases shared among processes: `run_cases` gets the numbers of some, and gives how many differ, and how often each
    end was met. The sums of what each process found."""
    pipes = []
    for process in range(arguments.processes):
        reads, writes = os.pipe()
        if os.fork() == 0:
            os.close(reads)
            numbers = range(process, arguments.cases, arguments.processes)
            with os.fdopen(writes, "w") as result:
                result.write(json.dumps(run_cases(arguments, numbers)))
            os._exit(0)
        os.close(writes)
        pipes.append(reads)
    found, ends = 0, {}
    for pipe in pipes:
        with os.fdopen(pipe) as result:
            part, its_ends = json.loads(result.read() or '[1, {"a process that failed": 1}]')
        found += part
        for end, times in its_ends.items():
            ends[end] = ends.get(end, 0) + times
    return found, ends


def report(name, given, start, found, ends):
    """Prints how often each end was met, and the result; gives the status."""
    for end, times in sorted(ends.items()):
        print(f"{times:8} {end}")
    took = f"{time.monotonic() - start:.0f} s (seed {given.seed})"
    if found:
        print(f"FAIL  {name}: {found} cases differ, found in {took}; a process tries none after {MOST_FOUND}")
    else:
        print(f"ok    {name}: {given.cases} cases in {took}, 0 differ")
    return found > 0
