"""Measures the writing of lines. See compare.sh."""
import os
import resource
import subprocess
import sys

MEGABYTE = 1_000_000
SIZES = (2, 4)
NESTS = (0, 8, 16, 32)
FEW, MANY = 5, 25
RUNS = 5


def seconds_of(words, source):
    """User seconds of one run, whose output is thrown away."""
    with open(source, "rb") as reads:
        before = resource.getrusage(resource.RUSAGE_CHILDREN).ru_utime
        subprocess.run(words, stdin=reads, stdout=subprocess.DEVNULL, stderr=subprocess.DEVNULL, check=True)
    return resource.getrusage(resource.RUSAGE_CHILDREN).ru_utime - before


def ways_of(program, loop, source):
    """The command of each way, but for how often it writes all lines."""
    ways = {"loop": lambda times: [loop, source, str(times)]}
    for nest in NESTS:
        ways[nest] = lambda times, nest=nest: [program, str(times), str(nest)]
    return ways


def measure(ways, source):
    """The seconds of one pass of each way, by the best runs of two counts of passes, all ways in turn."""
    best = {(way, times): float("inf") for way in ways for times in (FEW, MANY)}
    for _ in range(RUNS):
        for way, times in best:
            best[way, times] = min(best[way, times], seconds_of(ways[way](times), source))
    return {way: (best[way, MANY] - best[way, FEW]) / (MANY - FEW) for way in ways}


def points_of(reads, source):
    """How many points the stream has."""
    return int(subprocess.run([reads, "read", source], stdout=subprocess.PIPE, check=True).stdout.split()[1])


def look_at(program, loop, source):
    """Ends the measuring where the loop does not spell the stream again, or the writer spells less than it."""
    with open(source, "rb") as reads:
        stream = reads.read()
    spelled = subprocess.run([loop, source, "1"], stdout=subprocess.PIPE, stderr=subprocess.DEVNULL, check=True).stdout
    written = subprocess.run([program, "1", "0"], input=stream, stdout=subprocess.PIPE, check=True).stdout
    if spelled != stream or len(written) <= len(stream):
        sys.exit("the streams differ")


def main():
    program, reads, loop, folder = sys.argv[1:5]
    print("lines, MB | loop: ns a point | " + " | ".join(f"below {nest}: ns a point, times the loop" for nest in NESTS))
    for size in SIZES:
        source = f"{folder}/lines-{size}.twkb"
        subprocess.run([reads, "make", "lines", str(size * MEGABYTE), source], check=True)
        look_at(program, loop, source)
        points = points_of(reads, source)
        seconds = measure(ways_of(program, loop, source), source)
        cells = [f"{seconds['loop'] / points * 1e9:.1f}"]
        cells += [f"{seconds[nest] / points * 1e9:.1f}, {seconds[nest] / seconds['loop']:.2f}" for nest in NESTS]
        print(f"{size} | " + " | ".join(cells))
    print(f"load: {' '.join(f'{load:.1f}' for load in os.getloadavg())}")


main()
