"""Measures the reading of tables. See compare.sh; a size in MB may be given, and how many rounds."""
import resource
import subprocess
import sys

MEGABYTE = 1_000_000
KINDS = ("points", "lines", "multipolygons", "collections")
ROUNDS = 5


def seconds_of(words, source):
    """User seconds of one run."""
    with open(source, "rb") as reads:
        before = resource.getrusage(resource.RUSAGE_CHILDREN).ru_utime
        subprocess.run(words, stdin=reads, stdout=subprocess.DEVNULL, check=True)
    return resource.getrusage(resource.RUSAGE_CHILDREN).ru_utime - before


def main():
    program, loop, folder = sys.argv[1:4]
    size = int(sys.argv[4]) if len(sys.argv) > 4 else 20
    rounds = int(sys.argv[5]) if len(sys.argv) > 5 else ROUNDS
    print("table | geometries: s | records: s | polylines: s | times the last two")
    for kind in KINDS:
        source = f"{folder}/{kind}.csv"
        subprocess.run([loop, "make", kind, str(size * MEGABYTE), source], check=True)
        geometries, records, polylines = float("inf"), float("inf"), float("inf")
        for _ in range(rounds):
            geometries = min(geometries, seconds_of([program], source))
            records = min(records, seconds_of([program, "records"], source))
            decoded = subprocess.run([loop, "decode", source], stdout=subprocess.PIPE, check=True).stdout
            polylines = min(polylines, float(decoded.split()[2]))
        print(
            f"{kind}, {size} | {geometries:.3f} | {records:.3f} | {polylines:.3f} | {geometries / (records + polylines):.2f}"
        )


main()
