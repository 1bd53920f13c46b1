"""Measures the reading of rows by a program that does nothing else. See compare.sh."""
import resource
import subprocess
import sys

from measure_reading import KINDS, LOOPS, loop_of, make_stream


def seconds_of(program, source, blobs):
    """User seconds of one run, which tells how many geometries it read."""
    with open(source, "rb") as reads:
        before = resource.getrusage(resource.RUSAGE_CHILDREN).ru_utime
        ended = subprocess.run([program], stdin=reads, stdout=subprocess.PIPE, check=True)
    if int(ended.stdout) != blobs:
        sys.exit(f"{source} gave {int(ended.stdout)} geometries for {blobs}")
    return resource.getrusage(resource.RUSAGE_CHILDREN).ru_utime - before


def main():
    program, loop, folder = sys.argv[1:4]
    megabytes, rounds = [int(word) for word in sys.argv[4:6] + ["40", "9"][len(sys.argv) - 4 :]]
    print("| Blobs | loop | keeping rows | times | rows | times |")
    for kind in KINDS:
        source = make_stream(kind, folder, megabytes)
        best = dict.fromkeys(LOOPS + ("rows",), float("inf"))
        for _ in range(rounds):
            for word in LOOPS:
                seconds, blobs, points = loop_of(loop, word, source)
                best[word] = min(best[word], seconds)
            best["rows"] = min(best["rows"], seconds_of(program, source, blobs))
        cells = [f"{best['read'] / points * 1e9:.1f}"]
        cells += [f"{best[way] / points * 1e9:.1f} | {best[way] / best['read']:.2f}" for way in ("keep", "rows")]
        print(f"| {kind} | " + " | ".join(cells) + " |", flush=True)


if __name__ == "__main__":
    main()
