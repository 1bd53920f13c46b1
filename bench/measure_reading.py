"""Measures the reading of blobs. See compare.sh."""
import resource
import subprocess
import sys

MEGABYTE = 1_000_000
WAYS = ("rows", "reader", "whole", "bytes", "text", "written", "unpack", "show")
LOOPS = ("read", "keep")
TELLING = ("rows", "reader", "whole", "bytes", "text")
KINDS = ("points", "lines", "multipolygons", "multipoints", "collections")


def seconds_of(program, way, source):
    """User seconds of one run, and how many geometries it told, where it tells them."""
    tells = way in TELLING
    with open(source, "rb") as reads:
        before = resource.getrusage(resource.RUSAGE_CHILDREN).ru_utime
        ended = subprocess.run(
            [program, way], stdin=reads, stdout=subprocess.PIPE if tells else subprocess.DEVNULL, check=True
        )
    return resource.getrusage(resource.RUSAGE_CHILDREN).ru_utime - before, int(ended.stdout) if tells else None


def loop_of(loop, word, source):
    """The best seconds of the loop that keeps nothing (read) or rows (keep), blobs and points."""
    blobs, points, _, seconds = subprocess.run([loop, word, source], stdout=subprocess.PIPE, check=True).stdout.split()
    return float(seconds), int(blobs), int(points)


def measure(program, loop, source, rounds):
    """The best seconds of the loops and of each way, in turn, and the points."""
    best = dict.fromkeys(LOOPS + WAYS, float("inf"))
    for _ in range(rounds):
        for word in LOOPS:
            seconds, blobs, points = loop_of(loop, word, source)
            best[word] = min(best[word], seconds)
        for way in WAYS:
            seconds, made = seconds_of(program, way, source)
            if made not in (None, blobs):
                sys.exit(f"{way} of {source} gave {made} geometries for {blobs}")
            best[way] = min(best[way], seconds)
    return best, points


def open_sessions(program, source):
    """Peak kilobytes of sessions that stand open."""
    with open(source, "rb") as reads:
        ended = subprocess.run(
            ["/usr/bin/time", "-f", "%M", program, "open"],
            stdin=reads,
            stdout=subprocess.PIPE,
            stderr=subprocess.PIPE,
            check=True,
        )
    return int(ended.stdout), int(ended.stderr.split()[-1])


def make_stream(kind, folder, megabytes):
    """The canonical stream of a table of this kind and size, as the plain program packs it."""
    built = "bench/out/plain/release"
    table, source = f"{folder}/{kind}.csv", f"{folder}/{kind}.twkb"
    subprocess.run([f"{built}/make_table", kind, str(megabytes * MEGABYTE), table], check=True)
    with open(table, "rb") as reads, open(source, "wb") as writes:
        subprocess.run([f"{built}/plain", "pack"], stdin=reads, stdout=writes, check=True)
    return source


def main():
    program, loop, folder = sys.argv[1:4]
    megabytes, rounds = [int(word) for word in sys.argv[4:6] + ["40", "9"][len(sys.argv) - 4 :]]
    print("| Blobs | loop | keeping rows | times | " + " | ".join(f"{way} | times" for way in WAYS) + " |")
    for kind in KINDS:
        best, points = measure(program, loop, make_stream(kind, folder, megabytes), rounds)
        cells = [f"{best['read'] / points * 1e9:.1f}"]
        cells += [f"{best[way] / points * 1e9:.1f} | {best[way] / best['read']:.2f}" for way in ("keep",) + WAYS]
        print(f"| {kind} | " + " | ".join(cells) + " |")
    for size in (8, 2000):
        source = f"{folder}/front.twkb"
        with open(f"{folder}/lines.twkb", "rb") as reads, open(source, "wb") as writes:
            writes.write(reads.read(size))
        opened, kilobytes = open_sessions(program, source)
        print(f"{opened} geometries open in sessions, {size} bytes of each blob read: {kilobytes} kB")


if __name__ == "__main__":
    main()
