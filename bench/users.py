#!/usr/bin/env python3
"""Measures the three commands beside the plain program of bench/plain. See beside_plain.sh, which builds both."""
import argparse
import csv
import datetime
import hashlib
import json
import os
import re
import subprocess
import sys
import zlib

from picture import picture
from quiet import BUSY, Processors, when_quiet

CASES = {
    "points": "single points",
    "quoted_points": "quoted points",
    "lines": "lines of 1000 points",
    "multipolygons": "multipolygons",
    "collections": "collections 8 deep",
    "multipoints": "multipoints with ids",
    "long_line": "one line of {long}",
}
WORDS = ("pack", "unpack", "show")
PROGRAMS = ("polytwkb", "plain")
MEGABYTE = 1_000_000
PIECE = 1 << 20


def parse_words():
    parser = argparse.ArgumentParser(
        prog="bench/beside_plain.sh", description="Measures polytwkb beside a plain program."
    )
    parser.add_argument("--megabytes", type=float, default=40, help="size of each table but that of the long line (40)")
    parser.add_argument("--points", type=int, default=10_000_000, help="points of the long line (10000000)")
    parser.add_argument("--rounds", type=int, default=9, help="runs of each program, of which the best counts (9)")
    parser.add_argument("--cases", nargs="+", default=list(CASES), choices=list(CASES), help="only these tables")
    busy = "print ratios and write pages though the machine was busy: some program's median time was over a tenth above its best"
    parser.add_argument("--busy", action="store_true", help=busy)
    pages = "write the tables and the picture into docs/, and the lines on size and speed into README.md"
    parser.add_argument("--docs", action="store_true", help=pages)
    for word in ("polytwkb", "plain", "maker", "folder"):
        parser.add_argument(word, help=argparse.SUPPRESS)
    return parser.parse_args()


def seconds_of(program, word, source):
    """User and system seconds of one run."""
    with open(source, "rb") as reads:
        running = subprocess.Popen([program, word], stdin=reads, stdout=subprocess.DEVNULL)
        _, status, used = os.wait4(running.pid, 0)
        running.returncode = os.waitstatus_to_exitcode(status)
    if running.returncode != 0:
        sys.exit(f"{program} {word} of {source} ended with {running.returncode}")
    return used.ru_utime + used.ru_stime


def peak_of(program, word, source):
    """Peak memory of one run in kilobytes. By `time`, since a child of this program would count the memory of Python too."""
    with open(source, "rb") as reads:
        timed = ["/usr/bin/time", "-f", "%M", program, word]
        ended = subprocess.run(timed, stdin=reads, stdout=subprocess.DEVNULL, stderr=subprocess.PIPE, check=True)
    return int(ended.stderr.split()[-1])


def hash_of(program, word, source, target=None):
    """The hash of what one run writes and how many bytes it has; they go to a file where one is named."""
    digest, length = hashlib.sha256(), 0
    with open(source, "rb") as reads, open(target or os.devnull, "wb") as writes:
        with subprocess.Popen([program, word], stdin=reads, stdout=subprocess.PIPE) as running:
            while piece := running.stdout.read(PIECE):
                digest.update(piece)
                writes.write(piece)
                length += len(piece)
    if running.returncode != 0:
        sys.exit(f"{program} {word} of {source} ended with {running.returncode}")
    return digest.hexdigest(), length


class Table:
    """A table below a folder, and the stream that it is packed to."""

    def __init__(self, options, case, size):
        self.table = f"{options.folder}/{case}.{size}.csv"
        self.stream = f"{options.folder}/{case}.{size}.twkb"
        self.programs = {"polytwkb": options.polytwkb, "plain": options.plain}
        self.processors = options.processors
        subprocess.run([options.maker, case, str(size), self.table], check=True)
        # How long the table is that each command reads, writes or would write.
        self.length = {"pack": os.path.getsize(self.table)}

    def source(self, word):
        return self.table if word == "pack" else self.stream

    def check(self):
        """Both programs write the same bytes by each command."""
        for word in WORDS:
            target = self.stream if word == "pack" else None
            ours, length = hash_of(self.programs["polytwkb"], word, self.source(word), target)
            if (ours, length) != hash_of(self.programs["plain"], word, self.source(word)):
                sys.exit(f"{word} of {self.source(word)}: the programs write different bytes")
            if word == "unpack":
                self.length["unpack"] = self.length["show"] = length

    def seconds(self, word):
        """One run of each program."""
        return {
            name: self.processors.run(lambda: seconds_of(self.programs[name], word, self.source(word)))
            for name in PROGRAMS
        }

    def peak(self, word):
        return {name: peak_of(self.programs[name], word, self.source(word)) for name in PROGRAMS}

    def sizes(self):
        """The bytes of the table, of its streams in both styles, of its geometries as WKB, and of the first two after gzip."""
        plain = [self.programs["polytwkb"], "pack", "--style", "plain"]
        with open(self.table, "rb") as reads:
            plain_length = len(subprocess.run(plain, stdin=reads, stdout=subprocess.PIPE, check=True).stdout)
        return {
            "table": os.path.getsize(self.table),
            "full": os.path.getsize(self.stream),
            "plain": plain_length,
            "wkb": wkb_length(self.table),
            "table_gzip": deflated_length(self.table),
            "full_gzip": deflated_length(self.stream),
        }

    def remove(self):
        for path in (self.table, self.stream):
            os.remove(path)


def best(tables, word, rounds):
    """The best seconds of each program on each of the tables, and whether the machine was quiet. All run in turn, since the speed of a
    machine changes."""

    def measure():
        runs = [[table.seconds(word) for table in tables] for _ in range(rounds)]
        return [[run[place][name] for run in runs] for place in range(len(tables)) for name in PROGRAMS]

    sides, quiet = when_quiet(measure)
    least = iter(map(min, sides))
    return [{name: next(least) for name in PROGRAMS} for _ in tables], quiet


WKB_HEADERS = {"point": 5, "ring": 4}
NUMBER_ENDS = re.compile("[?-^]")


def wkb_length(path):
    """How many bytes the geometries of a table have as WKB: 9 for a header with a count, 16 for a point."""
    csv.field_size_limit(1 << 30)
    with open(path, encoding="ascii", newline="") as file:
        rows = csv.reader(file)
        next(rows)
        # each number of a polyline ends with one of these characters, and a point has two numbers
        return sum(
            WKB_HEADERS.get(kind, 9) + 8 * len(NUMBER_ENDS.findall(polyline)) for _, kind, _, _, polyline in rows
        )


def deflated_length(path):
    deflating, length = zlib.compressobj(6), 0
    with open(path, "rb") as file:
        while piece := file.read(PIECE):
            length += len(deflating.compress(piece))
    return length + len(deflating.flush())


def measure(options, case):
    """One row for each command, and the sizes."""
    size = options.points if case == "long_line" else int(options.megabytes * MEGABYTE)
    whole, half = Table(options, case, size), Table(options, case, size // 2)
    whole.check()
    half.check()
    rows = []
    for word in WORDS:
        (seconds, half_seconds), quiet = best([whole, half], word, options.rounds)
        rows.append(
            {
                "case": CASES[case].format(long=points_text(options.points)),
                "command": word,
                "quiet": quiet,
                "seconds": seconds,
                "speed": {name: whole.length[word] / MEGABYTE / seconds[name] for name in PROGRAMS},
                "ratio": seconds["polytwkb"] / seconds["plain"],
                "peak": whole.peak(word),
                "growth": {name: seconds[name] / half_seconds[name] for name in PROGRAMS},
            }
        )
        print(line_of(rows[-1], options.busy), flush=True)
    sizes = {"case": rows[0]["case"], **whole.sizes()}
    print(sizes_line(sizes), flush=True)
    whole.remove()
    half.remove()
    return rows, sizes


def points_text(count):
    millions = count / 1_000_000
    return f"{millions:g} million points"


HEAD = (
    "| Table | Command | MB/s | plain | time over plain | peak kB | plain | growth | plain |\n"
    "|---|---|---|---|---|---|---|---|---|"
)

PAGE_HEAD = (
    "| Table | pack MB/s | over plain | unpack MB/s | over plain | show MB/s | over plain | memory MB | plain |\n"
    "|---|---|---|---|---|---|---|---|---|"
)

SIZES = {
    "table": "table",
    "full": "stream, full",
    "plain": "stream, plain",
    "wkb": "WKB",
    "table_gzip": "table, gzip",
    "full_gzip": "stream, gzip",
}
SIZES_HEAD = f"| MB of | {' | '.join(SIZES.values())} |\n|---|{'---|' * len(SIZES)}"

PICTURE = "![Time of polytwkb over that of the plain program, for each table and command](benchmark.svg)"


def line_of(row, busy):
    """One line, which gives no ratios of a busy machine unless told to."""
    speed, peak, growth = row["speed"], row["peak"], row["growth"]
    ratios = [row["ratio"], growth["polytwkb"], growth["plain"]]
    ratio, *grown = [f"{each:.2f}" if row["quiet"] or busy else BUSY for each in ratios]
    cells = [row["case"], row["command"], f"{speed['polytwkb']:.0f}", f"{speed['plain']:.0f}", ratio]
    cells += [str(peak["polytwkb"]), str(peak["plain"]), *grown]
    return "| " + " | ".join(cells) + " |"


def page_lines(rows):
    """The lines of the page's table: one for each table, the greatest peak of its commands in the last two columns."""
    for case in dict.fromkeys(row["case"] for row in rows):
        own = [row for row in rows if row["case"] == case]
        cells = [cell for row in own for cell in (f"{row['speed']['polytwkb']:.0f}", f"{row['ratio']:.2f}")]
        peaks = [f"{max(row['peak'][name] for row in own) / 1000:.1f}" for name in PROGRAMS]
        yield "| " + " | ".join([case, *cells, *peaks]) + " |"


def sizes_line(sizes):
    return "| " + " | ".join([sizes["case"], *(f"{sizes[name] / MEGABYTE:.1f}" for name in SIZES)]) + " |"


def speed_text(rows):
    """Four sentences on speed and memory."""
    speeds = {word: [row["speed"]["polytwkb"] for row in rows if row["command"] == word] for word in WORDS}
    pack, unpack = (f"{min(speeds[word]):.0f} to {max(speeds[word]):.0f}" for word in ("pack", "unpack"))
    peaks = {}
    for row in rows:
        peaks[row["case"]] = max(row["peak"]["polytwkb"], peaks.get(row["case"], 0))
    *usual, (most, case) = sorted((peak, case) for case, peak in peaks.items())
    memory = f"run takes {most / 1000:.0f} MB of memory"
    if usual:
        small = f"{usual[-1][0] / 1000:.1f} MB of memory, however large the file is"
        memory = f"run over small geometries takes {small}. A run over {case} takes {most / 1000:.0f} MB"
    return (
        f"`pack` reads {pack} MB of CSV table per second on one core, and `unpack` writes {unpack} MB. "
        f"Both speeds depend on the geometries. A {memory}."
    )


def size_text(sizes):
    """Two sentences on the size of linestrings."""
    lines = next((each for each in sizes if each["case"] == CASES["lines"]), sizes[0])
    table, full, wkb = (f"{lines[name] / MEGABYTE:.1f}" for name in ("table", "full", "wkb"))
    return f"a CSV table of {table} MB, with linestrings of 1000 points, becomes {full} MB of TWKB. The same linestrings take {wkb} MB as WKB."


def growth_line(rows):
    """The least and the greatest growth of both programs, in one line."""
    least, greatest = ([pick(row["growth"][name] for row in rows) for name in PROGRAMS] for pick in (min, max))
    return f"Growth {least[0]:.2f} to {greatest[0]:.2f}, plain {least[1]:.2f} to {greatest[1]:.2f}."


def put_into(path, name, text):
    """Puts a text between the two marks of a name in a document."""
    begin, end = f"<!-- make bench: {name}begin -->", f"<!-- make bench: {name}end -->"
    with open(path, encoding="utf-8") as file:
        front, _, rest = file.read().partition(begin)
    _, found, back = rest.partition(end)
    if not found:
        sys.exit(f"{path} lacks the marks {begin} and {end}")
    with open(path, "w", encoding="utf-8") as file:
        file.write(front + begin + text + end + back)


def circumstances(options, read_by):
    """One line: when, on what, how."""
    with open("/proc/cpuinfo", encoding="utf-8") as file:
        names = [line.partition(":")[2].strip() for line in file if line.startswith("model name")]
    processor = f"{os.cpu_count()} processors, {names[0]}" if names else f"{os.cpu_count()} processors"
    return (
        f"{datetime.date.today()}, {processor}; tables of {options.megabytes:g} MB, best of {options.rounds} runs; "
        f"records of the plain program by {read_by}."
    )


def main():
    options = parse_words()
    if not os.path.exists("/usr/bin/time"):
        sys.exit("/usr/bin/time, which reports the peak of memory, is not there")
    read_by = subprocess.run([options.plain, "records"], stdout=subprocess.PIPE, check=True, text=True).stdout.strip()
    line = circumstances(options, read_by)
    options.processors = Processors()
    print(f"{line}\n\n{HEAD}", flush=True)
    measured = [measure(options, case) for case in options.cases]
    rows, sizes = [row for own, _ in measured for row in own], [own for _, own in measured]
    disturbed = [f"{row['command']} of {row['case']}" for row in rows if not row["quiet"]]
    if disturbed:
        line = f"{line} Other work was beside {', '.join(disturbed)}."
        if not options.busy:
            sys.exit(f"the machine was busy, and --busy would give ratios all the same: {', '.join(disturbed)}")
    with open(f"{options.folder}/users.json", "w", encoding="utf-8") as file:
        json.dump({"circumstances": line, "rows": rows, "sizes": sizes}, file, indent=1)
    with open(f"{options.folder}/users.svg", "w", encoding="utf-8") as file:
        file.write(picture(rows))
    if options.docs:
        write_pages(f"{line} {growth_line(rows)}", rows, sizes)


def write_pages(line, rows, sizes):
    """Puts what was measured into the pages that show it."""
    tables = [line, "", PAGE_HEAD, *page_lines(rows), "", PICTURE, "", SIZES_HEAD, *map(sizes_line, sizes)]
    put_into("docs/PERF.md", "", "\n" + "\n".join(tables) + "\n")
    with open("docs/benchmark.svg", "w", encoding="utf-8") as file:
        file.write(picture(rows))
    put_into("README.md", "speed ", speed_text(rows))
    put_into("README.md", "size ", size_text(sizes))


if __name__ == "__main__":
    main()
