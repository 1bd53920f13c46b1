"""The rows of tests/vectors and tests/postgis. What they expect was worked by hand, or comes from PostGIS and public documents."""
import json
import os
import re

REPO = os.path.abspath(os.path.join(os.path.dirname(__file__), "..", ".."))
HEADER = "depth,kind,id,precision,polyline\n"


def rows_of(name):
    """The lines of a file, each with the lines that must be printed of it."""
    rows = []
    with open(os.path.join(REPO, "tests", "vectors", name + ".txt"), encoding="utf-8") as source:
        for line in source.read().splitlines():
            if line.startswith("  |"):
                rows[-1][1][-1] += line[4:] + "/"
            elif line.startswith("  "):
                rows[-1][1].append(line[2:])
            elif line and not line.startswith("#"):
                rows.append((line, []))
    return rows


def table_of(rows):
    """The table with these rows, each ended by a slash."""
    return HEADER + rows.replace("/", "\n")


def runs():
    """The command, its options (of a flag the value is empty), the input, and the output and the line of each run of pack, unpack and show."""
    for line, printed in rows_of("runs"):
        run = re.fullmatch(
            r"run polytwkb (pack|unpack|show)((?: --(?:max-nest|style)[ =]\w+| --geojson)*) < (rows|hex) ?(.*)", line
        )
        if not run or printed[0] not in ("status 0", "status 1"):
            continue
        command, words, form, given = run.groups()
        given = table_of(given) if form == "rows" else bytes.fromhex(given)
        output, errors = printed[1][len("output") :].lstrip(), printed[2][len("errors") :]
        yield command, re.findall(r"--([a-z-]+)(?:[ =](\w+))?", words), given, (
            output,
            errors.replace(" polytwkb: ", "").rstrip("/"),
        )


def polylines():
    """The text, the points and the line of a refusal of each polyline, but where the number of points is limited."""
    for line, printed in rows_of("polylines"):
        word, _, *text = line.split(" ", 2)
        text = text[0] if text else ""
        numbers = [int(number) for number in re.findall(r"[xy]: (-?\d+)", printed[0])]
        fault = re.search(r"; (.*) at (\d+)$", printed[0])
        if fault and fault.group(1) == "too many points":
            continue
        refusal = f"polyline at {fault.group(2)}: {fault.group(1)}" if fault else ""
        yield bytes.fromhex(text) if word == "polyline_of_bytes" else text.encode(), list(
            zip(numbers[::2], numbers[1::2])
        ), refusal


def lines_of(name):
    with open(os.path.join(REPO, "tests", "postgis", name), encoding="utf-8") as source:
        return [json.loads(line) for line in source]


def postgis():
    """The blobs that PostGIS wrote."""
    return lines_of("blobs.jsonl")


def roundings():
    """Numbers at a half, and the blobs that PostGIS makes of them."""
    return lines_of("rounding.jsonl")
