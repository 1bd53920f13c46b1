#!/usr/bin/env python3
"""Makes the places that have numbers or words of conversions from the table of them in crates/twkb_conversions, or compares them:

    scripts/conversions.py [--write]

Without --write each place that differs is reported.
"""
import re
import sys
from typing import NamedTuple

from pages import report, text_of
from reasons import Place, difference, written

TABLE = "crates/twkb_conversions/src/conversion.rt"
# The conversions that are subcommands; the command line of Python has the words of these alone.
COMMANDS = ("pack", "unpack", "show")


class Conversion(NamedTuple):
    """A conversion: its number, its name, and what it does."""

    number: int
    name: str
    about: str


def table():
    """The conversions in the order of their numbers."""
    text = text_of(TABLE)
    words = dict(re.findall(r'Conversion::(\w+)(?:\(_\))? => Words \{\n +name: ("[a-z]+",\n +about: "[^"]+"),', text))
    order = re.findall(r"Conversion::(\w+)", re.search(r"CONVERSIONS: .* = \[([^;]*)\];", text)[1])
    for number, code in enumerate(order):
        name, about = re.findall(r'"([^"]+)"', words[code])
        yield Conversion(number, name, about)


def places(rows):
    """The places that are made."""
    for file, heading, form, line in (
        (
            "include/polytwkb.h",
            "/* Conversions, for polytwkb_convert and polytwkb_measure. */\n",
            r"#define POLYTWKB_\w+ \d+u",
            "#define POLYTWKB_{name} {number}u",
        ),
        ("python/polytwkb/_conversions.py", "class Conversion:\n", r"    [A-Z_]+ = \d+", "    {name} = {number}"),
        ("js/src/conversions.js", "export const Conversion = {\n", r"    \w+: \d+,", "    {name}: {number},"),
    ):
        yield Place(file, form, [line.format(name=row.name.upper(), number=row.number) for row in rows], heading)
    for row in rows:
        if row.name not in COMMANDS:
            continue
        yield Place(
            "python/polytwkb/_conversions.py",
            rf'    "{row.name}": \(\n        ".*",',
            [f'    "{row.name}": (', f'        "{row.about}",'],
        )


def main(words=()):
    rows = list(table())
    if "--write" in words:
        print(f"{written(places(rows))} places written")
    faults = [
        f"{place.file}: {difference(wanted, found, 'scripts/conversions.py')}"
        for place, wanted, found in compared(rows)
        if wanted != found
    ]
    return report(f"{TABLE}: {len(rows)} conversions", faults)


def compared(rows):
    """Each place, what should be there and what is."""
    for place in places(rows):
        found = place.found(text_of(place.file))
        yield place, "\n".join(place.lines) + "\n", found.group() if found else ""


if __name__ == "__main__":
    sys.exit(1 if main(sys.argv[1:]) else 0)
