"""The table of reasons and statuses, scripts/reasons.txt, for the scripts that make places of it and compare others with it."""
import re
from typing import NamedTuple

from pages import text_of

BUFFER = "crates/twkb_buffer"
# the name that the command has for a status, where it is another
OTHERS = {"USAGE": "ARGUMENTS"}


class Row(NamedTuple):
    """A line of the table, and what the lines below it say: in the code, in docs/FORMATS.md and in the manual, and the
    refusal of a row that has this reason."""

    what: str
    number: int
    code: str
    name: str
    text: str
    said: dict

    def put(self, line):
        """The line with these words in it."""
        where, _, place = self.said.get("formats", "").partition(" | ")
        return line.format(**self._asdict(), **self.said, where=where, place=place)


def table():
    """The rows of the table."""
    rows = []
    for line in re.sub(r"\n {6,}", " ", text_of("scripts/reasons.txt")).split("\n"):
        if line.startswith("  "):
            key, said = line.split(None, 1)
            rows[-1].said[key] = said
        elif line and not line.startswith("#"):
            what, number, code, name, text = line.split(None, 4)
            rows.append(Row(what, int(number), code, name, text, {}))
    return rows


def of_kind(rows, kind):
    return [row for row in rows if row.what == kind]


def own(rows):
    """The reasons that are none of another table."""
    return [row for row in rows if row.name != "-"]
