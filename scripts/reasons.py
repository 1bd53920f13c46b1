#!/usr/bin/env python3
"""Makes the places that have numbers, names or texts of reasons and statuses from scripts/reasons.txt, or compares them:

    scripts/reasons.py [--write]

Without --write each place that differs is reported: one that lacks a reason, has one too many, or has another number,
name or text. What is compared and not made is in scripts/reason_numbers.py, the table's form in scripts/reason_table.py.
"""
import difflib
import glob
import os
import re
import sys
import textwrap
from typing import NamedTuple

import reason_numbers
from pages import REPO, report, text_of
from reason_table import BUFFER, of_kind, own, table

# the type of each kind of reason in the code, the name that definitions use for it, and the function of its number
TYPES = {"row": "RowReason", "polyline": "PolyReason", "blob": "BlobReason"}
NAMES = {"row": "row", "polyline": "text", "blob": "blob"}
NUMBERS = {"row": "row_number_of", "polyline": "point_text_number_of", "blob": "blob_number_of"}
# where a kind stands in the code, and its texts in a definition
TEXTS = {
    "row": ("twkb_table/src/reason.rt", "twkb_table/specs/RowFault.antt", "row_words"),
    "polyline": ("twkb_polyline/src/fault.rt", "twkb_polyline/specs/Fault.antt", "point_text_words"),
    "blob": ("twkb_engine/src/blob_reason.rt", "twkb_engine/specs/Texts.antt", "blob_words"),
}
# the section of the manual that explains them
SECTIONS = {"row": "Reasons of a record", "polyline": "Reasons of a polyline", "blob": "Reasons of a blob"}
# a line of docs/FORMATS.md: its form, what it is made of, and that of the reason that is another table's
FORMATS = {
    "row": (
        r"\| \d+ \| `\w+(?:\(O, P\))?` \| .* \| .* \|",
        "| {number} | `{code}` | {text} | {formats} |",
        "| {number} | `{code}(O, P)` | polyline at O: P | {formats} |",
    ),
    "polyline": (r"\| .* \| \w+, `[a-z ]+` \| .* \|", "| {where} | {code}, `{text}` | {place} |", None),
    "blob": (r"\| \w+ \| `[a-z ]+` \| .* \| .* \|", "| {code} | `{text}` | {formats} |", None),
}


class Place(NamedTuple):
    """A place that is made: a file, the form of a line there, the lines, and the heading above the first of them."""

    file: str
    form: str
    lines: list
    heading: str = ""

    def found(self, text):
        """The first run of lines of this form."""
        return re.compile(rf"(?:^{self.form}\n)+", re.M).search(text, text.index(self.heading) + len(self.heading))


def split(rows, kind):
    """The reasons of a kind in the parts in which definitions treat them: those of a record's form or place, which have
    numbers up to 7, and those of a value in it."""
    rows = of_kind(rows, kind)
    if kind != "row":
        return [("", rows)]
    return [("row", [row for row in rows if row.number < 8]), ("value", [row for row in rows if row.number > 7])]


def each(rows, line, other=None):
    """A line for each reason, and another for the one that is the polyline's own."""
    return [row.put(other if row.name == "-" else line) for row in rows if row.name != "-" or other]


def clauses(rows, kind, file, function, line, other):
    """A definition over the reasons of a kind: its clauses, by what follows the reason in each."""
    name = NAMES[kind]
    for part, some in split(rows, kind):
        called = f"{part}_{function[0]}" if part else function[1]
        form = rf"{called} (?:{name}\.\w+|\({name}\.Polyline .*\)) = .*"
        yield Place(file, form, each(some, f"{called} {name}.{{code}} = {line}", f"{called} (row.Polyline {other}"))


def variants(rows, kind):
    """The variants of a kind, below what they say."""
    lines = []
    for row in of_kind(rows, kind):
        lines += textwrap.wrap(row.said["doc"], 100, initial_indent="    /// ", subsequent_indent="    /// ")
        lines += each([row], "    {code},", '    #[error("polyline at {{0}}: {{1}}")]\n    {code}(usize, PolyReason),')
    return lines


def text_places(rows):
    """Where the variants and the texts are."""
    for kind, (code, definition, words) in TEXTS.items():
        reasons = of_kind(rows, kind)
        yield Place(
            f"crates/{code}",
            r"(?:    ///.*\n)+(?:    #\[error.*\n)?    \w+(?:\(.*\))?,",
            variants(rows, kind),
            f"enum {TYPES[kind]} {{",
        )
        yield Place(
            f"crates/{code}",
            rf' +{TYPES[kind]}::\w+(?:\(_, why\))? => (?:".*"|why\.text\(\)),',
            each(
                reasons,
                f'            {TYPES[kind]}::{{code}} => "{{text}}",',
                "            RowReason::Polyline(_, why) => why.text(),",
            ),
        )
        yield from clauses(
            rows,
            kind,
            f"crates/{definition}",
            ("words", words),
            'codes "{text}"',
            "offset reason) = point_text_words reason",
        )


def ruled(rows):
    """The reasons that a record has for the refusal of its row."""
    return [row for row in rows if "rule" in row.said]


def rule_places(rows):
    """Where the reasons of the engine are those of the grammar, and the reasons of records those of rules of rows."""
    lines = each(of_kind(rows, "blob"), "reason_of reason.{code} = fault.{code}")
    yield Place("crates/twkb_engine/specs/Stops.antt", r"reason_of reason\.\w+ = fault\.\w+", lines)
    for file, form, line, of_text in (
        (
            "crates/twkb_table/specs/Judged.antt",
            r"rule_reason Refusal\.\w+ = row\..*",
            "rule_reason Refusal.{rule} = row.{code}",
            "rule_reason Refusal.{rule} = row.Polyline 0 text.{code}",
        ),
        (
            "crates/twkb_table/src/places.rt",
            r" +Refusal::\w+ => RowReason::.*",
            "        Refusal::{rule} => RowReason::{code},",
            "        Refusal::{rule} => RowReason::Polyline(0, PolyReason::{code}),",
        ),
    ):
        yield Place(file, form, [row.put(of_text if row.what == "polyline" else line) for row in ruled(rows)])


def unequal(called, numbers):
    """The definition that a number is none of these, in lines of at most 120 columns."""
    parts = [f"(n ≢ {number})" for number in numbers]
    whole = f"{called} n = {' × '.join(parts)}"
    if len(whole) <= 120:
        return [whole]
    lines = [" × ".join(parts[at : at + 8]) for at in range(0, len(parts), 8)]
    return [f"{called} n =", f"    {lines[0]}"] + [f"    × {line}" for line in lines[1:]]


def number_places(rows):
    """Where the numbers are in the code and in its definitions."""
    for kind, number_of in NUMBERS.items():
        reasons = of_kind(rows, kind)
        yield Place(
            f"{BUFFER}/src/reason_numbers.rt",
            rf" +{TYPES[kind]}::\w+(?:\(_, why\))? => (?:\d+|point_text_number\(why\)),",
            each(
                reasons,
                f"        {TYPES[kind]}::{{code}} => {{number}},",
                "        RowReason::Polyline(_, why) => point_text_number(why),",
            ),
        )
        found = each(reasons, f"        {{number}} => Some({TYPES[kind]}::{{code}}),")
        yield Place(f"{BUFFER}/src/reason_texts.rt", rf" +\d+ => Some\({TYPES[kind]}::\w+\),", found)
        yield from clauses(
            rows,
            kind,
            f"{BUFFER}/specs/Numbers.antt",
            ("number_of", number_of),
            "{number}",
            "offset why) = point_text_number_of why",
        )
        called = {"row": "NamesNoRow", "polyline": "NamesNoPointText", "blob": "NamesNoBlob"}[kind]
        yield Place(
            f"{BUFFER}/specs/Texts.antt",
            rf"{called} n =(?: .*|(?:\n    .*)+)",
            unequal(called, [row.number for row in own(reasons)]),
        )


def proof_places(rows):
    """Where a lemma goes through all reasons."""
    file = f"{BUFFER}/proofs/RunLemmas.antt"
    reasons = {kind: own(of_kind(rows, kind)) for kind in TYPES}
    causes = (
        each(reasons["row"], "cause.Row 0 row.{code}")
        + each(reasons["polyline"], "cause.Row 0 (row.Polyline 0 text.{code})")
        + each(reasons["blob"], "cause.Blob 0 blob.{code}")
    )
    yield Place(file, r"    cause\.(?:Row|Blob) 0 .* ∷", [f"    {cause} ∷" for cause in causes])
    for kind, lemma in (
        ("polyline", "no_point_text n lacks"),
        ("row", "no_row n lacks points"),
        ("blob", "no_blob n lacks"),
    ):
        name = NAMES[kind]
        lines = [f"{lemma} {name}.{row.code} = λ e. lacks.{at} (sym e)" for at, row in enumerate(reasons[kind])]
        yield Place(file, rf"{lemma} {name}\.\w+ = .*", lines)


def name_places(rows):
    """Where the numbers and names of reasons and statuses are for C, Python and JavaScript."""
    for kind, digits in (
        ("row", r"1?\d"),
        ("polyline", r"[23]\d"),
        ("blob", r"[45]\d"),
        ("csv", r"8\d"),
        ("line", r"9\d"),
    ):
        yield Place(
            "include/polytwkb.h",
            rf"#define POLYTWKB_\w+ {digits}u",
            each(own(of_kind(rows, kind)), "#define POLYTWKB_{name} {number}u"),
        )
    reasons = [row for row in rows if row.what != "status"]
    first = {row.what.upper(): row.number for row in reversed(reasons)}
    classes = {
        "Status": [(row.name, row.number) for row in of_kind(rows, "status")],
        "Reason": [(row.name, row.number) for row in own(reasons)],
        "First": list(reversed(first.items())),
    }
    for name, numbers in classes.items():
        for file, heading, line in (
            ("python/polytwkb/_reasons.py", f"class {name}:\n", "    {} = {}"),
            ("js/src/reasons.js", f"const {name} = {{\n", "    {}: {},"),
        ):
            yield Place(file, line.format(r"\w+", r"\d+"), [line.format(*pair) for pair in numbers], heading)


def roff(said):
    """What the manual says, a line for each sentence, and words of the command line in bold type."""
    lines = re.sub(r"(?<=\.) ", "\n", said).replace("-", r"\-").replace("~", r"\(ti")
    return re.sub(r" (\\-\\-\S+) ", r"\n.B \1\n", lines)


def page_places(rows):
    """Where the manual and docs/FORMATS.md say when each reason holds."""
    for kind, (form, line, other) in FORMATS.items():
        reasons = of_kind(rows, kind)
        yield Place("docs/FORMATS.md", form, each(reasons, line, other))
        entries = [
            row.put(".TP\n.B {text}\n") + roff(row.said.get("manual", row.said["doc"]))
            if row.name != "-"
            else '.TP\n.BI "polyline at " O ": " reason\nThe polyline is refused, at byte\n.IR O .'
            for row in reasons
        ]
        yield Place("man/polytwkb.1", r"\.TP\n\.BI? .*(?:\n(?!\.TP|\.S).+)+", entries, f".SS {SECTIONS[kind]}\n")


def places(rows):
    """The places that are made."""
    for part in (text_places, rule_places, number_places, proof_places, name_places, page_places):
        yield from part(rows)


def written(some):
    """Writes the places that differ, and returns how many did."""
    count = 0
    for place in some:
        text, wanted = text_of(place.file), "\n".join(place.lines) + "\n"
        found = place.found(text)
        if found and found.group() != wanted:
            count += 1
            with open(os.path.join(REPO, place.file), "w", encoding="utf-8") as opened:
                opened.write(text[: found.start()] + wanted + text[found.end() :])
    return count


def made(rows):
    """What the places have that are made: the place, what should be there and what is."""
    for place in places(rows):
        found = place.found(text_of(place.file))
        yield f"{place.file}, {place.lines[0].strip().splitlines()[0]}", "\n".join(
            place.lines
        ) + "\n", found.group() if found else ""


def by_hand(rows):
    """What is written by hand of each reason besides when it holds: the refusals of rows, the grammar's reasons with
    their numbers, and the last number where the range of a kind is named."""
    code = text_of("crates/twkb_tree/src/row_checks.rt").split("pub enum Refusal {")[1].split("\n}\n")[0]
    rules = sorted(row.said["rule"] for row in ruled(rows))
    yield "crates/twkb_tree/src/row_checks.rt, Refusal", rules, sorted(re.findall(r"^    (\w+),$", code, re.M))
    blobs = of_kind(rows, "blob")
    lines = re.search(r"^pub data Reason .*\n((?:  .*\n)+)", text_of("crates/twkb_grammar/specs/Fault.antt"), re.M)[1]
    yield "crates/twkb_grammar/specs/Fault.antt, Reason", [row.code for row in blobs], re.findall(r"\w+", lines)[:-1]
    file = "crates/twkb_arrays/proofs/ReadingLaws.antt"
    pairs = re.findall(r"^fault_number grammar\.(\w+) = (\d+)$", text_of(file), re.M)
    yield f"{file}, fault_number", [(row.code, str(row.number)) for row in blobs], pairs
    named = [glob.glob(f"{BUFFER}/{part}", root_dir=REPO) for part in ("README.md", "specs/*.antt", "src/*.rt")]
    for file in ["include/polytwkb.h", *sorted(sum(named, []))]:
        for kind in {row.what: None for row in rows if row.number > 20}:
            first, last = (at(row.number for row in of_kind(rows, kind)) for at in (min, max))
            for found in re.findall(rf"\b{first} to (\d+)\b", text_of(file)):
                yield f"{file}, {first} to", last, int(found)


def difference(wanted, found, script="scripts/reasons.py"):
    """How what a place has differs from what it should have."""
    if not isinstance(wanted, str):
        return f"{found} in place of {wanted}"
    lines = difflib.unified_diff(found.splitlines(), wanted.splitlines(), lineterm="", n=0)
    return "\n    ".join(
        [
            f"'{script} --write' would change",
            *[line for line in lines if not line.startswith(("---", "+++", "@@"))],
        ]
    )


def compare(rows):
    """Reports each place that differs, and returns how many do."""
    compared = [*made(rows), *by_hand(rows), *reason_numbers.compared(rows)]
    faults = [f"{place}: {difference(wanted, found)}" for place, wanted, found in compared if wanted != found]
    return report(f"scripts/reasons.txt: {len(compared)} comparisons", faults)


def main(words=()):
    if "--write" in words:
        print(f"{written(places(table()))} places written")
    return compare(table())


if __name__ == "__main__":
    sys.exit(1 if main(sys.argv[1:]) else 0)
