"""Compares with the table of reasons the numbers and texts that are written by hand. scripts/reasons.py calls it.

STATUSES has the lines of pages and of the help that have the number of a status: a pattern with `#` for it. Python and
JavaScript have numbers in one module each, which is made. Proofs bind the numbers of definitions to those of the code,
and the examples in C compare what calls answer with those of the header.
"""
import glob
import os
import re

from pages import REPO, text_of
from reason_table import BUFFER, OTHERS, of_kind, own

CRATES = ["crates/twkb_command", BUFFER, "crates/twkb_arrays", "crates/twkb_c"]
STATUSES = {
    "docs/USING.md": [
        (r"\| # \| all was converted", "DONE"),
        (r"\| # \| a record or a blob was refused", "REFUSED"),
        (r"\| # \| the command line was refused", "ARGUMENTS"),
        (r"\| # \| a file could not be opened", "DEVICE"),
        (r"\| # \| out of memory", "MEMORY"),
    ],
    "crates/twkb_command/src/help.rt": [
        ("  #  all was converted", "DONE"),
        ("  #  the input was refused", "REFUSED"),
        ("  #  the command line was refused", "ARGUMENTS"),
        ("  #  a file could not be opened", "DEVICE"),
        ('  #  out of memory";', "MEMORY"),
    ],
    "man/polytwkb.1": [
        (r"#\nAll was converted", "DONE"),
        (r"#\nThe input was refused", "REFUSED"),
        (r"#\nThe arguments of the command line", "ARGUMENTS"),
        (r"#\nA file could not be opened", "DEVICE"),
        (r"#\nOut of memory", "MEMORY"),
    ],
    "docs/FORMATS.md": [
        (r"\| `polytwkb: record N: T` \| # \|", "REFUSED"),
        (r"\| `polytwkb: byte O: T` \| # \|", "REFUSED"),
        (r"\| `polytwkb: input or output too long` \| # \|", "REFUSED"),
        (r"\| `polytwkb: too many records` \| # \|", "REFUSED"),
        (r"\| `polytwkb: read failed` \| # \|", "DEVICE"),
        (r"\| `polytwkb: write failed` \| # \|", "DEVICE"),
        (r"\| `polytwkb: out of memory` \| # \|", "MEMORY"),
        (r"A word that is not UTF-8 .* status #\.", "ARGUMENTS"),
    ],
}
# A status or a reason that is compared with a number without a name, or a number that is given as a reason, in Python or JavaScript.
BARE = re.compile(
    r"^.*(?:\b(?:status|reason)\b *(?:[<>]=?|[!=]==?) *\d|\b\d+ *(?:[<>]=?|[!=]==?) *(?:\w+\.)?(?:status|reason)\b"
    r"|\b(?:Refused|reason_text|reasonText)\(\d).*$",
    re.M,
)


def statuses(rows):
    """The numbers of statuses in pages and in the help."""
    of_name = {row.name: row.number for row in own(rows)}
    for file, some in STATUSES.items():
        for line, name in some:
            found = re.findall("^" + line.replace("#", r"(\d+)"), text_of(file), re.M)
            yield f"{file}, {line}", [str(of_name[name])], found


def bare_numbers(rows):
    """The lines of Python and JavaScript that compare a status or a reason with a number."""
    for folder in ("python/polytwkb/*.py", "js/src/*.js"):
        found = [
            line.strip()
            for file in sorted(glob.glob(os.path.join(REPO, folder)))
            for line in BARE.findall(text_of(file))
        ]
        yield f"{folder}, numbers without a name", [], found


def whole_input(rows):
    """What is said of the reasons that are those of a whole input, which stand among other causes."""
    wanted = of_kind(rows, "whole")
    for file, line, columns in (
        ("crates/twkb_convert/src/report.rt", r'^ *Cause::(\w+) => "(.*)",$', ("code", "text")),
        ("crates/twkb_convert/specs/Causes.antt", r'^\w+ cause\.(\w+) = codes "(.*)"$', ("code", "text")),
        (f"{BUFFER}/src/reason_numbers.rt", r"^ *Cause::(\w+) => (\d+),$", ("code", "number")),
        (f"{BUFFER}/src/reason_texts.rt", r"^ *(\d+) => Some\(Cause::(\w+)\),$", ("number", "code")),
        (f"{BUFFER}/specs/Numbers.antt", r"^reason_number_of cause\.(\w+) = (\d+)$", ("code", "number")),
    ):
        pairs = [tuple(str(getattr(row, column)) for column in columns) for row in wanted]
        yield f"{file}, Cause", pairs, [pair for pair in re.findall(line, text_of(file), re.M) if pair in pairs]


def other_texts(rows):
    """The numbers and texts of the reasons for which arrays and columns are refused: of the code and of its definition."""
    wanted = [(row.number, row.text) for kind in ("array", "csv", "line") for row in of_kind(rows, kind)]
    for file, line in (
        ("src/reason_texts.rt", r'^ *(\d+) => "(.*)",$'),
        ("specs/Texts.antt", r'if number == (\d+) then codes "(.*?)"'),
    ):
        found = re.findall(line, text_of(f"{BUFFER}/{file}"), re.M)
        yield f"{BUFFER}/{file}", wanted, sorted((int(number), text) for number, text in found)


def columns(rows):
    """The numbers and the texts of the reasons for which a column is refused, where the code and its definitions have them."""
    for kind, form, crate, texts in (
        ("csv", "ColumnReason", "twkb_column", "specs/Causes.antt"),
        ("line", "LineReason", "twkb_rest", "specs/Unpacked.antt"),
    ):
        wanted = of_kind(rows, kind)
        number_of = {"csv": "column_number_of", "line": "line_number_of"}[kind]
        words_of = {"csv": "reason_words", "line": "line_words"}[kind]
        for file, line, column in (
            (f"crates/{crate}/src/fault.rt", rf'^ *{form}::(\w+) => "(.*)",$', "text"),
            (f"crates/{crate}/{texts}", rf'^{words_of} (\w+) = codes "(.*)"$', "text"),
            (f"{BUFFER}/src/column_numbers.rt", rf"^ *{form}::(\w+) => (\d+),$", "number"),
            (f"{BUFFER}/specs/ColumnNumbers.antt", rf"^{number_of} {kind}\.(\w+) = (\d+)$", "number"),
        ):
            pairs = [(row.code, str(getattr(row, column))) for row in wanted]
            yield f"{file}, {form}", pairs, re.findall(line, text_of(file), re.M)


def c_names(rows):
    """The numbers of all reasons and statuses in the header for C."""
    header = re.findall(
        r"^#define POLYTWKB_(\w+) (\d+)u", text_of("include/polytwkb.h").split("/* Styles of packed blobs")[0], re.M
    )
    yield "include/polytwkb.h", sorted((row.name, row.number) for row in own(rows)), sorted(
        (name, int(number)) for name, number in header
    )


def constants(rows):
    """The numbers of statuses and reasons that the code names."""
    of_name = {row.name: row.number for row in own(rows)}
    for crate in CRATES:
        text = "\n".join(map(text_of, glob.glob(f"{REPO}/{crate}/src/**/*.rt", recursive=True)))
        for name, number in re.findall(r"^(?:pub(?:\(crate\))? )?const (\w+): u(?:8|32) = (\d+);", text, re.M):
            if OTHERS.get(name, name) in of_name:
                yield f"{crate}/src, {name}", of_name[OTHERS.get(name, name)], int(number)


def compared(rows):
    """Each place that is compared: its name, what should be there and what is."""
    for part in (whole_input, other_texts, columns, c_names, constants, statuses, bare_numbers):
        yield from part(rows)
