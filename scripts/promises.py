#!/usr/bin/env python3
"""Compares the tables of promises in the READMEs of crates with the code and the folders must-fail/; status 1 if a name
is wrong. A table has the heads Promise, Clause and Edits; a crate without edits has no third column.

- The names in a cell of Clause are in backticks. Each is, of the crate itself,
  - a public function that has a clause, or a function of a public trait or of an implementation of one;
  - the label of a clause of such a function, or a ghost member of a public trait;
  - a `pub` definition of specs/, or a field of one.
  A cell that begins with `private: ` names functions that are not public, and labels of their clauses, as well.
- The names in a cell of Edits are those of files must-fail/NAME.edit of this crate; one of another crate is
  `CRATE/NAME`.
- Each edit of a crate is beside a promise of its README.
"""
import glob
import os
import re
import sys

from pages import REPO, report, text_of

TABLE = re.compile(r"^\| Promise \| Clause \|(?: Edits \|)?\n\|[-| ]*\n((?:\|.*\n)+)", re.M)
BLOCK = re.compile(r"(pub )?(?:unsafe )?(trait|impl)\b(.*)")
FUNCTION = re.compile(r'\s*(pub(?:\([a-z]+\))? |)(?:const |unsafe |extern "C" )*fn (\w+)')
CLAUSE = re.compile(r"\s*(?:ensures|requires)\*?\s+(?:(\w+)\s+)?\{")
GHOST = re.compile(r"    ghost (\w+):")
KIND = r"(?:(?:abbrev|unfoldable|record|data|inline|mutual)\s+)*"
DEFINITION = re.compile(rf"^\s*{KIND}pub\s+{KIND}([A-Za-z_][\w-]*)", re.M)


def texts_of(crate, files):
    """The texts of files of a crate."""
    return map(text_of, glob.glob(os.path.join(REPO, "crates", crate, files), recursive=True))


def clauses_in(text, private=False):
    """Public functions of a source file that have clauses, the labels of these, ghost members of public traits; with
    `private`, functions that are not public as well."""
    found, opens, function = set(), False, None
    for line in text.split("\n"):
        block, called, clause, ghost = (form.match(line) for form in (BLOCK, FUNCTION, CLAUSE, GHOST))
        if block:
            opens = " for " in block.group(3) or (block.group(2) == "trait" and block.group(1) is not None)
        elif line == "}":
            opens = False
        elif called:
            is_public = called.group(1) == "pub " or (opens and not called.group(1))
            function = called.group(2) if is_public or private else None
        elif clause and function:
            found |= {function, clause.group(1) or function}
        elif ghost and opens:
            found.add(ghost.group(1))
    return found


def citable(crate, private=False):
    """What a row of a crate may cite; with `private`, what is not public as well."""
    written = set().union(*(clauses_in(text, private) for text in texts_of(crate, "src/**/*.rt")))
    return written.union(*map(DEFINITION.findall, texts_of(crate, "specs/**/*.antt")))


def edits_of(crate):
    """The names of the edits of a crate."""
    paths = glob.glob(os.path.join(REPO, "crates", crate, "must-fail", "*.edit"))
    return {os.path.basename(path).removesuffix(".edit") for path in paths}


def rows_of(crate):
    """The rows of the tables of promises in a crate's README: promise, clause and edits of each."""
    for table in TABLE.findall(text_of(f"crates/{crate}/README.md")):
        for line in table.splitlines():
            yield [cell.strip() for cell in line.strip("|").split("|")]


def backticked(cell):
    """The names in backticks in a cell, each without its path up to the last `::`."""
    return [name.split("::")[-1] for name in re.findall(r"`([^`]+)`", cell)]


def faults_of(crate, rows):
    """What is wrong with the rows of a crate, a line each."""
    public, every, shown, edits = citable(crate), citable(crate, private=True), set(), edits_of(crate)
    for promise, clause, *cells in rows:
        here = f"crates/{crate}/README.md, {promise}"
        cited, names = backticked(clause), every if clause.startswith("private: ") else public
        yield from (
            f"{here}: no clause or definition to cite is called `{name}`" for name in cited if name not in names
        )
        if not cited:
            yield f"{here}: no clause"
        for name in backticked("".join(cells)):
            other, _, edit = name.rpartition("/")
            shown.add(name)
            if edit not in (edits_of(other) if other else edits):
                yield f"{here}: no edit is called `{name}`"
    yield from (f"crates/{crate}/must-fail/{name}.edit: is beside no promise" for name in sorted(edits - shown))


def main():
    rows = {crate: list(rows_of(crate)) for crate in re.findall(r"^(\w+)[ :]", text_of("crates.txt"), re.M)}
    faults = [fault for crate, own in rows.items() for fault in faults_of(crate, own)]
    promises, edits = sum(map(len, rows.values())), sum(len(edits_of(crate)) for crate in rows)
    return report(f"crates/*/README.md: {promises} promises, {edits} edits", faults)


if __name__ == "__main__":
    sys.exit(1 if main() else 0)
