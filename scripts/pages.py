#!/usr/bin/env python3
"""Checks of pages that need no program: the targets of their links, what README.md says to type, and the definitions
that docs/FORMATS.md names.

    scripts/pages.py            reports faults; status 1 if there are any
    scripts/pages.py FOLDER     the links of the pages in and below an installed folder alone

The first block of README.md is the lines that do all the set-up: `make demo` and `make test`. Each `make TARGET` there
is a target of the Makefile, and beside each of the two the page names the script that it calls.

A link to a file of this repository is checked: the file must exist, and so must the heading after '#'.

In docs/FORMATS.md each word between backquotes in a column "Said by" must be a definition, a field or a case of
crates/*/specs/; the first word, of the one crate that the text above the tables names, unless the cell names another.

The names of files and crates in all pages, and the names that pages give to a crate: see scripts/page_names.py.
"""
import glob
import os
import re
import sys

import page_names

REPO = os.path.abspath(os.path.join(os.path.dirname(__file__), ".."))
SET_UP = ["demo", "test"]

DEFINED = re.compile(r"(?<![\w.])(\w+) :(?= |$)|\b(?:record|data) (?:pub )?(\w+)", re.M)
BELOW = re.compile(r"names in the tables below are those of `crates/(\w+)/specs/`")
FENCED = re.compile(r"^\s*```.*?^\s*```", re.S | re.M)
LINK = re.compile(r"\[[^\]]*\]\(([^)\s]+)\)")
HEADING = re.compile(r"^#+ +(.*)$", re.M)
SHOWN = re.compile(r"(?:^    |`)make ([a-z-]+)", re.M)
TARGET = re.compile(r"^([a-z-]+):", re.M)


def text_of(page):
    with open(os.path.join(REPO, page), encoding="utf-8") as file:
        return file.read()


def report(name, faults):
    """Prints the faults of a check, a line each, and its own line; returns how many there are."""
    print("".join(f"{fault}\n" for fault in faults), end="")
    print(f"{'FAIL' if faults else 'ok  '}  {name}, {len(faults)} faults")
    return len(faults)


def pages(top):
    """All pages of a repository, or of an installed folder, as paths from it."""
    patterns = ("*.md", "docs/*.md", "*/README.md", "*/*/README.md")
    return sorted({path for pattern in patterns for path in glob.glob(pattern, root_dir=top)})


def anchors_of(page):
    """The words that may come after '#' in a link to a page."""
    lines = HEADING.findall(FENCED.sub("", text_of(page)))
    headings = [re.sub(r"\[([^\]]*)\]\([^)]*\)", r"\1", line) for line in lines]
    return {re.sub(r"[^\w\- ]", "", heading).strip().lower().replace(" ", "-") for heading in headings}


def lost_links(top):
    """The links of pages whose targets do not exist."""
    for page in pages(top):
        here = os.path.join(top, page)
        for target in LINK.findall(re.sub(r"`[^`\n]*`", "", FENCED.sub("", text_of(here)))):
            path, _, anchor = target.partition("#")
            where = os.path.join(os.path.dirname(here), path) if path else here
            if re.match(r"[a-z]+:", target):
                continue
            if not os.path.exists(where):
                yield f"{page}: nothing is at {target}"
            elif anchor and anchor not in anchors_of(where):
                yield f"{page}: no heading is at {target}"


def front_faults():
    """What README.md says to type, and the Makefile or a script has not."""
    page, targets = text_of("README.md"), TARGET.findall(text_of("Makefile"))
    first = re.search(r"(?:^    .*\n)+", page, re.M)
    if not first or SHOWN.findall(first[0]) != SET_UP:
        yield f"README.md: its first block is not {' and '.join('make ' + name for name in SET_UP)}"
    yield from (f"README.md: the Makefile has no {name}" for name in SHOWN.findall(page) if name not in targets)
    for script in (f"scripts/{name}.sh" for name in SET_UP):
        if f"`{script}`" not in page or not os.access(os.path.join(REPO, script), os.X_OK):
            yield f"README.md: {script} is not named, or no program"


def said_by():
    """The words in the column "Said by" of docs/FORMATS.md: the line's number, the word, the crate meant if one is."""
    inside, crate = False, "*"
    for number, line in enumerate(text_of("docs/FORMATS.md").split("\n"), 1):
        crate = "*" if line.startswith("## ") else (BELOW.findall(line) or [crate])[0]
        cells = [cell.strip() for cell in re.split(r"(?<!\\)\|", line)[1:-1]]
        inside = bool(cells) and (inside or cells[-1] == "Said by")
        for span in re.findall(r"`([^`]*)`", cells[-1]) if inside else ():
            words = [word for word in re.findall(r"[A-Za-z]\w*", span) if not word.startswith("twkb_")]
            meant = "*" if "`twkb_" in cells[-1] else crate
            yield from ((number, word, "*" if place else meant) for place, word in enumerate(words))


def defined_in(crate):
    """The definitions, fields and cases of the specs/ of a crate, or of all for '*'."""
    paths = glob.glob(os.path.join(REPO, "crates", crate, "specs", "*.antt"))
    return {word for path in paths for words in DEFINED.findall(text_of(path)) for word in words if word}


def lost_definitions():
    """The words of docs/FORMATS.md that should be definitions, and are none."""
    said = list(said_by())
    known = {crate: defined_in(crate) for crate in {crate for _, _, crate in said}}
    for number, word, crate in said:
        if word not in known[crate]:
            yield f"docs/FORMATS.md:{number}: crates/{crate}/specs/ defines no {word}"


def lost_names():
    """The names in pages that nothing has; in blocks of code none is looked up."""
    for page in pages(REPO):
        yield from page_names.lost_names(page, FENCED.sub(lambda block: "\n" * block[0].count("\n"), text_of(page)))


def main(top=REPO):
    of_repository = [*front_faults(), *lost_definitions(), *lost_names()] if top == REPO else []
    return report(f"{len(pages(top))} pages: links, set-up and definitions", [*lost_links(top), *of_repository])


if __name__ == "__main__":
    sys.exit(1 if main(*sys.argv[1:]) else 0)
