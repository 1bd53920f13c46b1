"""The names that pages give to files and to crates, each looked up: for scripts/pages.py.

In the pages of the repository a span between backquotes is looked up if it is
- a name of a file (`Record.antt`, `src/laws.rt`, `scripts/{pages,promises}.py`): some file must end so;
- a name of a crate (`twkb_num`): it must be in crates.txt;
- followed by "of" and a crate, as `span_line` of `twkb_convert`: the word must be in that crate's src/, specs/ or
  proofs/, or be the name of a file there;
- in a row of a table in docs/ that names crates in a cell of their own: the word must be in one of these crates, unless
  it is the crate's README that says it;
- in a column of files of specs/ or proofs/ (its heading says so), beside a crate: a file there must have the name.
"""
import functools
import os
import re
import subprocess

REPO = os.path.abspath(os.path.join(os.path.dirname(__file__), ".."))

SPAN = re.compile(r"`([^`\n]+)`")
FILE = re.compile(r"(?:[\w.-]+/)*[\w.{},-]*\w\.(?:rt|antt|edit|py|sh|bash|js|mjs|cjs|ts|c|h|md|rs|html|css|map|toml)$")
CRATE = re.compile(r"twkb_[a-z]+$")
OF_CRATE = re.compile(r"`([\w:]+)`(?:, `[\w:]+`)* (?:of|in) `(twkb_\w+)`")
WORD = re.compile(r"[A-Za-z]\w*")
NAME = re.compile(r"[A-Za-z]\w*(?:::[A-Za-z]\w*)*$")
PLACE = re.compile(r"\b(?:CRATE|NAME|CHECKOUT|MODULE|FN|FUNCTION|FOLDER|X)\b")  # stands for a name
MADE = ("bin/", "out/", "dist/", "js/polytwkb.wasm", "crates/polytwkb/out")
FILES_OF = re.compile(r"(?:Files|Lemmas)\b.*`(?:crates/NAME/)?(specs|proofs)/`")


@functools.cache
def files():
    """All files that git tracks or may track, from the top."""
    words = ["git", "-C", REPO, "ls-files", "--cached", "--others", "--exclude-standard"]
    return subprocess.run(words, stdout=subprocess.PIPE, check=True, text=True).stdout.split("\n")


@functools.cache
def words_of(crate):
    """All words in the sources of a crate, and the names of its files."""
    found = set()
    for path in files():
        if path.startswith(f"crates/{crate}/") and path.endswith((".rt", ".antt")):
            found.update(re.split(r"[/.]", path))
            with open(os.path.join(REPO, path), encoding="utf-8") as file:
                found.update(WORD.findall(file.read()))
    return found


@functools.cache
def crates():
    return {path.split("/")[1] for path in files() if path.startswith("crates/")}


@functools.cache
def functions_of_sql():
    """The words of the extensions, among which are the functions of SQL."""
    named = [path for path in files() if path.startswith("extensions/") and path.endswith((".sql", ".c"))]
    texts = [open(os.path.join(REPO, path), encoding="utf-8").read() for path in named]
    return {word for text in texts for word in WORD.findall(text)}


def each_of(text):
    """The names that `a/{b,c}.d` stands for."""
    braces = re.search(r"\{([^{}]*)\}", text)
    if not braces:
        return [text]
    return [one for word in braces[1].split(",") for one in each_of(text.replace(braces[0], word, 1))]


def is_file(name):
    name = re.sub(r"^(\.\./)+", "", name)
    return any(path == name or path.endswith("/" + name) for path in files())


def lost_files(text):
    """The names of files in a text that no file has."""
    for span in SPAN.findall(text):
        if PLACE.search(span) or "*" in span:
            continue
        if FILE.match(span):
            yield from (name for name in each_of(span) if not name.startswith(MADE) and not is_file(name.strip("/")))
        elif CRATE.match(span) and span not in crates() | functions_of_sql():
            yield span


def lost_words(text):
    """The names that a text gives to a crate which has none of them."""
    for said in OF_CRATE.finditer(text):
        names = SPAN.findall(said[0])[:-1]
        # a list may begin with a name of the header for C
        names = [name for name in names if not name.startswith("polytwkb_")]
        yield from (f"{name} of {said[2]}" for name in names if not has(name, {said[2]}))


def has(name, among):
    return any(name.split("::")[-1] in words_of(crate) for crate in among)


def lost_in_rows(lines):
    """The names in tables beside a crate that has none of them, and the files of a column of files that are not there."""
    heading = []
    for number, line in enumerate(lines, 1):
        cells = [cell.strip() for cell in re.split(r"(?<!\\)\|", line)[1:-1]]
        if not cells:
            heading = []
            continue
        heading = heading or cells
        named = {span for cell in cells[:2] for span in SPAN.findall(cell) if CRATE.match(span)}
        alone = [
            place for place, cell in enumerate(cells) if re.sub(r"`twkb_\w+`|[, ]|or|and", "", cell) == "" and cell
        ]
        kinds = [FILES_OF.search(cell) for cell in heading]
        for cell, kind in zip(cells, kinds):
            crate = None
            for span in SPAN.findall(cell) if kind else ():
                crate = span if CRATE.match(span) else crate
                folder = f"crates/{crate or next(iter(named), '')}"
                if NAME.match(span) and not CRATE.match(span) and not is_file(f"{folder}/{kind[1]}/{span}.antt"):
                    if not is_file(f"{folder}/specs/{span}.antt"):
                        yield number, f"{folder}/{kind[1]}/{span}.antt"
        if alone and named and not any(kinds):
            for cell in cells[: alone[-1]]:
                for span in SPAN.findall(cell):
                    if NAME.match(span) and not CRATE.match(span) and not has(span, named):
                        yield number, f"{span} in {', '.join(sorted(named))}"


def lost_names(page, text):
    """What a page names and the repository has not, a line each."""
    lines = text.split("\n")
    for number, line in enumerate(lines, 1):
        yield from (f"{page}:{number}: there is no {name}" for name in [*lost_files(line), *lost_words(line)])
    if page.startswith("docs/"):
        yield from (f"{page}:{number}: there is no {name}" for number, name in lost_in_rows(lines))
