#!/usr/bin/env python3
"""Runs the commands that documents show, and compares their output with the output shown. Compares the callers in the
READMEs of crates with the files of the crate `examples`, which the gate proves. Then runs pages.py, promises.py,
conversions.py, reasons.py and version.py, which need no program. Exit status: 0 if all is as the documents say, 1 if not, 2 if there is no program.

    scripts/docs_test.py [FILE ..]
    scripts/docs_test.py --pages      all but the commands, for which a program is needed

A block fenced with ```sh is one command, and a block fenced with ```text after it is its complete output, to standard
output and standard error; without one the command prints nothing. In a block fenced with ```console a line that begins
with '$ ' is a command, lines after it that begin with '> ' continue it, and the lines up to the next command are its
complete output. Blank lines at the end do not count. A command whose first line is '# needs TOOL' is skipped if the
tool is missing, and so is one that prints only 'skipped: needs TOOL', as recipes do.

The commands of a file run in order in one session of bash, in a fresh folder, with bin/ of this repository on the path,
$REPO set to the repository and $RECIPES to its recipes, and no input. A command that fails does not end the session.

An indented line of docs/RECIPES.md is what a user types on files of his own. It must be, word for word, a line of a
demonstration in examples/recipes, which runs it. Each command there, which a line with four blanks begins, must end
with a status other than 0 in an empty folder, without `pipefail`.

The line for a CSV of one's own is the same in README.md and in docs/USING.md. What it makes of files that it is not
for, `pack` must refuse.

If a line of a crate's README ends with a link to a file of crates/example_callers/src and a colon, a block fenced with ```rust
follows, which must be that file. Each file there, except lib.rt and tests.rt, must be shown by a README.
"""
import difflib
import glob
import os
import re
import shutil
import subprocess
import sys
import tempfile
from functools import partial

import conversions
import pages
import promises
import reasons
import version
from pages import REPO, report, text_of

FILES = ["README.md", "docs/USING.md", "docs/RECIPES.md", "crates/polytwkb/README.md"]
RECIPES = os.path.join(REPO, "examples", "recipes")
# docs/USING.md names the folder SCALE of scripts
SCALE, PATH = f"{REPO}/examples/scale", f"{REPO}/bin:{os.environ['PATH']}"
ENVIRONMENT = dict(os.environ, REPO=REPO, RECIPES=RECIPES, SCALE=SCALE, PATH=PATH)
OWN_LINE = re.compile(r"^(python3 \S*/column_to_table\.py .* < routes\.csv > routes\.table) &&$", re.M)
OWN_FILE = "route_id,polyline,name\n12,yop}Gysml@lAxTfChSgKhK,Bern\n14,,\n"
# Commands that make other files of it: those that the line is for, and those that it is not for.
RIGHT_FILES = ["cat", r"tr '\n' '\r'", r"sed 's/$/\r/; 1s/^/\xef\xbb\xbf/'", "cut -d , -f 1,2"]
WRONG_FILES = ["sed 1d", "tr , ';'", "gzip -nc", "cut -d , -f 1,3", "iconv -t UTF-16", "sed 's/^14,/14,NULL/'", "true"]
MARK = "--- end of the command ---"
SECONDS = 1800


def commands_of(page):
    """The commands that a document shows, in their order: the number of the line, the text and the output of each."""
    commands, before = [], None
    for block in re.finditer(r"^ *```([^\n]*)\n(.*?)^ *```$", text_of(page), re.S | re.M):
        line = text_of(page).count("\n", 0, block.start(2)) + 1
        if block[1] == "sh":
            commands.append((line, block[2].rstrip("\n"), ""))
        elif block[1] == "text" and before == "sh":
            commands[-1] = (*commands[-1][:2], block[2])
        elif block[1] == "console":
            if not block[2].startswith("$ "):
                sys.exit(f"{page}:{line}: the block does not begin with a command")
            for shown in re.finditer(r"^\$ (.*(?:\n> .*)*)\n((?:(?!\$ ).*\n)*)", block[2], re.M):
                place = line + block[2].count("\n", 0, shown.start())
                commands.append((place, shown[1].replace("\n> ", "\n"), shown[2]))
        before = block[1]
    return commands


def runnable(text):
    """The text of a command, or of a command that reports a missing tool, if the first line names one."""
    needed = re.match(r"# needs (\S+)\n", text)
    return text if not needed or shutil.which(needed[1]) else f"echo skipped: needs {needed[1]}"


def in_new_folder(text, environment):
    """What bash did with a text in an empty folder, with no input."""
    with tempfile.TemporaryDirectory(prefix="docs_test.") as folder:
        return subprocess.run(
            ["bash", "-c", text],
            cwd=folder,
            env=environment,
            stdin=subprocess.DEVNULL,
            capture_output=True,
            encoding="utf-8",
            errors="backslashreplace",
            timeout=SECONDS,
        )


def trimmed(text):
    """The text without blank lines at its end."""
    return re.sub(r"(^|\n)\s*$", "", text)


def printed_by(commands):
    """What each command prints, which can see the status of the one before, and what comes after the last that ends."""
    # README.md is typed at the top of the repository
    lines = ["exec 2>&1", f"ln -s '{REPO}/examples' examples"]
    for _, text, _ in commands:
        lines += [runnable(text), "__status=$?", f"printf '\\n%s\\n' '{MARK}'", "(exit $__status)"]
    run = in_new_folder("\n".join(lines), dict(ENVIRONMENT, LC_ALL="C.UTF-8"))
    return [trimmed(part) for part in run.stdout.split(f"\n{MARK}\n")]


def compared(page):
    """How many commands of a document print something else, each reported."""
    commands = commands_of(page)
    outputs, faults, skipped = printed_by(commands), [], 0
    for (line, text, shown), output in zip(commands, outputs[:-1]):
        if output.startswith("skipped: needs ") and "\n" not in output:
            skipped += 1
            print(f"skip  {page}:{line}: {output.removeprefix('skipped: ')}")
        elif output != trimmed(shown):
            differs = difference(trimmed(shown), output, "document", "run")
            faults.append(f"{page}:{line}: $ {text.splitlines()[0]}{differs}")
    if len(outputs) <= len(commands):
        line, text, _ = commands[len(outputs) - 1]
        faults.append(f"{page}:{line}: the session ended in $ {text.splitlines()[0]}\n{outputs[-1]}")
    return report(f"{page}: {len(commands)} commands, {skipped} skipped", faults)


def difference(wanted, found, *names):
    """The lines in which two texts differ."""
    lines = difflib.unified_diff(wanted.split("\n"), found.split("\n"), *names, lineterm="")
    return "".join(f"\n    {line}" for line in lines)


def callers():
    """How many callers differ from their files or are not shown, each reported."""
    form = re.compile(r"\(\.\./example_callers/src/([a-z_]+\.rt)\):\n(?:\n?```rust\n(.*?)^```$)?", re.S | re.M)
    shown, faults = {"lib.rt", "tests.rt"}, []
    for path in sorted(glob.glob(os.path.join(REPO, "crates", "*", "README.md"))):
        for name, block in form.findall(text_of(path)):
            shown.add(name)
            held = text_of(f"crates/example_callers/src/{name}")
            if block.rstrip("\n") != held.rstrip("\n"):
                faults.append(
                    f"{path}: not as in crates/example_callers/src/{name}{difference(block, held, 'README', name)}"
                )
    lost = sorted(set(os.listdir(f"{REPO}/crates/example_callers/src")) - shown)
    faults += [f"crates/example_callers/src/{name}: no README shows it" for name in lost]
    return report(f"crates/*/README.md: {len(shown) - 2} callers", faults)


def typed_lines():
    """The indented lines of the page of recipes that are in no fenced block."""
    return re.findall("^    .*", re.sub(r"^```.*?^```", "", text_of("docs/RECIPES.md"), flags=re.S | re.M), re.M)


def lines_not_run():
    """How many lines of the page of recipes no demonstration runs, each reported."""
    run = {line.strip() for path in glob.glob(os.path.join(RECIPES, "*sh")) for line in text_of(path).split("\n")}
    typed = typed_lines()
    faults = [f"docs/RECIPES.md: no demonstration runs: {line}" for line in typed if line.strip() not in run]
    return report(f"docs/RECIPES.md: {len(typed)} lines to type", faults)


def on_files(text):
    """What bash did with a text in an empty folder, while no server of PostgreSQL answers."""
    own = {name: value for name, value in ENVIRONMENT.items() if not name.startswith("PG")}
    return in_new_folder(text, dict(own, PGHOST="/nonexistent"))


def commands_on_nothing():
    """How many commands of the page of recipes end with status 0 if all files are missing, each reported."""
    commands = re.findall(r"^    \S.*(?:\n     .*)*", "\n".join(typed_lines()), re.M)
    faults = [f"docs/RECIPES.md: status 0: {text}" for text in commands if on_files(text).returncode == 0]
    return report(f"docs/RECIPES.md: {len(commands)} commands without files", faults)


def wrong_files():
    """How many faults the line for a CSV in README.md and docs/USING.md has, each reported."""
    lines = {line for page in ("README.md", "docs/USING.md") for line in OWN_LINE.findall(text_of(page))}
    faults = [] if len(lines) == 1 else [f"{len(lines)} lines for a CSV in README.md and docs/USING.md"]
    line = min(lines, default="false")
    for command in RIGHT_FILES + WRONG_FILES:
        made = f"printf '{OWN_FILE}' | {command} > routes.csv"
        run = on_files(f"{made}\n{line}\npolytwkb pack < routes.table > routes.twkb")
        right = command in RIGHT_FILES
        said = "" if right else ": not five fields\n"
        if run.returncode != (not right) or not run.stderr.endswith(said) or run.stderr.startswith("polytwkb"):
            faults.append(f"the line for a CSV after {command}: status {run.returncode}, {run.stderr}")
    return report(f"README.md: {len(RIGHT_FILES + WRONG_FILES)} files through the line for a CSV", faults)


def main(words):
    """How many faults there are."""
    checks = [callers, lines_not_run, pages.main, promises.main, conversions.main, reasons.main, version.main]
    if words != ["--pages"]:
        if not os.access(os.path.join(REPO, "bin", "polytwkb"), os.X_OK):
            print("docs_test: no bin/polytwkb; 'make build' makes it", file=sys.stderr)
            sys.exit(2)
        checks += [commands_on_nothing, wrong_files, *(partial(compared, page) for page in FILES)]
        checks = [partial(compared, page) for page in words] or checks
    return sum(check() for check in checks)


if __name__ == "__main__":
    sys.exit(1 if main(sys.argv[1:]) else 0)
