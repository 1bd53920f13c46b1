#!/usr/bin/env python3
"""Compares the completions for bash, zsh and fish, and the manual page, with the help of the built program.

    scripts/completions.py [PROGRAM]

Each file of completions must have the lines that follow from help, and no others of their form. An option with a value
has possible values in help, or a range in the place of the value, or the name of a file, which is also the word of a
command that belongs to no option. The page must name each word of the command line and
no other option, and have each text of a run's end but those of reasons, which scripts/reasons.py compares.
"""
import difflib
import os
import re
import subprocess
import sys
from typing import NamedTuple

from pages import REPO, report, text_of

# The lines of each file that follow from help.
FORMS = {
    "polytwkb.bash": r" +\w*,.*\) (words|files)=.*",
    "_polytwkb": r"  '\w+:.*'|      \w+\)| +'.*\[.*\].*| +'1:file:.*",
    "polytwkb.fish": r"complete -c polytwkb -n .*",
}


class Option(NamedTuple):
    """An option of the program or of a command: its forms, what it means, and the words that may follow it."""

    short: str
    long: str
    means: str
    span: str
    names: str
    is_file: bool
    has_text: bool

    def forms(self):
        return [form for form in (self.long, self.short) if form]


def help_of(program, *words):
    return subprocess.run([program, *words, "-h"], capture_output=True, text=True, check=True).stdout


def options_of(shown):
    """The options that a help text lists."""
    for short, long, value, rest in re.findall(r"^ +(?:(-\w), )?(--[a-z=-]+)(?: <([^>]+)>)? {2,}(.*)$", shown, re.M):
        listed = re.search(r"\[possible values: (.*)\]", rest)
        names = listed[1].replace(", ", " ") if listed else ""
        span = value.replace(" to ", " ") if " to " in value else ""
        yield Option(
            short,
            long,
            re.sub(r" [\[(].*", "", rest),
            span,
            names,
            value == "FILE",
            bool(value) and value != "FILE" and not span and not names,
        )


def bash(command, options, names=()):
    for option in options:
        words = f"$(echo {{{option.span.replace(' ', '..')}}})" if option.span else option.names
        if words or option.has_text:
            yield f'    {command},{option.long}) words="{words}" ;;'
        if option.is_file:
            yield f"    {' | '.join(f'{command},{form}' for form in option.forms())}) files=1 ;;"
    words = " ".join([*names, *(form for option in options for form in option.forms())])
    yield f"    {command},*) words='{words}'{' files=1' if command else ''} ;;"


def zsh(command, options):
    """The words of `_arguments`, in which a backslash is a mark; the program's are indented less than a command's."""
    options = [option._replace(means=option.means.replace("\\", "\\\\")) for option in options]
    yield from [f"      {command})", "          '1:file:_files' \\"] if command else []
    for place, option in enumerate(options):
        words, end = option.names, " \\" if not command or place + 1 < len(options) else ""
        if option.span:
            first, last = map(int, option.span.split())
            words = " ".join(map(str, range(first, last + 1)))
        given = f"'{option.long}=[{option.means}]:{option.long[2:]}:{f'({words})' if words else ''}'"
        flag = f"'{option.long}[{option.means}]'"
        plain = f"'(- *)'{{{option.short},{option.long}}}'[{option.means}]'" if option.short else flag
        file = f"'({option.short} {option.long})'{{{option.short}+,{option.long}=}}'[{option.means}]:file:_files'"
        yield f"{' ' * (10 if command else 2)}{file if option.is_file else given if words or option.has_text else plain}{end}"


def fish(command, options):
    when = f"'__fish_seen_subcommand_from {command}'" if command else "__fish_use_subcommand"
    yield from [f"complete -c polytwkb -n {when} -F"] if command else []
    for option in options:
        words = f"(seq {option.span})" if option.span else option.names
        short, given = (
            f" -s {option.short[1:]}" if option.short else "",
            f" -x -a '{words}'" if words else " -r -F" if option.is_file else " -x" if option.has_text else "",
        )
        yield f"complete -c polytwkb -n {when}{short} -l {option.long[2:]}{given} -d '{option.means}'"


def lines_of(make, pairs):
    return [line for pair in pairs for line in make(*pair)]


def differences(file, wanted):
    """The lines of a file of completions that it lacks, or has too many."""
    found = [line for line in text_of(f"completions/{file}").split("\n") if re.fullmatch(FORMS[file], line)]
    return [f"    {line}" for line in difflib.unified_diff(found, wanted, "found", "from help", n=0, lineterm="")]


def page_faults(words):
    """What the manual page lacks of the words and of the texts of a run's end, and the options that help has not."""
    page = re.sub(r'^\.[A-Z]+ *|[" ]*$', "", text_of("man/polytwkb.1").replace(r"\-", "-"), flags=re.M)
    causes = text_of("crates/twkb_convert/src/report.rt")
    texts = re.findall(r'=> "([a-z][^"]*[a-z0-9])",$', causes, re.M) or ["a text of a run's end"]
    lacks = [word for word in words if not re.search(rf"(?<!\w){re.escape(word)}(?!\w)", page)]
    lacks += [text for text in texts if not re.search(f"^(polytwkb: )?{re.escape(text)}$", page, re.M)]
    more = sorted(set(re.findall("--[a-z][a-z-]*", page)) - set(words))
    return [f"    lacks {said}" for said in lacks] + [f"    has {option}, which help has not" for option in more]


def main(program=os.path.join(REPO, "bin/polytwkb")):
    shown = help_of(program)
    does = dict(re.findall(r"^  (\w+) +(.*)$", re.search(r"^Commands:\n((?:  .*\n)+)", shown, re.M)[1], re.M))
    own = list(options_of(shown))
    options = [(command, list(options_of(help_of(program, command)))) for command in does]
    every = [("", own), *options]
    command = "complete -c polytwkb -n __fish_use_subcommand -a {0[0]} -d '{0[1]}'"
    lines = {
        "polytwkb.bash": [*lines_of(bash, options), *bash("", own, does)],
        "_polytwkb": [*map("  '{0[0]}:{0[1]}'".format, does.items()), *lines_of(zsh, every)],
        "polytwkb.fish": [*map(command.format, does.items()), *lines_of(fish, every)],
    }
    wrong = 0
    for file, some in lines.items():
        wrong += report(f"completions/{file}: {len(some)} lines that follow from help", differences(file, some))
    words = {*does, *(form for _, some in every for option in some for form in option.forms())}
    return wrong + report(f"man/polytwkb.1: {len(words)} words of the command line", page_faults(sorted(words)))


if __name__ == "__main__":
    sys.exit(1 if main(*sys.argv[1:]) else 0)
