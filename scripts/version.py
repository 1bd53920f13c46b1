#!/usr/bin/env python3
"""The version of the product, which stands in many files: its one source is crates/twkb_convert/src/version.rt.

    scripts/version.py          reports files that have another version than this source; status 1 if there are any
    scripts/version.py X.Y.Z    writes the version into all of them; then prove, and run tests/vectors/make.py
"""
import os
import re
import sys

REPO = os.path.abspath(os.path.join(os.path.dirname(__file__), ".."))
NUMBER = r"(\d+\.\d+\.\d+)"

# Each file, and what is around the version there.
PLACES = {
    "crates/twkb_convert/src/version.rt": [r'VERSION: &str = "%s"'],
    "crates/twkb_convert/specs/Version.antt": [r'version_text = codes "%s"'],
    "include/polytwkb.h": [r'POLYTWKB_VERSION "%s"', r'such as "%s"'],
    "python/polytwkb/_library.py": [r'^VERSION = "%s"'],
    "js/package.json": [r'"version": "%s"'],
    "js/src/module.js": [r"version = '%s'"],
    "js/README.md": [r"polytwkb-%s\.tgz"],
    "man/polytwkb.1": [r'"polytwkb %s"'],
    "docs/USING.md": [r"polytwkb[a-z-]*[_-]%s[_.-]"],
    "docs/RECIPES.md": [r"by version %s of the library"],
    "tests/vectors/runs.txt": [r"polytwkb %s$"],
}
# The numbers of the header, each in a line of its own.
PARTS = ["MAJOR", "MINOR", "PATCH"]


def text_of(path):
    with open(os.path.join(REPO, path), encoding="utf-8") as file:
        return file.read()


def written(text, patterns, version):
    """A text with this version in all places, and the versions that were there."""
    found = []

    def replaced(match):
        found.append(match[1])
        return match[0].replace(match[1], version)

    for pattern in patterns:
        before = len(found)
        text = re.sub(pattern.replace("%s", NUMBER), replaced, text, flags=re.M)
        if len(found) == before:
            found.append(f"none for {pattern}")
    return text, found


def with_parts(text, version):
    """The header's text, with the three numbers of the version."""
    for name, number in zip(PARTS, version.split(".")):
        text = re.sub(rf"(POLYTWKB_VERSION_{name}) \d+", rf"\1 {number}", text)
    return text


def main(new=None):
    version = new or re.search('"' + NUMBER + '"', text_of("crates/twkb_convert/src/version.rt"))[1]
    if not re.fullmatch(NUMBER, version):
        sys.exit("version.py: a version is X.Y.Z")
    others = 0
    for path, patterns in PLACES.items():
        text = text_of(path)
        changed, found = written(text, patterns, version)
        if path == "include/polytwkb.h":
            changed = with_parts(changed, version)
        if new and changed != text:
            with open(os.path.join(REPO, path), "w", encoding="utf-8") as file:
                file.write(changed)
        lost = [one for one in found if one.startswith("none")] + (
            [] if new or changed == text else ["another version"]
        )
        others += len(lost)
        print("".join(f"{path}: {one}\n" for one in lost), end="")
    print(f"{'FAIL' if others else 'ok  '}  version {version} in {len(PLACES)} files, {others} faults")
    return 1 if others else 0


if __name__ == "__main__":
    sys.exit(main(*sys.argv[1:]))
