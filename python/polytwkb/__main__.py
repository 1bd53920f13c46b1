"""The command `polytwkb` over the library: options, output, lines and statuses are those of the program.

Unlike the program it holds input and output in memory, and words that it refuses have the texts of argparse.
"""
from __future__ import annotations

import argparse
import os
import signal
import sys
from typing import Optional, Tuple

from . import Limits, Refused, __version__
from ._conversions import COMMANDS
from ._reasons import Status

NEST = "how many collections a geometry may be in, 0 to 32 (16)"
GEOJSON = "a line of GeoJSON for each geometry, in place of the table"
STYLE = "full: blobs with sizes and boxes; plain: without (full)"


def parser() -> argparse.ArgumentParser:
    words = argparse.ArgumentParser(
        prog="polytwkb",
        allow_abbrev=False,
        description="Converts between CSV tables of encoded polylines and streams of TWKB blobs.",
        epilog="Each command reads standard input and writes standard output: polytwkb pack < places.csv > places.twkb",
    )
    words.add_argument("-V", "--version", action="version", version=f"polytwkb {__version__}")
    commands = words.add_subparsers(dest="command", metavar="COMMAND", required=True)
    for name, (does, _, _) in COMMANDS.items():
        command = commands.add_parser(name, allow_abbrev=False, help=does, description=does)
        command.add_argument("--max-nest", type=int, choices=range(33), default=16, metavar="N", help=NEST)
        if name == "pack":
            command.add_argument("--style", choices=["full", "plain"], default="full", help=STYLE)
        if name == "unpack":
            command.add_argument("--geojson", action="store_true", help=GEOJSON)
    return words


def converted(words: argparse.Namespace, given: bytes) -> Tuple[bytes, Optional[str]]:
    """The bytes that a conversion writes, and the line of its refusal, or None."""
    _, call, bytes_of = COMMANDS[words.command]
    try:
        return bytes_of(call(given, words, Limits(nest=words.max_nest))), None
    except Refused as refused:
        return bytes_of(refused.output), str(refused)


def read() -> Optional[bytes]:
    """All of standard input, or None if it fails."""
    try:
        with open(0, "rb", buffering=0, closefd=False) as source:
            return source.readall()
    except OSError:
        return None


def write(output: bytes) -> bool:
    """Whether standard output took all bytes."""
    rest = memoryview(output)
    try:
        while rest:
            rest = rest[os.write(1, rest) :]
    except OSError:
        return False
    return True


def run(words: argparse.Namespace) -> Tuple[int, Optional[str]]:
    """Converts standard input to standard output: the exit status, and the line of a failure."""
    given = read()
    if given is None:
        # as the program, which writes a table's first line before it reads
        output, _ = converted(words, b"") if words.command == "unpack" else (b"", None)
        status = Status.DEVICE
        line: Optional[str] = "read failed"
    else:
        output, line = converted(words, given)
        status = Status.REFUSED if line else Status.DONE
    return (status, line) if write(output) else (Status.DEVICE, "write failed")


def main() -> int:
    signal.signal(signal.SIGINT, signal.SIG_DFL)
    words = parser().parse_args()
    try:
        status, line = run(words)
    except MemoryError:
        status, line = Status.MEMORY, "out of memory"
    if line:
        print(f"polytwkb: {line}", file=sys.stderr)
    return status


if __name__ == "__main__":
    sys.exit(main())
