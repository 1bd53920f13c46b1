#!/usr/bin/env python3
"""Packs a table, or unpacks a stream, in parts on the workers of a Dask cluster.

    dask_parts.py [--scheduler ADDRESS] [--bytes BYTES] [--style STYLE] pack|unpack INPUT OUTPUT

The bytes, the status and the line on standard error are those of one run. The workers have the
package polytwkb, find INPUT by the same name, and write parts into a folder beside OUTPUT. A part has
some BYTES (4000000). Without an address Dask takes DASK_SCHEDULER_ADDRESS, or starts workers on this
machine. If a worker is lost, the others convert again what it had begun. OUTPUT is written if the
status is 0, and else left as it was.
"""
import argparse
import collections
import contextlib
import itertools
import logging
import os
import shutil
import sys
import tempfile

import polytwkb
from cuts import parts_of
from distributed import Client, as_completed

HEADER = b"depth,kind,id,precision,polyline\n"
REST = 1 << 30


def bytes_of(path, start, length):
    with open(path, "rb") as file:
        file.seek(start)
        return file.read(length)


def converted(path, start, length, style):
    """What a part converts to: of a table in a style, of a stream if there is none."""
    part = bytes_of(path, start, length)
    if style:
        return polytwkb.pack(HEADER + part if start else part, style=style)
    table = polytwkb.unpack(part).encode()
    return table[len(HEADER) :] if start else table


def converted_to(folder, path, start, length, style):
    """On a worker, puts it into a file that is named after the start; False if the part is refused."""
    try:
        content = converted(path, start, length, style)
    except polytwkb.Refused:
        return False
    # by another name first: a worker that was taken for lost may write the same
    with tempfile.NamedTemporaryFile(dir=folder, delete=False) as file:
        file.write(content)
    os.replace(file.name, os.path.join(folder, str(start)))
    return True


def records_in(*part):
    """On a worker, the records of a part of a table that is not refused: no field has a line end."""
    return sum(map(bool, bytes_of(*part).splitlines()))


def last_end(blobs):
    """Where the last blob ends that is whole in these bytes: 0 if there is none."""
    try:
        headers = polytwkb.show(blobs)
    except polytwkb.Refused as refused:
        headers = refused.output
    ends = (header.offset + header.length for header in reversed(headers) if header.level == 0)
    return next(ends, 0)


def outcomes(client, folder, path, parts, style):
    """Each part, and whether it was not refused, in their order; four for each worker are ahead."""
    most = 4 * max(1, sum(client.nthreads().values()))
    waiting, known, done = collections.deque(), {}, as_completed(with_results=True)

    def begin(count):
        for part in itertools.islice(parts, count):
            future = client.submit(converted_to, folder, path, *part, style, pure=False)
            waiting.append((part, future.key))
            done.add(future)

    begin(most)
    for future, accepted in done:
        known[future.key] = accepted
        while waiting and waiting[0][1] in known:
            part, key = waiting.popleft()
            yield part, known.pop(key)
            begin(1)


def refusal(client, path, parts, style):
    """The line of one run, if the last of these parts is the first that is refused.

    That part is read again with what follows it: a quoted field, or a blob of another size than it
    says, may go on after the cut.
    """
    start, _ = parts[-1]
    word, before = "byte", start
    if style:
        counts = client.gather([client.submit(records_in, path, *part) for part in parts[:-1]])
        word, before = "record", sum(counts) - 1 if counts else 0
    try:
        converted(path, start, REST, style)
    except polytwkb.Refused as refused:
        place = f"{word} {before + refused.place}"
        return str(refused).replace(f"{word} {refused.place}", place, 1)
    raise AssertionError(f"only the part at byte {start} is refused")


def joined(client, folder, path, whole, parts, style):
    """Writes the whole output into a file; returns the line of a refusal, or None."""
    done, refused = [], False
    for part, accepted in outcomes(client, folder, path, parts, style):
        if refused:
            continue
        done.append(part)
        if not accepted:
            # no further part is begun, and those that are under way end
            refused = True
            parts.close()
            continue
        name = os.path.join(folder, str(part[0]))
        with open(name, "rb") as file:
            shutil.copyfileobj(file, whole, 1 << 20)
        os.remove(name)
    return refusal(client, path, done, style) if refused else None


def convert(client, path, output, size, style):
    """Converts a file to another one; returns the line of a refusal, or None."""
    parts = parts_of(path, "table" if style else "stream", size, last_end)
    try:
        beside = tempfile.TemporaryDirectory(prefix=output + ".", ignore_cleanup_errors=True)
        with beside as folder, open(output + ".part", "wb") as whole:
            line = joined(client, folder, path, whole, parts, style)
        if line is None:
            os.replace(output + ".part", output)
        return line
    finally:
        with contextlib.suppress(FileNotFoundError):
            os.remove(output + ".part")


def main():
    words = argparse.ArgumentParser(usage=__doc__.splitlines()[2].strip())
    words.add_argument("--scheduler")
    words.add_argument("--bytes", type=int, default=4_000_000)
    words.add_argument("--style", choices=["full", "plain"], default="full")
    words.add_argument("command", choices=["pack", "unpack"])
    words.add_argument("input")
    words.add_argument("output")
    given = words.parse_args()
    style = given.style if given.command == "pack" else None
    # what Dask gives up when it ends is no fault of the conversion
    logging.getLogger("asyncio").setLevel(logging.CRITICAL)
    with Client(given.scheduler) as client:
        paths = os.path.abspath(given.input), os.path.abspath(given.output)
        line = convert(client, *paths, given.bytes, style)
    sys.exit(line and f"polytwkb: {line}")


if __name__ == "__main__":
    main()
