#!/usr/bin/env python3
"""Writes the stored input and output of the crate vectors; with --check compares them, and fails where they differ.

The rows of the files *.txt here stand as they are printed: a line, and behind it, indented, what must be
made of it; the input is what is not indented. Behind them come the blobs of ../postgis/blobs.jsonl, and the
canonical blobs of their tables: what must be printed of these are their headers, which the reader below
finds, and what blobs.jsonl says of their geometries.
"""
import json
import os
import sys

HERE = os.path.dirname(os.path.abspath(__file__))
CRATE = os.path.join(HERE, "..", "..", "crates", "vector_runner")
BLOBS = os.path.join(HERE, "..", "postgis", "blobs.jsonl")
ROWS = ["numbers", "points", "polylines", "devices", "fields", "forms", "tables", "streams", "runs"]
HEADER = "depth,kind,id,precision,polyline"
KINDS = ["", "point", "linestring", "polygon", "multipoint", "multilinestring", "multipolygon", "collection"]
BOX, SIZE, IDS, EXTENDED, EMPTY = 1, 2, 4, 8, 16


class Reader:
    """Reads one blob, and notes level, offset, kind, precision, metadata, length and points of each header."""

    def __init__(self, blob):
        self.blob, self.at, self.headers = blob, 0, []

    def byte(self):
        self.at += 1
        return self.blob[self.at - 1]

    def varint(self):
        value, shift = 0, 0
        while True:
            byte = self.byte()
            value |= (byte & 127) << shift
            shift += 7
            if byte < 128:
                return value

    def points(self, depth):
        """Points of a body with so many levels of counts below it."""
        if depth == 0:
            self.varint(), self.varint()
            return 1
        return sum(self.points(depth - 1) for _ in range(self.varint()))

    def members(self, kind, has_ids, level):
        """Points of the members of a multi kind or a collection."""
        count = self.varint()
        if has_ids:
            for _ in range(count):
                self.varint()
        if kind == "collection":
            return sum(self.geometry(level + 1) for _ in range(count))
        return sum(self.points(["multipoint", "multilinestring", "multipolygon"].index(kind)) for _ in range(count))

    def body(self, kind, has_ids, level):
        depths = {"point": 0, "linestring": 1, "polygon": 2}
        return self.points(depths[kind]) if kind in depths else self.members(kind, has_ids, level)

    def geometry(self, level):
        """Reads a geometry, and returns how many points it has."""
        offset, at = self.at, len(self.headers)
        self.headers.append(None)
        first, metadata = self.byte(), self.byte()
        kind, zigzag = KINDS[first & 15], first >> 4
        precision = -(zigzag + 1) // 2 if zigzag & 1 else zigzag // 2
        assert not metadata & EXTENDED
        if metadata & SIZE:
            size = self.varint()
            end = self.at + size
        if metadata & BOX:
            for _ in range(4):
                self.varint()
        points = 0 if metadata & EMPTY else self.body(kind, bool(metadata & IDS), level)
        assert not metadata & SIZE or self.at == end
        length = self.at - offset
        self.headers[at] = f"{level} {offset} {kind} {precision} {metadata:02X} {length} {points}"
        return points


def headers(blob):
    reader = Reader(blob)
    reader.geometry(0)
    assert reader.at == len(blob)
    return reader.headers


def lines(word, count, rows):
    """A line of a conversion that wrote these rows, each ended by a slash."""
    text = "".join(row + "/" for row in rows)
    return f"  {word} {count} {len(text)} {text}".rstrip()


def blobs(word, blob):
    return f"  {word} 1 {len(blob) // 2} {blob}"


def of_postgis():
    """The lines of the blobs that PostGIS wrote, each once."""
    seen = set()
    with open(BLOBS, encoding="utf-8") as source:
        vectors = [json.loads(line) for line in source]
    for vector in vectors:
        full, plain = vector.get("full", vector["hex"]), vector.get("plain", vector["hex"])
        for blob in [vector["hex"], full, plain]:
            if blob in seen:
                continue
            seen.add(blob)
            yield "blob " + blob
            yield lines("show", 1, headers(bytes.fromhex(blob)))
            yield lines("unpack", 1, [HEADER, *vector["rows"]])
            yield blobs("full", full)
            yield blobs("plain", plain)


def of_rows():
    """The lines of the files; those of a text, each behind a bar, are joined to the line above them."""
    rows = []
    for name in ROWS:
        with open(os.path.join(HERE, name + ".txt"), encoding="utf-8") as source:
            for line in source.read().splitlines():
                if line.startswith("  |"):
                    rows[-1] += " " * (not rows[-1].endswith("/")) + line[4:] + "/"
                else:
                    rows.append(line)
    return rows


def main():
    printed = [*of_rows(), "# Blobs that PostGIS wrote.", *of_postgis()]
    given = [line for line in printed if not line.startswith("  ")]
    for name, lines_of_it in [("stdin", given), ("stdout", printed)]:
        path, text = os.path.join(CRATE, name), "".join(line + "\n" for line in lines_of_it)
        if sys.argv[1:] != ["--check"]:
            with open(path, "w", encoding="utf-8", newline="\n") as file:
                file.write(text)
            continue
        with open(path, encoding="utf-8", newline="\n") as file:
            if file.read() != text:
                sys.exit(f"make.py: the rows give another {name} of vectors")


main()
