"""The package on the rows of tests/vectors and on the blobs of PostGIS."""
import re
import unittest

import polytwkb
import vectors


def outcome(call, *given, **options):
    """What a call returns and an empty line, or the output and the line of a refusal."""
    try:
        return call(*given, **options), ""
    except polytwkb.Refused as refused:
        return refused.output, str(refused)


def shown(headers):
    """Headers as the command lists them."""
    return "".join(
        f"{level} {offset} {kind} {precision} {metadata:02X} {length} {points}\n"
        for level, offset, kind, precision, metadata, length, points in headers
    )


class Runs(unittest.TestCase):
    """Runs of the command: the call answers with the same output, and refuses with the same line."""

    def test_runs(self):
        count = 0
        for command, options, given, printed in vectors.runs():
            with self.subTest(command=command, options=options, given=given):
                limits, style, unpack = polytwkb.Limits(), "full", polytwkb.unpack
                for option, value in options:
                    if option == "max-nest":
                        limits = limits._replace(nest=int(value))
                    elif option == "geojson":
                        unpack = polytwkb.to_geojson
                    else:
                        style = value
                if command == "pack":
                    output, line = outcome(polytwkb.pack, given, style=style, limits=limits)
                    output = output.hex()
                elif command == "unpack":
                    output, line = outcome(unpack, given, limits=limits)
                else:
                    output, line = outcome(polytwkb.show, given, limits=limits)
                    output = shown(output)
                self.assertEqual((output.replace("\n", "/"), line), printed)
                count += 1
        self.assertGreater(count, 60)

    def test_a_refusal_names_reason_and_place(self):
        with self.assertRaises(polytwkb.Refused) as caught:
            polytwkb.pack(vectors.table_of("0,point,,0,AC/0,point,,0,AA/0,pont,,0,/"))
        refused = caught.exception
        self.assertEqual((refused.reason, refused.code, refused.text), (4, "BAD_KIND", "unknown kind"))
        self.assertEqual((refused.place, refused.text_offset), (4, 0))
        self.assertEqual(refused.done, len(polytwkb.split(refused.output)))


def rows_within(name, *words):
    """Of a file's rows those that begin with one of the words: the word, what is given, the limits, how many geometries are done, and what
    a call returns, with the line of a refusal."""
    limits = polytwkb.Limits()
    for line, printed in vectors.rows_of(name):
        word, _, given = line.partition(" ")
        if word == "limits":
            limits = polytwkb.Limits(*map(int, given.split()))
        if word in words:
            done, output, refusal = re.fullmatch(rf"{word} (\d+) \d+ ?([^;]*)(?:; (.*))?", printed[0]).groups()
            yield word, given, limits, int(done), (output, refusal or "")


class Tables(unittest.TestCase):
    """Tables and their blobs, both ways, and what is refused within limits."""

    def test_tables(self):
        rows = list(rows_within("tables", "full", "plain"))
        self.assertGreater(len(rows), 60)
        for style, given, limits, done, expected in rows:
            with self.subTest(style=style, given=given, limits=limits):
                output, refusal = outcome(polytwkb.pack, vectors.table_of(given), style=style, limits=limits)
                self.assertEqual((output.hex(), refusal), expected)
                if not refusal:
                    self.assertEqual(polytwkb.unpack(output, limits=limits), vectors.table_of(given))
                    self.assertEqual(len(polytwkb.split(output, limits=limits)), done)

    def test_streams(self):
        rows = list(rows_within("streams", "unpack"))
        self.assertGreater(len(rows), 60)
        for _, given, limits, _, expected in rows:
            with self.subTest(given=given, limits=limits):
                output, refusal = outcome(polytwkb.unpack, bytes.fromhex(given), limits=limits)
                self.assertEqual((output.replace("\n", "/"), refusal), expected)


class Postgis(unittest.TestCase):
    """The blobs that PostGIS wrote."""

    def test_blobs(self):
        for vector in vectors.postgis():
            with self.subTest(wkt=vector["wkt"], written=vector["written"]):
                table = vectors.HEADER + "".join(row + "\n" for row in vector["rows"])
                self.assertEqual(polytwkb.unpack(bytes.fromhex(vector["hex"])), table)
                self.assertEqual(polytwkb.pack(table).hex(), vector.get("full", vector["hex"]))
                self.assertEqual(polytwkb.pack(table, style="plain").hex(), vector.get("plain", vector["hex"]))

    def test_a_stream_is_split_into_its_blobs(self):
        blobs = [bytes.fromhex(vector["hex"]) for vector in vectors.postgis()]
        stream = b"".join(blobs)
        self.assertEqual(polytwkb.split(stream), blobs)
        self.assertEqual(
            [header.offset for header in polytwkb.show(stream) if header.level == 0],
            [sum(map(len, blobs[:place])) for place in range(len(blobs))],
        )
        with self.assertRaises(polytwkb.Refused) as caught:
            polytwkb.split(stream + b"\x08")
        self.assertEqual(
            (caught.exception.output, caught.exception.done, caught.exception.place), (blobs, len(blobs), len(stream))
        )


class Polylines(unittest.TestCase):
    """Polylines and their points; texts that are none, with the byte and the reason."""

    def test_polylines(self):
        count = 0
        for text, points, refusal in vectors.polylines():
            with self.subTest(text=text):
                self.assertEqual(outcome(polytwkb.decode, text), (points, refusal))
                self.assertEqual(
                    outcome(polytwkb.decode_flat, text)[0].tolist(), [number for point in points for number in point]
                )
                if not refusal:
                    self.assertEqual(polytwkb.encode(points).encode(), text)
                count += 1
        self.assertGreater(count, 200)


if __name__ == "__main__":
    unittest.main()
