"""`stream`: blobs, arrays and geometries of bytes as they come, from lists, files and pipes."""
import os
import random
import subprocess
import sys
import unittest
from unittest import mock

import polytwkb
import vectors
from polytwkb import _reading, _streams

ROWS = (
    "0,point,,3,AC/0,multipoint,,0,/1,point,7,,AC/1,point,8,,GE/0,linestring,,5,AAGG/0,polygon,,2,/1,ring,,,AAGGAA/"
    "0,collection,,0,/1,point,,1,AC/1,linestring,,-1,AAGG/0,point,,0,/"
)
TABLE = vectors.table_of(ROWS)
STYLES = "full", "plain"


def in_pieces(stream, chance):
    place = 0
    while place < len(stream):
        size = chance.choice((1, 2, 7, 30, 1000))
        yield stream[place : place + size]
        place += size


class Streams(unittest.TestCase):
    def test_arrays_and_geometries_are_those_of_one_call(self):
        chance = random.Random(7)
        for style in STYLES:
            stream = polytwkb.pack(TABLE, style=style) * 20
            for rooms in (_streams._MOST, _reading.Rooms(1, 1, 1), _reading.Rooms(5, 4, 3)):
                with mock.patch.object(_streams, "_MOST", rooms):
                    self.alike(stream, list(in_pieces(stream, chance)))
                    self.alike(stream, [stream])

    def alike(self, stream, pieces):
        self.assertEqual(list(polytwkb.stream(pieces, form="geometries")), polytwkb.geometries(stream))
        for degrees in (True, False):
            whole, parts = polytwkb.read(stream, degrees=degrees), list(
                polytwkb.stream(pieces, form="arrays", degrees=degrees)
            )
            self.assertEqual(b"".join(part.rows.records for part in parts), whole.rows.records.tobytes())
            self.assertEqual(b"".join(part.points.tobytes() for part in parts), whole.points.tobytes())
            self.assertEqual([0] + [end for part in parts for end in part.offsets[1:]], whole.offsets.tolist())
            self.assertEqual([part.offsets[0] for part in parts[1:]], [part.offsets[-1] for part in parts[:-1]])

    def test_rooms_of_any_size_give_the_same_offsets(self):
        for style in STYLES:
            stream = polytwkb.pack(TABLE, style=style) * 20
            offsets = polytwkb.read(stream).offsets
            for rooms in ((0, 0, 0), (1, 1, 1), (5, 4, 3), (1000, 1000, 2)):
                with mock.patch.object(_reading.Reader.__init__, "__defaults__", (_reading.Rooms(*rooms), False)):
                    self.assertEqual(_reading.offsets_read(stream, polytwkb._conversions._limits(None))[1], offsets)
                    self.assertEqual(
                        list(map(len, polytwkb.split(stream)))[:3],
                        [offsets[place + 1] - offsets[place] for place in range(3)],
                    )
                    with self.assertRaises(polytwkb.Refused) as caught:
                        polytwkb.split(stream[:-1])
                    self.assertEqual(
                        (caught.exception.place, caught.exception.done), (len(stream) - 1, len(offsets) - 2)
                    )
                    self.assertEqual(b"".join(caught.exception.output), stream[: offsets[-2]])

    def test_a_refusal_comes_after_all_before_it(self):
        blobs = polytwkb.split(polytwkb.pack(TABLE))
        for form, count in (("geometries", len(blobs)), ("arrays", 1), ("blobs", 1)):
            for rest, text in ((b"\x08", "unknown type"), (blobs[1][:-1], "truncated")):
                found, given = [], b"".join(blobs) + rest
                with self.assertRaisesRegex(polytwkb.Refused, text) as caught:
                    found.extend(iter(polytwkb.stream([given], form=form)))
                with self.assertRaises(polytwkb.Refused) as whole:
                    polytwkb.read(given)
                self.assertEqual((caught.exception.place, caught.exception.done), (whole.exception.place, len(blobs)))
                self.assertEqual(len(found), count)
        for form in ("rows", None, 1):
            with self.assertRaises(ValueError):
                polytwkb.stream([], form=form)

    def test_a_pipe_without_an_end_is_told_as_it_comes(self):
        blobs = polytwkb.split(polytwkb.pack(TABLE))
        example = os.path.join(vectors.REPO, "examples", "python", "read_pipe.py")
        lines = ["0 Point (0.002, 0.001)\n", "1 MultiPoint (2.0, 1.0)\n", "2 LineString (1e-05, 1e-05)\n"]
        with subprocess.Popen(
            [sys.executable, "-B", example], stdin=subprocess.PIPE, stdout=subprocess.PIPE, stderr=subprocess.PIPE
        ) as program:
            for blob, line in zip(blobs, lines):
                program.stdin.write(blob)
                program.stdin.flush()
                self.assertEqual(program.stdout.readline().decode(), line)
            _, fault = program.communicate(b"\x08")
        place = len(b"".join(blobs[:3]))
        self.assertEqual((program.returncode, fault.decode()), (1, f"after 3 geometries: byte {place}: unknown type\n"))

    def test_a_long_stream_takes_no_more_memory(self):
        script = os.path.join(vectors.REPO, "bench", "library", "long_stream.py")
        made = subprocess.run(
            [sys.executable, "-B", script, "64"], stdout=subprocess.PIPE, stderr=subprocess.PIPE, text=True, check=False
        )
        self.assertEqual((made.returncode, made.stderr), (0, ""))


if __name__ == "__main__":
    unittest.main()
