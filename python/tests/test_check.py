"""`check` has the first refusal of each geometry of a table, and of each blob of a list."""
import random
import unittest
from array import array

import polytwkb
import vectors
from polytwkb import _check

RIGHT, WRONG_KIND, WRONG_TEXT = "0,point,,0,AC/", "0,pont,,0,AC/", "0,linestring,,0,AA!/"
COLLECTION = "0,collection,,0,/1,point,,0,AC/1,point,,0,A!/1,pont,,0,AC/"


def found(given, **options):
    """Line, number of the geometry and name of each refusal."""
    refusals = polytwkb.check(given, **options)
    assert all(refused.output is None for refused in refusals)
    return [(str(refused), refused.done, refused.code) for refused in refusals]


class Tables(unittest.TestCase):
    def test_each_geometry_is_refused_once(self):
        table = vectors.table_of(RIGHT + WRONG_KIND + RIGHT + COLLECTION + WRONG_TEXT + RIGHT)
        expected = [
            ("record 3: unknown kind", 1, "BAD_KIND"),
            ("record 7: polyline at 1: bad character", 3, "POLYLINE_BAD_CHARACTER"),
            ("record 9: polyline at 2: bad character", 4, "POLYLINE_BAD_CHARACTER"),
        ]
        for given in (table, table.encode(), bytearray(table.encode()), memoryview(table.encode())):
            self.assertEqual(found(given), expected)
        self.assertEqual(
            [(refused.place, refused.text_offset) for refused in polytwkb.check(table)], [(3, 0), (7, 1), (9, 2)]
        )

    def test_records_are_those_of_csv(self):
        for table, expected in [
            ("\ufeff" + vectors.table_of(WRONG_KIND + RIGHT + WRONG_KIND), [2, 4]),
            (vectors.table_of(WRONG_KIND + "//" + RIGHT + "/" + WRONG_KIND).replace("\n", "\r\n"), [2, 4]),
            (vectors.table_of(WRONG_KIND + RIGHT + WRONG_KIND).replace("\n", "\r"), [2, 4]),
            (vectors.table_of('"0","pont",,0,/"0",point,,0,"AC"/"0","po""nt",,0,AC'), [2, 4]),
            (vectors.table_of('""0,pont,,0,/"0"0,point,,0,AC/0"",point,,0,AC/""0,"po""nt",,0,AC'), [2, 5]),
            (vectors.table_of(WRONG_KIND + '"0'), [2, 3]),
            (vectors.table_of('0,"po/0,point,,0,AC/nt",,0,/0,point,,0,AC/0,pont,,0,/'), [2, 4]),
            (vectors.table_of('0,"pont/' + RIGHT + WRONG_KIND), [2]),
            (vectors.table_of('0,po"nt,,0,/' + WRONG_KIND + RIGHT), [2, 3]),
            (vectors.table_of("1,point,,0,AC/" + RIGHT + WRONG_KIND), [2, 4]),
            (vectors.table_of("x/0/" + RIGHT + '0,point"0",/'), [2, 3, 5]),
        ]:
            with self.subTest(table=table):
                self.assertEqual([refused.place for refused in polytwkb.check(table)], expected)

    def test_a_table_that_is_refused_as_a_whole(self):
        for table in (
            "",
            "\n",
            vectors.table_of("")[1:],
            "\ufeff\ufeff" + vectors.table_of(""),
            vectors.table_of(RIGHT)[34:],
        ):
            self.assertEqual(found(table), [("record 1: bad header", 0, "BAD_HEADER")])
        self.assertEqual(found(vectors.table_of("")), [])

    def test_the_rows_of_the_vectors(self):
        """A refused row of tests/vectors is refused at its place between other geometries too."""
        count = 0
        for line, printed in vectors.rows_of("tables"):
            word, _, rows = line.partition(" ")
            refusal = "".join(printed).rpartition("; ")[2]
            if word != "full" or not refusal.startswith("record ") or '"' in rows or not rows.startswith("0,"):
                continue
            with self.subTest(rows=rows):
                table = vectors.table_of(WRONG_KIND + RIGHT + rows.rstrip("/") + "/" + RIGHT + WRONG_KIND)
                try:
                    polytwkb.pack(vectors.table_of(rows))
                except polytwkb.Refused as refused:
                    places = [refused.place for refused in polytwkb.check(table)]
                    self.assertEqual((places[0], refused.place + 2 in places, places[-1]), (2, True, table.count("\n")))
                    count += 1
        self.assertGreater(count, 20)

    def test_many_refusals(self):
        table = vectors.table_of(20000 * (WRONG_KIND + RIGHT))
        self.assertEqual([refused.place for refused in polytwkb.check(table)], list(range(2, 40002, 2)))

    def test_limits(self):
        nested = vectors.table_of("0,collection,,0,/1,collection,,0,/2,point,,0,AC/" + RIGHT)
        self.assertEqual(found(nested), [])
        self.assertEqual(found(nested, limits=polytwkb.Limits(nest=1)), [("record 4: nested too deep", 0, "TOO_DEEP")])


class Blobs(unittest.TestCase):
    def test_each_blob_is_looked_at_by_itself(self):
        right = bytes.fromhex("0102020402")
        blobs = [right, right[:-1], right + right, b"", bytearray(b"\x08"), memoryview(right), right + b"\x01", None]
        self.assertEqual(
            found(blobs),
            [
                ("blob 1: byte 4: truncated", 1, "BLOB_TRUNCATED"),
                ("blob 2: byte 5: size mismatch", 2, "BLOB_SIZE_MISMATCH"),
                ("blob 3: byte 0: truncated", 3, "BLOB_TRUNCATED"),
                ("blob 4: byte 0: unknown type", 4, "BLOB_BAD_TYPE"),
                ("blob 6: byte 5: size mismatch", 6, "BLOB_SIZE_MISMATCH"),
            ],
        )
        self.assertEqual((found([]), found(iter([right]))), ([], []))
        self.assertEqual(found([vector["hex"] for vector in ()]), [])
        self.assertEqual(found(bytes.fromhex(vector["hex"]) for vector in vectors.postgis()), [])

    def test_a_stream_has_its_first_refusal(self):
        right = bytes.fromhex("0102020402")
        for given, refusals in [
            (right, []),
            (right * 3, []),
            (array("B", right), []),
            (bytearray(right + right[:-1]), [("byte 9: truncated", 1, "BLOB_TRUNCATED")]),
            (memoryview(b"\x08" + right), [("byte 0: unknown type", 0, "BLOB_BAD_TYPE")]),
            (b"\x01", [("byte 1: truncated", 0, "BLOB_TRUNCATED")]),
            (b"\xa2\x0a\x01", [("byte 2: extra dimensions", 0, "BLOB_EXTRA_DIMENSIONS")]),
            (b"\xa1\x09\x02", [("byte 2: extra dimensions", 0, "BLOB_EXTRA_DIMENSIONS")]),
            (b"\x81\x0a\x00\x02\x02\x04", []),
            (b"\xa4\x0d\x01", [("byte 2: extra dimensions", 0, "BLOB_EXTRA_DIMENSIONS")]),
        ]:
            self.assertEqual(found(given), refusals)
        self.assertEqual(found(b"".join(bytes.fromhex(vector["hex"]) for vector in vectors.postgis())), [])
        for vector in vectors.postgis():
            self.assertEqual(found(bytes.fromhex(vector["hex"])), [])
        wrong_header = [("record 1: bad header", 0, "BAD_HEADER")]
        for table in (
            b"",
            b"\n",
            b"a\tb\n",
            b"Depth,kind\n",
            b'"',
            b"\xef\xbb\xbfdepth\n",
            b"\xc3\xa9\n",
            b"\x22\x0a\x01",
            "\1",
            "\1\2",
            b"\xff\xfed\0",
        ):
            self.assertEqual(found(table), wrong_header)
        self.assertEqual(found(array("B", vectors.table_of("0,pont,,0,AC/").encode()))[0][0], "record 2: unknown kind")

    def test_wrong_types(self):
        for given in (None, 7, ["0102"], [7], {"a": b""}):
            with self.subTest(given=given), self.assertRaises(TypeError):
                polytwkb.check(given)
        with self.assertRaisesRegex(TypeError, "blob 1 is bytes, not int"):
            polytwkb.check([b"\x01", 7])


class Records(unittest.TestCase):
    def test_no_text_is_read_for_long(self):
        chance = random.Random(7)
        for _ in range(200):
            text = "".join(chance.choices('0,"\n\rx', k=3000)).encode()
            records = _check._Records(text)
            while records.next() is not False:
                pass
            self.assertEqual(text[records.offset :].strip(b"\r\n"), b"")


if __name__ == "__main__":
    unittest.main()
