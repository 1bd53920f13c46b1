"""A column of a CSV to a stream and back: the rows of tests/vectors for the command, rows with ids, and other arguments."""
import random
import re
import unittest

import polytwkb
import vectors
from test_vectors import outcome

LINES = "a20323e7ce870ca8aa4ca0fcd50380813a03bfa4bb0ba0fcd503ef9309c0ed1ab79643c0931fa21200"
# The CSV, and the stream or the line of a refusal, with ids in the column id at precision 5: written beside the design.
IDS = [
    ("id,line\n", "a51200"),
    ("line,id\nAC,1\nAC,07\n", "record 3: bad id"),
    ("id,line\n1,AC\n,AC\n", "record 3: id on some children only"),
    ("id,line\n,AC\n,\n", "a50309040002000201040200"),
    ("id,line\n1,AC\n2,A\n", "record 3: polyline at 1: latitude without longitude"),
    ("ids,line\n1,AC\n", "record 1: no such column"),
    ("id,line,id\n1,AC,2\n", "record 1: column twice"),
]


def runs():
    """The runs of the command with a column, but those of files or for digits: the command, its options, the input, and the output and the
    line of a refusal."""
    for line, printed in vectors.rows_of("runs"):
        run = re.fullmatch(r"run polytwkb (pack|unpack) ((?:--(?!hex)[a-z]+ \S+ )+)< hex ?(\w*)", line)
        if run and "--column line " in run[2] and printed[0] in ("status 0", "status 1"):
            command, words, given = run.groups()
            output, line = (text[6:].lstrip() for text in printed[1:3])
            options = re.findall(r"--([a-z]+) (\S+)", words)
            yield command, options, bytes.fromhex(given), (output, line.replace("polytwkb: ", "").rstrip("/"))


class Columns(unittest.TestCase):
    def test_runs_of_the_command(self):
        count = 0
        for command, words, given, printed in runs():
            options = {name: value for name, value in words if name in ("style", "delimiter", "ids")}
            with self.subTest(command=command, options=words, given=given):
                if command == "pack":
                    nulls = [value for name, value in words if name == "null"]
                    precision = int(dict(words)["precision"])
                    output, line = outcome(polytwkb.pack_column, given, "line", precision, nulls=nulls, **options)
                    output = output.hex()
                else:
                    output, line = outcome(polytwkb.unpack_column, given, "line", **options)
                self.assertEqual((output.replace("\n", "/"), line), printed)
            count += 1
        self.assertGreater(count, 15)

    def test_ids(self):
        for csv, due in IDS:
            with self.subTest(csv=csv):
                output, line = outcome(polytwkb.pack_column, csv, "line", 5, ids="id")
                self.assertIn(due, (line, output.hex() if not line else None))

    def test_a_refusal_names_reason_and_place(self):
        with self.assertRaises(polytwkb.Refused) as caught:
            polytwkb.pack_column("g\nAC\nAC\nNULL\n", "g", 5)
        refused = caught.exception
        self.assertEqual((refused.reason, refused.code, refused.text), (84, "MISSING_VALUE", "missing value"))
        self.assertEqual((refused.place, refused.done, len(refused.output)), (4, 1, 10))
        with self.assertRaises(polytwkb.Refused) as caught:
            polytwkb.unpack_column(bytes.fromhex("a212000102020402"), "g")
        refused = caught.exception
        self.assertEqual((refused.reason, refused.code, refused.place), (91, "NO_LINESTRING", 3))
        self.assertEqual((refused.done, refused.output), (1, 'g\n""\n'))

    def test_names_and_words(self):
        csv = "größe;line\nx;AC\ny;n. a.\nz;-\n"
        packed = polytwkb.pack_column(csv, "line", 5, nulls=["n. a.", b"-"], delimiter=";", style="plain")
        self.assertEqual(polytwkb.unpack_column(packed, "größe;", delimiter=";"), '"größe;"\nAC\n""\n""\n')
        latin = csv.replace("line", "länge").encode("latin-1")
        found = polytwkb.pack_column(latin, "länge".encode("latin-1"), 5, nulls=("n. a.", "-"), delimiter=";")
        self.assertEqual(len(polytwkb.split(found)), 3)
        self.assertEqual(polytwkb.unpack_column(b"", ""), '""\n')

    def test_a_column_and_back(self):
        chance = random.Random(2026)
        for _ in range(20):
            lines = [
                [
                    (chance.randint(-(10**6), 10**6), chance.randint(-(10**6), 10**6))
                    for _ in range(chance.randint(2, 9))
                ]
                for _ in range(chance.randint(0, 400))
            ]
            csv = "line\n" + "".join(f"{polytwkb.encode(line)}\n" for line in lines)
            packed = polytwkb.pack_column(csv, "line", 5, delimiter="\t")
            self.assertEqual(polytwkb.unpack_column(packed, "line", delimiter="\t"), csv)

    def test_other_arguments(self):
        pack, unpack = polytwkb.pack_column, polytwkb.unpack_column
        for call in (
            lambda: pack("g\n", "g\0", 5),
            lambda: pack("g\n", "g", 8),
            lambda: pack("g\n", "g", -9),
            lambda: pack("g\n", "g", 5, ids=""),
            lambda: pack("g\n", "g", 5, nulls=["a\0b"]),
            lambda: pack("g\n", "g", 5, style="other"),
            lambda: unpack(b"", "g\0"),
            *(
                lambda delimiter=delimiter: pack("g\n", "g", 5, delimiter=delimiter)
                for delimiter in ("", "ab", '"', "\r", "\n", "\0", "§")
            ),
        ):
            self.assertRaises(ValueError, call)
        for call in (
            lambda: pack(5, "g", 5),
            lambda: pack("g\n", 5, 5),
            lambda: pack("g\n", "g", 5.0),
            lambda: pack("g\n", "g", 5, ids=5),
            lambda: pack("g\n", "g", 5, nulls="NULL"),
            lambda: pack("g\n", "g", 5, nulls=[5]),
            lambda: pack("g\n", "g", 5, delimiter=b","),
            lambda: unpack("text", "g"),
            lambda: unpack(b"", b"g"),
        ):
            self.assertRaises(TypeError, call)


if __name__ == "__main__":
    unittest.main()
