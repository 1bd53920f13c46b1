"""What the command is given and must answer. Bytes, rows and lines are those of docs/FORMATS.md, or worked out by hand from it."""
from collections import namedtuple

# words of the command; its input; the whole output; standard error; status; the lengths of output behind which
# the output of each geometry, and the header's line, is whole
Row = namedtuple("Row", "name words source output errors status fronts")

HEADER = b"depth,kind,id,precision,polyline\n"
MEMBERS = HEADER + b"0,collection,,0,\n1,point,7,0,AA\n1,linestring,-1,0,\n"
MEMBERS_BLOB = bytes.fromhex("07 07 0F 02 00 02 00 02 0E 01 01 02 02 02 02 02 12 00")
MEMBERS_PLAIN = bytes.fromhex("07 04 02 0E 01 01 00 02 02 02 10")
MEMBERS_LINES = b"0 0 collection 0 07 18 1\n1 10 point 0 02 5 1\n1 15 linestring 0 12 3 0\n"
REFUSED = HEADER + b"0,point,,0,AC\n0,point,,0,AA\n0,pont,,0,\n"
POINT_BLOB = bytes.fromhex("01 02 02 04 02")
POLYGONS = HEADER + b"0,multipolygon,,0,\n1,polygon,3,,\n2,ring,,,AA\n2,ring,,,\n1,polygon,4,,\n"
POLYGONS_BLOB = bytes.fromhex("06 07 0D 02 00 02 00 02 06 08 02 01 02 02 00 00")
CUT_STREAM = bytes.fromhex("01 00 04 02 01 00 04")
CUT_TABLE = HEADER + b"0,point,,0,AC\n"
CUT_LINES = b"0 0 point 0 00 4 1\n"
CUT = b"polytwkb: byte 7: truncated\n"
# nine collections, each in the one before: sizes of 32, 28 .. 4 and 0
NINE = HEADER + b"".join(b"%d,collection,,0,\n" % depth for depth in range(9))
NINE_BLOB = bytes.fromhex("".join(f"07 02 {size:02x} 01 " for size in range(32, 0, -4)) + "07 12 00")
NINE_LINES = b"".join(b"%d %d collection 0 02 %d 0\n" % (level, 4 * level, 35 - 4 * level) for level in range(8))
NINE_LINES += b"8 32 collection 0 12 3 0\n"

ROWS = [
    Row("pack a collection", ["pack"], MEMBERS, MEMBERS_BLOB, b"", 0, {0, 18}),
    Row("pack it plainly", ["pack", "--style", "plain"], MEMBERS, MEMBERS_PLAIN, b"", 0, {0, 11}),
    Row(
        "pack a table whose last row is refused",
        ["pack"],
        REFUSED,
        POINT_BLOB,
        b"polytwkb: record 4: unknown kind\n",
        1,
        {0, 5},
    ),
    Row("pack polygons", ["pack"], POLYGONS, POLYGONS_BLOB, b"", 0, {0, 16}),
    Row("pack nine collections", ["pack", "--max-nest", "8"], NINE, NINE_BLOB, b"", 0, {0, 35}),
    Row("unpack a collection", ["unpack"], MEMBERS_BLOB, MEMBERS, b"", 0, {0, 33, len(MEMBERS)}),
    Row("unpack a stream that is cut", ["unpack"], CUT_STREAM, CUT_TABLE, CUT, 1, {0, 33, 47}),
    Row("unpack nine collections", ["unpack", "--max-nest", "8"], NINE_BLOB, NINE, b"", 0, {0, 33, len(NINE)}),
    Row("show a collection", ["show"], MEMBERS_BLOB, MEMBERS_LINES, b"", 0, {0, len(MEMBERS_LINES)}),
    Row("show a stream that is cut", ["show"], CUT_STREAM, CUT_LINES, CUT, 1, {0, len(CUT_LINES)}),
    Row("show nine collections", ["show", "--max-nest", "8"], NINE_BLOB, NINE_LINES, b"", 0, {0, len(NINE_LINES)}),
]

# Rows that with the texts of help reach every place of the program from which any row grows, reads or writes.
FEW = [
    "pack a collection",
    "pack a table whose last row is refused",
    "unpack a stream that is cut",
    "unpack nine collections",
    "show nine collections",
]


def whole_before(row, count):
    """How long the output is of what stands whole in the first `count` bytes of a stream."""
    if row.words[0] == "unpack":
        blob = 4 if row.source == CUT_STREAM else len(row.source)
        return len(row.output) if count >= blob else len(HEADER)
    blob = 4 if row.source == CUT_STREAM else len(row.source)
    return len(row.output) if count >= blob else 0
