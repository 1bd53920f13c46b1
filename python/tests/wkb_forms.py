"""Geometries as WKT, as WKB by hand and as rows of a table; and WKB of any type and byte order."""
import struct

NAN = float("nan")
# WKT, its little-endian WKB in hexadecimal digits by hand, and the rows of the table, with no decimals.
FORMS = [
    ("POINT (2 1)", "0101000000" "0000000000000040000000000000f03f", "0,point,,0,AC/"),
    ("POINT EMPTY", "0101000000" "000000000000f87f000000000000f87f", "0,point,,0,/"),
    (
        "LINESTRING (1 1, 5 5)",
        "010200000002000000" "000000000000f03f000000000000f03f00000000000014400000000000001440",
        "0,linestring,,0,AAGG/",
    ),
    ("LINESTRING EMPTY", "010200000000000000", "0,linestring,,0,/"),
    ("POLYGON EMPTY", "010300000000000000", "0,polygon,,0,/"),
    ("MULTIPOINT EMPTY", "010400000000000000", "0,multipoint,,0,/"),
    (
        "MULTIPOINT (2 1, 3 4)",
        "010400000002000000"
        "0101000000"
        "0000000000000040000000000000f03f"
        "0101000000"
        "00000000000008400000000000001040",
        "0,multipoint,,0,/1,point,,,AC/1,point,,,GE/",
    ),
    (
        "MULTILINESTRING ((1 1, 5 5))",
        "010500000001000000" "010200000002000000" "000000000000f03f000000000000f03f00000000000014400000000000001440",
        "0,multilinestring,,0,/1,linestring,,,AAGG/",
    ),
    (
        "MULTIPOLYGON (((0 0, 1 0, 1 1, 0 0)))",
        "010600000001000000"
        "010300000001000000"
        "04000000"
        "00000000000000000000000000000000"
        "000000000000f03f0000000000000000"
        "000000000000f03f000000000000f03f"
        "00000000000000000000000000000000",
        "0,multipolygon,,0,/1,polygon,,,/2,ring,,,???AA?@@/",
    ),
    (
        "GEOMETRYCOLLECTION (POINT (2 1), POINT EMPTY, GEOMETRYCOLLECTION (POINT (3 4)))",
        "010700000003000000"
        "0101000000"
        "0000000000000040000000000000f03f"
        "0101000000"
        "000000000000f87f000000000000f87f"
        "010700000001000000"
        "0101000000"
        "00000000000008400000000000001040",
        "0,collection,,0,/1,point,,0,AC/1,point,,0,/1,collection,,0,/2,point,,0,GE/",
    ),
]
POINT = bytes.fromhex(FORMS[0][1])
LINE = bytes.fromhex(FORMS[2][1])


def wkb(code, *numbers, order="<", srid=None, counts=()):
    """The WKB of a type with counts and coordinates."""
    head = struct.pack(order + "BI", order == "<", code) + (b"" if srid is None else struct.pack(order + "I", srid))
    return head + struct.pack(f"{order}{len(counts)}I{len(numbers)}d", *counts, *numbers)


def turned(given, place=0):
    """Little-endian WKB of the forms above as big-endian, and where it ends."""
    kind = struct.unpack_from("<I", given, place + 1)[0]
    made, place = struct.pack(">BI", 0, kind), place + 5
    if kind == 1:
        return made + struct.pack(">2d", *struct.unpack_from("<2d", given, place)), place + 16
    count = struct.unpack_from("<I", given, place)[0]
    made, place = made + struct.pack(">I", count), place + 4
    if kind == 2:
        return (
            made + struct.pack(f">{2 * count}d", *struct.unpack_from(f"<{2 * count}d", given, place)),
            place + 16 * count,
        )
    for _ in range(count):
        if kind == 3:
            points = struct.unpack_from("<I", given, place)[0]
            part = struct.pack(f">I{2 * points}d", points, *struct.unpack_from(f"<{2 * points}d", given, place + 4))
            place += 4 + 16 * points
        else:
            part, place = turned(given, place)
        made += part
    return made, place


def begins(given, place=0):
    """Where each number of little-endian WKB begins, and where it ends."""
    kind, found, place = struct.unpack_from("<I", given, place + 1)[0], [place, place + 1], place + 5
    count = 1 if kind == 1 else struct.unpack_from("<I", given, place)[0]
    if kind != 1:
        found.append(place)
        place += 4
    for _ in range(1 if kind < 3 else count):
        if kind > 3:
            part, place = begins(given, place)
            found += part
            continue
        if kind == 3:
            found.append(place)
            count, place = struct.unpack_from("<I", given, place)[0], place + 4
        found += range(place, place + 16 * count, 8)
        place += 16 * count
    return found, place
