"""Slips: what goes wrong with streams and with tables, at every level."""
from blob import FOLLOWS, items_of, varint
from geometry import KINDS
from polyline import spelled
from table import HEADER_LINE, records_of

NUMBERS = [
    0,
    1,
    2,
    3,
    127,
    128,
    2**14,
    2**20 - 1,
    2**20,
    2**20 + 1,
    2**24,
    2**24 + 1,
    2**32,
    2**62,
    2**63,
    2**64 - 2,
    2**64 - 1,
]
OVERLONG = [b"\xff" * 10, b"\xff" * 9 + b"\x02", b"\x80" * 9 + b"\x7f", b"\x80" * 12, b"\xff" * 9]


def with_part(whole, start, end, part):
    return whole[:start] + part + whole[end:]


def item_slip(chance, stream):
    """Another spelling, or another value, at one item of the first blob."""
    items, _ = items_of(stream, 0)
    if not items:
        return stream
    counts = [item for item in items if item.role in FOLLOWS]
    item = chance.choice(counts if counts and chance.random() < 0.3 else items)
    if item.role in ("type", "metadata", "extended"):
        part = bytes([item.value ^ 1 << chance.randrange(8)])
    elif item.role == "end":
        part = b""
    else:
        value = chance.choice(NUMBERS + [item.value + 1, max(item.value - 1, 0), item.value * 2])
        part = chance.choice(OVERLONG) if chance.random() < 0.15 else varint(value % 2**64)
    return with_part(stream, item.offset, item.end, part)


def byte_slip(chance, text):
    """One byte changed, put in, or taken away."""
    place, byte = chance.randrange(len(text) + 1), bytes([chance.getrandbits(8)])
    return with_part(text, place, place + chance.getrandbits(1), chance.choice((byte, byte, b"", b"\xff", b"\x00")))


def stray_quotes(chance, text):
    for _ in range(chance.randint(1, 3)):
        place = chance.randrange(len(text) + 1)
        text = text[:place] + chance.choice((b'"', b'"', b'""', b'"x"y', b'",')) + text[place:]
    return text


def cut(chance, text):
    return text[: chance.randrange(len(text) + 1)]


def spliced(chance, text):
    """A piece of the text again, or left out, or moved."""
    start, end, place = sorted(chance.randrange(len(text) + 1) for _ in range(3))
    return chance.choice(
        (text[:end] + text[start:], text[:start] + text[end:], text[:start] + text[end:place] + text[start:end])
    )


def announced(chance, nest):
    """Collections in one another, about as many as may be, and inside them a count that may stand too deep, announce too
    much and be no number, all at once."""
    depth = max(nest + chance.choice((-1, 0, 0, 1)), 0)
    kind = 7 if chance.random() < 0.7 else chance.randint(2, 6)
    count = chance.choice(OVERLONG) if chance.random() < 0.15 else varint(chance.choice(NUMBERS))
    return b"\x07\x00\x01" * depth + bytes([kind, chance.choice((0, 0, 4))]) + count + b"\x01\x10" * chance.randrange(3)


def stream_slip(chance, stream):
    for _ in range(chance.choice((1, 1, 1, 2, 4))):
        slip = chance.choice((item_slip, item_slip, item_slip, item_slip, byte_slip, cut, spliced))
        stream = slip(chance, stream)
    return stream


DEPTHS = [
    "",
    "0",
    "1",
    "2",
    "3",
    "17",
    "33",
    "999",
    "1000",
    "00",
    "01",
    "-1",
    "+1",
    "-0",
    " 1",
    "1 ",
    "x",
    "99999999999999999999",
]
KIND_WORDS = list(KINDS) + ["ring", "pont", "", "Point", " point", "multiring"]
ID_WORDS = [
    "",
    "0",
    "7",
    "-1",
    "9223372036854775807",
    "-9223372036854775808",
    "9223372036854775808",
    "-9223372036854775809",
]
ID_WORDS += ["-0", "+1", "01", "x", "1.0", " ", "\u0661"]
PRECISION_WORDS = ["", "0", "7", "-8", "8", "-9", "-0", "+1", "01", "00", "x", "127", "-128", "256", " 0"]
POLYLINES = [
    "",
    "AC",
    "AA",
    "A",
    "_",
    "_?",
    "A A",
    "~" * 13,
    "~" * 12 + " ",
    "_" * 12 + "G?",
    "_" * 12 + "O",
    "AAAA",
    "??",
    "AAA",
    "\x7f",
]
FIELDS = (DEPTHS, KIND_WORDS, ID_WORDS, PRECISION_WORDS, POLYLINES)


def polyline_slip(chance, text):
    if chance.random() < 0.4:
        return byte_slip(chance, text)
    limit = chance.choice((2**62 - 1, 2**62, -(2**62), -(2**62) - 1, 2**63 - 1, -(2**63), 0, 1))
    place = chance.randrange(len(text) + 1)
    return text[:place] + spelled(limit) + text[place:]


def record_slip(chance, records):
    """One record, or one field of it, changed; the header's seldom."""
    place = (
        chance.randrange(len(records))
        if chance.random() < 0.1
        else chance.randrange(min(1, len(records) - 1), len(records))
    )
    record = list(records[place])
    column = chance.randrange(5)
    kind = chance.random()
    if kind < 0.45 and column < len(record):
        record[column] = chance.choice(FIELDS[column]).encode()
    elif kind < 0.6 and len(record) > 4:
        record[4] = polyline_slip(chance, record[4])
    elif kind < 0.7 and record and record[0].isdigit():
        record[0] = str(int(record[0]) + chance.choice((1, 1, -1, 2))).encode()
    elif kind < 0.8:
        other = chance.randrange(len(records))
        return records[:place] + [records[other]] + records[place:]
    elif kind < 0.88:
        return records[:place] + records[place + 1 :]
    elif kind < 0.94:
        record.insert(column, b"")
    else:
        del record[column:]
    return records[:place] + [record] + records[place + 1 :]


def quoted(chance, field):
    if chance.random() < 0.15 or any(byte in b',"\r\n' for byte in field):
        return b'"' + field.replace(b'"', b'""') + b'"'
    return field


def table_of(chance, records):
    """A text of the records: quotes, line ends and empty lines as RFC 4180 and its readers have them."""
    is_plain = chance.random() < 0.5
    ends = [b"\n"] if is_plain else [chance.choice((b"\n", b"\r\n", b"\r", b"\n\n", b"\r\n\r\n"))]
    lines = [b",".join(record if is_plain else (quoted(chance, field) for field in record)) for record in records]
    text = b"".join(line + chance.choice(ends) for line in lines)
    if not is_plain and chance.random() < 0.2:
        text = b"\xef\xbb\xbf" + text
    if not is_plain and chance.random() < 0.3:
        text = text.rstrip(b"\r\n")
    return text


def table_slip(chance, text):
    records = records_of(text)
    for _ in range(chance.choice((0, 1, 1, 1, 2, 4))):
        if records:
            records = record_slip(chance, records)
    text = table_of(chance, records)
    if chance.random() < 0.15:
        text = chance.choice((byte_slip, cut, spliced, stray_quotes, stray_quotes))(chance, text)
    return text


def any_bytes(chance):
    """Bytes that were no stream and no table to begin with, with a header in front now and then."""
    text = bytes(
        chance.choice((0, 1, 2, 7, 16, 34, 44, 48, 65, 95, 126, 128, 255, 10)) for _ in range(chance.randrange(40))
    )
    return (HEADER_LINE if chance.random() < 0.3 else b"") + text
