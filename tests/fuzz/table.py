"""Tables: records of a text, the geometries that they name or their fault, and the table of geometries."""
import re

from geometry import DOUBLE, KINDS, NODES, POINTS, Geometry
from polyline import decode, encode

HEADER = [b"depth", b"kind", b"id", b"precision", b"polyline"]
HEADER_LINE = b",".join(HEADER) + b"\n"
CHILDREN = {
    "polygon": {"ring"},
    "multipoint": {"point"},
    "multilinestring": {"linestring"},
    "multipolygon": {"polygon"},
    "collection": set(KINDS),
}
ROW_KINDS = {kind.encode(): kind for kind in KINDS + ("ring",)}
POINTED = ("point", "linestring", "ring")

FIELD = re.compile(rb'"((?:[^"]|"")*+)(?:"([^,\r\n]*))?|([^,\r\n]*)')
LINE_ENDS = re.compile(rb"[\r\n]*")
DEPTH = re.compile(rb"0|[1-9][0-9]{0,2}")
WHOLE_NUMBER = re.compile(rb"0|-?[1-9][0-9]*")
PRECISION = re.compile(rb"0|[1-7]|-[1-8]")


def records_of(text):
    """The records as a reader of RFC 4180 tables gives them that forgives stray quotes and skips empty lines."""
    place = 3 if text.startswith(b"\xef\xbb\xbf") else 0
    records = []
    while True:
        place = LINE_ENDS.match(text, place).end()
        if place == len(text):
            return records
        record = []
        while True:
            field = FIELD.match(text, place)
            quoted, behind, bare = field.groups()
            record.append(bare if quoted is None else quoted.replace(b'""', b'"') + (behind or b""))
            place = field.end()
            if text[place : place + 1] != b",":
                break
            place += 1
        records.append(record)


class Row:
    """A record that was accepted."""

    def __init__(self, depth, kind, identifier, precision, points):
        self.depth, self.kind, self.identifier, self.precision, self.points = depth, kind, identifier, precision, points


def place_fault(rows, depth, kind, nest):
    """What is wrong with a row of this depth and kind behind these rows, and its parent's place."""
    if depth == 0:
        return ("kind not allowed there" if kind == "ring" else None), None
    if not rows or depth > rows[-1].depth + 1:
        return "kind not allowed there", None
    parent = max(place for place, row in enumerate(rows) if row.depth == depth - 1)
    if kind not in CHILDREN.get(rows[parent].kind, ()):
        return "kind not allowed there", None
    if rows[parent].kind == "collection" and depth - 1 >= nest:
        return "nested too deep", None
    root = max(place for place, row in enumerate(rows) if row.depth == 0)
    if len(rows) - root >= NODES:
        return "too many rows in one geometry", None
    return None, parent


def id_fault(rows, parent, depth, kind, identifier):
    """The first rule of ids that a row breaks, given its parent's place."""
    if identifier is not None and (depth == 0 or kind == "ring"):
        return "id not allowed"
    siblings = [] if parent is None else [row for row in rows[parent + 1 :] if row.depth == depth]
    if siblings and (siblings[0].identifier is None) != (identifier is None):
        return "id on some children only"
    return None


def precision_fault(rows, parent, precision):
    """The first rule of precisions that a row breaks, given its parent's place."""
    is_whole = parent is None or rows[parent].kind == "collection"
    if is_whole and precision is None:
        return "precision missing"
    if not is_whole and precision is not None:
        return "precision not allowed"
    return None


def count_fault(rows, parent, kind, points):
    """The first rule of the number of points that a row breaks, given its parent's place."""
    is_part = parent is not None and rows[parent].kind == "multipoint"
    if kind == "point" and (len(points) != 1 if is_part else len(points) > 1):
        return "wrong number of points"
    return None


def judged(rows, record, nest):
    """The row of a record behind these rows, or the first reason against it."""
    if len(record) != 5:
        return "not five fields"
    depth, kind, identifier, precision, polyline = record
    if not DEPTH.fullmatch(depth):
        return "bad depth"
    depth = int(depth)
    if kind not in ROW_KINDS:
        return "unknown kind"
    kind = ROW_KINDS[kind]
    fault, parent = place_fault(rows, depth, kind, nest)
    if fault:
        return fault
    if identifier:
        if not WHOLE_NUMBER.fullmatch(identifier) or not -(2**63) <= int(identifier) < 2**63:
            return "bad id"
    identifier = int(identifier) if identifier else None
    fault = id_fault(rows, parent, depth, kind, identifier)
    if fault:
        return fault
    if precision and not PRECISION.fullmatch(precision):
        return "bad precision"
    precision = int(precision) if precision else None
    fault = precision_fault(rows, parent, precision)
    if fault:
        return fault
    if polyline and kind not in POINTED:
        return "polyline not allowed"
    root = len(rows) if parent is None else max(place for place, row in enumerate(rows) if row.depth == 0)
    points, fault = decode(polyline, POINTS - sum(len(row.points) for row in rows[root:]))
    if fault:
        return "polyline at %d: %s" % fault
    return count_fault(rows, parent, kind, points) or Row(depth, kind, identifier, precision, points)


def split_at(rows, depth):
    """Rows cut before each row of this depth, which the first row has."""
    starts = [place for place, row in enumerate(rows) if row.depth == depth]
    return [rows[start:end] for start, end in zip(starts, starts[1:] + [len(rows)])]


def tree_of(rows):
    root, children = rows[0], split_at(rows[1:], rows[0].depth + 1)
    if root.kind in ("point", "linestring"):
        members = root.points
    elif root.kind == "multipoint":
        members = [child[0].points[0] for child in children]
    elif root.kind in DOUBLE:
        members = [child[0].points for child in children]
    elif root.kind == "multipolygon":
        members = [[ring.points for ring in child[1:]] for child in children]
    else:
        members = [tree_of(child) for child in children]
    ids = [child[0].identifier for child in children]
    return Geometry(root.kind, root.precision, ids if ids and ids[0] is not None else None, members)


def named_by(text, nest):
    """The geometries that are complete, and the fault: the record's number and the reason, or None."""
    records = records_of(text)
    if not records or records[0] != HEADER:
        return [], (1, "bad header")
    rows, fault = [], None
    for number, record in enumerate(records[1:], 2):
        row = judged(rows, record, nest)
        if isinstance(row, str):
            fault = number, row
            break
        rows.append(row)
    geometries = [tree_of(part) for part in split_at(rows, 0)]
    return (geometries[:-1] if fault else geometries), fault


def row_text(depth, kind, identifier, precision, points):
    fields = [depth, kind, "" if identifier is None else identifier, "" if precision is None else precision]
    return (",".join(map(str, fields)) + ",").encode() + encode(points) + b"\n"


def rows_text(geometry, depth=0, identifier=None):
    """The rows of a geometry as text."""
    kind, members = geometry.kind, geometry.members
    own = members if kind in ("point", "linestring") else []
    text = row_text(depth, kind, identifier, geometry.precision, own)
    ids = geometry.ids or [None] * len(members)
    if kind == "polygon":
        return text + b"".join(row_text(depth + 1, "ring", None, None, ring) for ring in members)
    if kind == "multipoint":
        return text + b"".join(row_text(depth + 1, "point", i, None, [p]) for i, p in zip(ids, members))
    if kind == "multilinestring":
        return text + b"".join(row_text(depth + 1, "linestring", i, None, line) for i, line in zip(ids, members))
    if kind == "multipolygon":
        for i, polygon in zip(ids, members):
            text += row_text(depth + 1, "polygon", i, None, [])
            text += b"".join(row_text(depth + 2, "ring", None, None, ring) for ring in polygon)
        return text
    if kind == "collection":
        return text + b"".join(rows_text(member, depth + 1, i) for i, member in zip(ids, members))
    return text


def table_text(geometries):
    return HEADER_LINE + b"".join(rows_text(geometry) for geometry in geometries)
