"""Blobs: the items of a stream first, as far as headers and counts lead; then what the whole list of them says."""
from itertools import accumulate

from geometry import (
    DOUBLE,
    KINDS,
    LEAST,
    MOST,
    NODES,
    POINTS,
    Geometry,
    box_of,
    differences,
    has_box,
    points_of,
    signed,
    zigzag,
)

PRECISIONS = [signed(bits) for bits in range(16)]
BOX, SIZE, IDS, EXTENDED, EMPTY = 1, 2, 4, 8, 16
# the first count of a body by type; what a count is followed by, so many times; the counts that may have ids behind them
COUNT_OF_TYPE = dict(zip(range(2, 8), ("npoints", "rings", "point members", "lines", "polygons", "members")))
FOLLOWS = {
    "npoints": ("x", "y"),
    "point members": ("x", "y"),
    "rings": ("npoints",),
    "lines": ("npoints",),
    "polygons": ("rings",),
    "members": ("type",),
}
OF_MEMBERS = ("point members", "lines", "polygons", "members")


class Header:
    """What is known of a geometry of a stream from its header, and where it ends."""

    def __init__(self, start, level, byte):
        self.start, self.level = start, level
        self.type, self.precision = byte % 16, PRECISIONS[byte // 16]
        self.metadata = 0
        self.size = self.size_end = self.end = None

    def has(self, flag):
        return self.metadata & flag != 0

    def roles(self):
        """The roles behind the metadata byte, as far as no count decides them."""
        roles = ["extended"] * self.has(EXTENDED) + ["size"] * self.has(SIZE) + ["box"] * 4 * self.has(BOX)
        if not self.has(EMPTY):
            roles += ["x", "y"] if self.type == 1 else [COUNT_OF_TYPE[self.type]]
        return roles + ["end"]


class Item:
    """A byte of a header, a number, or a geometry's end, which has no bytes."""

    def __init__(self, role, offset, end, value, header):
        self.role, self.offset, self.end, self.value, self.header = role, offset, end, value, header


def number_at(stream, offset):
    """The number whose varint stands there and where it ends; or None, and why none does."""
    spelling = stream[offset : offset + 10]
    last = next((place for place, unit in enumerate(spelling) if unit < 128), None)
    if last is None:
        return None, "bad varint" if len(spelling) == 10 else "truncated"
    number = sum(unit % 128 << 7 * place for place, unit in enumerate(spelling[: last + 1]))
    return (number, offset + last + 1) if number < 2**64 else (None, "bad varint")


def item_at(stream, offset, role, header):
    """The item of this role that stands there, or why none does."""
    if role == "end":
        header.end = offset
        return Item(role, offset, offset, None, header)
    if role not in ("type", "metadata", "extended"):
        number, end = number_at(stream, offset)
        return end if number is None else Item(role, offset, end, number, header)
    if offset == len(stream):
        return "truncated"
    byte = stream[offset]
    if role == "type":
        if not 1 <= byte % 16 <= 7:
            return "unknown type"
        header = Header(offset, header.level + 1 if header else 0, byte)
    elif role == "metadata":
        header.metadata = byte
    elif byte % 4:
        return "extra dimensions"
    return Item(role, offset, offset + 1, byte, header)


def behind(item):
    """The roles that an item adds behind itself: pairs of how often, and which."""
    header = item.header
    if item.role == "type":
        return [(1, ("metadata",))]
    if item.role == "metadata":
        return [(1, (role,)) for role in header.roles()]
    if item.role == "size":
        header.size, header.size_end = item.value, item.end
    if item.role not in FOLLOWS:
        return []
    ids = [(item.value, ("id",))] if item.role in OF_MEMBERS and header.has(IDS) else []
    return ids + [(item.value, FOLLOWS[item.role])]


def items_of(stream, start):
    """The items of the blob that begins there, and where and why there are no more before its end, or None."""
    items, agenda, offset = [], [(1, ("type",), None)], start
    while agenda:
        times, roles, header = agenda.pop()
        if times == 0:
            continue
        agenda.append((times - 1, roles, header))
        if len(roles) > 1:
            agenda.extend((1, (role,), header) for role in reversed(roles))
            continue
        item = item_at(stream, offset, roles[0], header)
        if isinstance(item, str):
            return items, (offset, item)
        items.append(item)
        offset = item.end
        agenda.extend((times, roles, item.header) for times, roles in reversed(behind(item)))
    return items, None


def announces_nodes(item):
    return item.value if item.role in FOLLOWS and item.role != "npoints" else 0


def announces_points(item):
    if item.role == "metadata":
        return 1 if item.header.type == 1 and not item.header.has(EMPTY) else 0
    return item.value if item.role in ("npoints", "point members") else 0


def first_outside(items, role):
    """The first item of this role at which a geometry's sum of differences leaves the range."""
    sums = {}
    for item in items:
        if item.role == role:
            sums[item.header] = sums.get(item.header, 0) + signed(item.value)
            if not LEAST <= sums[item.header] <= MOST:
                return item
    return None


def faults_of(items, nest):
    """The faults that whole items show, as (place in the list, order at the item, offset, reason)."""
    nodes = accumulate(map(announces_nodes, items))
    points = accumulate(map(announces_points, items))
    faults = []
    for place, (item, node_count, point_count) in enumerate(zip(items, nodes, points)):
        if item.role == "members" and item.value > 0 and item.header.level >= nest:
            faults.append((place, 1, item.offset, "nested too deep"))
        if announces_nodes(item) and 1 + node_count > NODES:
            faults.append((place, 2, item.offset, "too many nodes"))
        if announces_points(item) and point_count > POINTS:
            faults.append((place, 3, item.offset, "too many points"))
        if item.role == "end" and item.header.size not in (None, item.offset - (item.header.size_end or 0)):
            faults.append((place, 4, item.offset, "size mismatch"))
    for role in ("x", "y"):
        item = first_outside(items, role)
        if item:
            faults.append((items.index(item), 5, item.offset, "coordinate out of range"))
    return faults


class Reading:
    """The tree of a blob without faults, made of the values of its items."""

    def __init__(self, items):
        self.values = iter(items)
        self.point = (0, 0)

    def item(self, *roles):
        item = next(self.values)
        assert item.role in roles, (item.role, roles)
        return item

    def next_point(self):
        x, y = (signed(self.item(role).value) for role in ("x", "y"))
        self.point = (self.point[0] + x, self.point[1] + y)
        return self.point

    def line(self):
        return [self.next_point() for _ in range(self.item("npoints").value)]

    def polygon(self):
        return [self.line() for _ in range(self.item("rings").value)]

    def geometry(self):
        header = self.item("type").header
        self.item("metadata")
        for role in header.roles()[: -1 if header.has(EMPTY) else {1: -3}.get(header.type, -2)]:
            self.item(role)
        self.point = (0, 0)
        kind = KINDS[header.type - 1]
        ids, members = (None, []) if header.has(EMPTY) else self.body(kind, header)
        self.item("end")
        return Geometry(kind, header.precision, ids or None, members)

    def body(self, kind, header):
        if kind == "point":
            return None, [self.next_point()]
        if kind in ("linestring", "polygon"):
            return None, self.line() if kind == "linestring" else self.polygon()
        count = self.item(COUNT_OF_TYPE[header.type]).value
        ids = [signed(self.item("id").value) for _ in range(count)] if header.has(IDS) else None
        member = {"multipoint": self.next_point, "multilinestring": self.line, "multipolygon": self.polygon}
        return ids, [member.get(kind, self.geometry)() for _ in range(count)]


def lines_of(items):
    """A line for each header: level, offset, kind, precision, metadata byte, length and points."""
    lines = []
    for item in items:
        if item.role == "type":
            header = item.header
            points = sum(1 for other in items if other.role == "y" and header.start <= other.offset < header.end)
            kind, length = KINDS[header.type - 1], header.end - header.start
            fields = (header.level, header.start, kind, header.precision, header.metadata, length, points)
            lines.append("%d %d %s %d %02X %d %d\n" % fields)
    return "".join(lines).encode()


def spelled_in(stream, nest):
    """The geometries before the fault with the lines of each, and the fault: offset and reason, or None."""
    geometries, lines, offset = [], [], 0
    while offset < len(stream):
        items, stop = items_of(stream, offset)
        faults = faults_of(items, nest)
        if faults:
            return geometries, lines, min(faults)[2:]
        if stop:
            return geometries, lines, stop
        geometries.append(Reading(items).geometry())
        lines.append(lines_of(items))
        offset = items[-1].end
    return geometries, lines, None


def varint(number):
    units = []
    while number >= 128:
        units.append(number % 128 + 128)
        number //= 128
    return bytes(units + [number])


def numbers(values):
    return b"".join(varint(zigzag(value)) for value in values)


def canonical(geometry, is_full):
    """The one canonical blob in the full or the plain style."""
    kind, precision, ids, members = geometry
    box = box_of(points_of(geometry)) if is_full and has_box(geometry) else []
    flags = BOX * bool(box) | SIZE * is_full | IDS * bool(ids) | EMPTY * (not members)
    header = bytes([16 * PRECISIONS.index(precision) + KINDS.index(kind) + 1, flags])
    rest = numbers(box) + (body_of(geometry, is_full) if members else b"")
    return header + (varint(len(rest)) if is_full else b"") + rest


def body_of(geometry, is_full):
    kind, _, ids, members = geometry
    if kind == "collection":
        return varint(len(members)) + numbers(ids or []) + b"".join(canonical(member, is_full) for member in members)
    steps = iter(differences(points_of(geometry)))

    def run(points):
        return b"".join(numbers(next(steps)) for _ in points)

    def line(points):
        return varint(len(points)) + run(points)

    def polygon(rings):
        return varint(len(rings)) + b"".join(map(line, rings))

    if kind == "point":
        return run(members)
    if kind in ("linestring", "polygon"):
        return line(members) if kind == "linestring" else polygon(members)
    head = varint(len(members)) + numbers(ids or [])
    if kind == "multipoint":
        return head + run(members)
    return head + b"".join(map(line if kind in DOUBLE else polygon, members))
