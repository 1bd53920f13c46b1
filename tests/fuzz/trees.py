"""Random trees, and their blobs with every freedom that the format leaves to a writer."""
from blob import BOX, EMPTY, EXTENDED, IDS, PRECISIONS, SIZE, varint
from geometry import KINDS, LEAST, MOST, Geometry, differences, points_of, zigzag

EDGES = [0, 1, -1, 2, 15, 16, 31, 32, 63, 64, -64, -65, 8191, 8192, 2**31, -(2**31) - 1, 2**53, 2**60]
ID_EDGES = [0, 1, -1, 63, 64, 2**31, 2**53, 2**63 - 1, -(2**63)]


def coordinate(chance):
    kind = chance.random()
    if kind < 0.5:
        return chance.randint(-5, 5)
    if kind < 0.8:
        return chance.randint(-18000000, 18000000)
    if kind < 0.9:
        return chance.choice(EDGES)
    return chance.choice(
        (LEAST, MOST, LEAST + chance.randint(0, 2), MOST - chance.randint(0, 2), chance.randint(LEAST, MOST))
    )


def some_points(chance, most=6):
    return [(coordinate(chance), coordinate(chance)) for _ in range(chance.choice((0, 1, 1, 2, 3, most)))]


def some_ids(chance, count):
    if count == 0 or chance.random() < 0.5:
        return None
    return [chance.choice(ID_EDGES) if chance.random() < 0.3 else chance.randint(-300, 300) for _ in range(count)]


def some_tree(chance, room=3):
    """A random geometry with at most `room` levels of collections in it."""
    kind = chance.choice(KINDS if room > 0 else KINDS[:-1])
    precision = chance.choice(PRECISIONS) if chance.random() < 0.6 else 0
    count = chance.choice((0, 1, 2, 2, 3))
    if kind == "point":
        return Geometry(kind, precision, None, some_points(chance)[:1])
    if kind == "linestring":
        return Geometry(kind, precision, None, some_points(chance, chance.choice((5, 40))))
    if kind == "polygon":
        return Geometry(kind, precision, None, [some_points(chance) for _ in range(count)])
    if kind == "multipoint":
        members = some_points(chance)
    elif kind == "multilinestring":
        members = [some_points(chance) for _ in range(count)]
    elif kind == "multipolygon":
        members = [[some_points(chance, 3) for _ in range(chance.choice((0, 1, 2)))] for _ in range(count)]
    else:
        members = [some_tree(chance, room - 1) for _ in range(count)]
        if chance.random() < 0.6:
            members = [member._replace(precision=precision) for member in members]
    return Geometry(kind, precision, some_ids(chance, len(members)), members)


def nested(chance, tree):
    """The tree as the last member of collections that stand in one another."""
    for _ in range(chance.choice((0, 0, 0, 0, 1, 2, 7, 8, 9, 14, 15, 16, 17, 31, 32, 33))):
        tree = Geometry("collection", chance.choice((tree.precision, 0)), some_ids(chance, 1), [tree])
    return tree


def padded(chance, number):
    """A spelling of the number, longer than needed now and then."""
    units = bytearray(varint(number))
    if len(units) < 10 and chance.random() < 0.15:
        units[-1] += 128
        units += b"\x80" * min(chance.choice((0, 0, 1, 8)), 9 - len(units)) + b"\x00"
    return bytes(units)


def free(chance, tree):
    """A blob of the tree: any flags, any box, any padding, an extended byte, bit 4 or a count of 0, exact sizes."""
    kind, precision, ids, members = tree
    flags = (chance.getrandbits(8) & 0xE0) if chance.random() < 0.3 else 0
    if not members and (kind == "point" or chance.random() < 0.5):
        body, flags = b"", flags | EMPTY | IDS * chance.getrandbits(1)
    else:
        body = free_body(chance, tree)
        flags |= IDS * (chance.getrandbits(1) if not members or kind in KINDS[:3] else bool(ids))
    if chance.random() < 0.3:
        flags |= BOX
        body = b"".join(padded(chance, chance.choice((0, 1, 5, 300, 2**63, 2**64 - 1))) for _ in range(4)) + body
    front = b""
    if chance.random() < 0.2:
        flags |= EXTENDED
        front = bytes([chance.getrandbits(6) * 4])
    if chance.random() < 0.5:
        flags |= SIZE
        front += padded(chance, len(body))
    return bytes([16 * PRECISIONS.index(precision) + KINDS.index(kind) + 1, flags]) + front + body


def free_body(chance, tree):
    kind, _, ids, members = tree
    head = padded(chance, len(members)) + b"".join(padded(chance, zigzag(identifier)) for identifier in ids or [])
    if kind == "collection":
        return head + b"".join(free(chance, member) for member in members)
    steps = iter(differences(points_of(tree)))

    def run(points):
        return b"".join(padded(chance, zigzag(step)) for _ in points for step in next(steps))

    def line(points):
        return padded(chance, len(points)) + run(points)

    if kind == "point":
        return run(members)
    if kind in ("linestring", "multipoint"):
        return head + run(members)
    if kind == "multipolygon":
        return head + b"".join(padded(chance, len(rings)) + b"".join(map(line, rings)) for rings in members)
    return head + b"".join(map(line, members))
