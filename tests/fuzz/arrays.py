"""Rows and points in arrays: those of geometries, the geometries of rows and points, and slips of both."""
import ctypes

import table
from geometry import KINDS, LEAST, MOST
from table import POINTED, Row as Accepted, place_fault, split_at, tree_of

KIND_NAMES = ("", *KINDS, "ring")
PART_OF = {"polygon": "ring", "multilinestring": "linestring", "multipoint": "point", "multipolygon": "polygon"}
NO_PRECISION = -128


class Row(ctypes.Structure):
    _fields_ = [
        ("id", ctypes.c_int64),
        ("points", ctypes.c_uint64),
        ("depth", ctypes.c_uint32),
        ("kind", ctypes.c_uint16),
        ("has_id", ctypes.c_uint8),
        ("precision", ctypes.c_int8),
    ]


def bytes_of_rows(rows):
    return bytes((Row * len(rows))(*rows))


def bytes_of_points(points):
    return bytes((ctypes.c_int64 * (2 * len(points)))(*[number for point in points for number in point]))


def arrays_of(geometry, depth=0, identifier=None, is_whole=True):
    """The rows of a geometry, as tuples of the fields of Row, and the points of all of them."""
    kind, precision, ids, members = geometry
    own = members if kind in ("point", "linestring") else []
    precision = precision if is_whole else NO_PRECISION
    rows = [(identifier or 0, len(own), depth, KIND_NAMES.index(kind), identifier is not None, precision)]
    points = list(own)
    ids = ids or [None] * len(members)
    for identifier, member in zip(ids, members if not own and kind != "point" else []):
        if kind != "collection":
            part = PART_OF[kind]
            if part == "polygon":
                more = arrays_of(geometry._replace(kind=part, ids=None, members=member), depth + 1, identifier, False)
            else:
                member = [member] if part == "point" else member
                more = [
                    (
                        identifier or 0,
                        len(member),
                        depth + 1,
                        KIND_NAMES.index(part),
                        identifier is not None,
                        NO_PRECISION,
                    )
                ], member
        else:
            more = arrays_of(member, depth + 1, identifier)
        rows, points = rows + more[0], points + list(more[1])
    return rows, points


def has_rule(rows, parent, depth, kind, identifier, precision):
    """The first rule of ids and precisions that a row breaks, given its parent's place, as a reason."""
    fault = table.id_fault(rows, parent, depth, kind, identifier)
    if fault:
        return fault
    if precision is not None and not -8 <= precision <= 7:
        return "bad precision"
    return table.precision_fault(rows, parent, precision)


def points_fault(rows, parent, kind, points):
    """The first rule of points that a row breaks."""
    root = len(rows) if parent is None else max(place for place, row in enumerate(rows) if row.depth == 0)
    rules = [
        ("polyline not allowed", points and kind not in POINTED),
        ("coordinate out of range", not all(LEAST <= number <= MOST for point in points for number in point)),
        ("too many points", sum(len(row.points) for row in rows[root:]) + len(points) > table.POINTS),
    ]
    fault = next((reason for reason, is_broken in rules if is_broken), None)
    return fault or table.count_fault(rows, parent, kind, points)


def judged(rows, row, ahead, nest):
    """The row of a table that a row of an array stands for after these, with the first of the points ahead; or the first reason against it."""
    identifier, count, depth, kind, has_id, precision = row
    if not 1 <= kind < len(KIND_NAMES):
        return "unknown kind"
    if has_id > 1 or not has_id and identifier:
        return "bad id"
    if count > len(ahead):
        return "points missing"
    kind, identifier, points = KIND_NAMES[kind], identifier if has_id else None, ahead[:count]
    precision = None if precision == NO_PRECISION else precision
    fault, parent = place_fault(rows, depth, kind, nest)
    fault = (
        fault or has_rule(rows, parent, depth, kind, identifier, precision) or points_fault(rows, parent, kind, points)
    )
    return fault or Accepted(depth, kind, identifier, precision, points)


def named_by(rows, points, nest):
    """The geometries that are complete, and the fault: the row from 0 and the reason, or None."""
    accepted, used, fault = [], 0, None
    for place, row in enumerate(rows):
        found = judged(accepted, row, points[used:], nest)
        if isinstance(found, str):
            fault = place, found
            break
        accepted.append(found)
        used += len(found.points)
    if not fault and used < len(points):
        fault = len(rows), "points left over"
    geometries = [tree_of(part) for part in split_at(accepted, 0)]
    # a row of depth 0 ends the geometry before it, whatever is wrong with it
    is_open = fault and (fault[0] == len(rows) or rows[fault[0]][2] > 0)
    return (geometries[:-1] if is_open else geometries), fault


def index_outside(rows, points, fault):
    """The first point out of range of the row that is refused for that, counted from 0; else 0."""
    if not fault or fault[1] != "coordinate out of range":
        return 0
    own = points[sum(row[1] for row in rows[: fault[0]]) :]
    return next(index for index, point in enumerate(own) if not all(LEAST <= number <= MOST for number in point))


# Values of each field of a row for slips.
FIELDS = {
    0: (0, 1, -1, 7, 2**63 - 1, -(2**63)),
    1: (0, 1, 1, 2, 3, 2**32, 2**63, 2**64 - 1),
    2: (0, 0, 1, 1, 2, 3, 9, 2**32 - 1),
    3: (0, 1, 2, 3, 4, 5, 6, 7, 8, 9, 2**16 - 1),
    4: (0, 0, 1, 1, 2, 255),
    5: (NO_PRECISION, NO_PRECISION, 0, 5, -8, 7, 8, -9, 127, -127),
}


def slip(chance, rows, points):
    """Rows and points with a field changed, a row left out, moved or given twice, points left out or added, also to a row, or one out of range."""
    rows, points = list(rows), list(points)
    kind = chance.randrange(10)
    if kind < 3 and rows:
        place, field = chance.randrange(len(rows)), chance.randrange(6)
        rows[place] = (*rows[place][:field], chance.choice(FIELDS[field]), *rows[place][field + 1 :])
    elif kind == 3 and rows:
        del rows[chance.randrange(len(rows))]
    elif kind == 4 and rows:
        rows.insert(chance.randrange(len(rows) + 1), chance.choice(rows))
    elif kind == 5 and points:
        del points[chance.randrange(len(points))]
    elif kind == 6 and rows:
        place = chance.randrange(len(rows))
        identifier, count, *rest = rows[place]
        rows[place] = identifier, min(count + 1, 2**64 - 1), *rest
        points.insert(min(sum(row[1] for row in rows[:place]), len(points)), (chance.randint(-9, 9), 0))
    elif kind == 7:
        points.insert(chance.randrange(len(points) + 1), (chance.randint(-9, 9), 0))
    elif points:
        place = chance.randrange(len(points))
        points[place] = chance.choice(((2**62, 0), (0, -(2**62) - 1), (2**63 - 1, -(2**63)), (MOST, LEAST)))
    return rows, points


def some_arrays(chance, trees):
    """Rows and points of trees, most of them with slips."""
    rows, points = [], []
    for tree in trees:
        more = arrays_of(tree)
        rows, points = rows + more[0], points + more[1]
    for _ in range(chance.choice((0, 0, 1, 1, 1, 2, 4))):
        rows, points = slip(chance, rows, points)
    return rows, points
