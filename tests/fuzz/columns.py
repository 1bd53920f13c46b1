"""Cases of the package for Python that need no second implementation of the library: degrees of rows, columns of one kind, lists with gaps."""
import math
from array import array
from fractions import Fraction
from itertools import accumulate

try:
    import numpy
except ImportError:
    numpy = None

import blob
from arrays import NO_PRECISION
from geometry import KINDS, points_of, with_precision
from rounding import some_double, unit_of
from slips import stream_slip
from trees import some_tree

# How many levels of lists the coordinates of each kind have.
DEPTHS = {"point": 0, "linestring": 1, "polygon": 2, "multipoint": 1, "multilinestring": 2, "multipolygon": 3}


def precisions_of_numbers(rows):
    """The precision of each coordinate of rows: that of its row, or of the last one before it that has one."""
    precision, found = 0, []
    for row in rows:
        precision = row.precision if row.precision != NO_PRECISION else precision
        found += [precision] * (2 * row.counts)
    return found


def walked(mappings, depth):
    """The coordinates in mappings that have lists to so many levels, and the offsets of each level, the innermost first."""
    items, offsets = [mapping["coordinates"] if mapping else [] for mapping in mappings], []
    for _ in range(depth):
        offsets.insert(0, [0, *accumulate(map(len, items))])
        items = [part for item in items for part in item]
    return items, offsets


def judged_item(item):
    """Where and why an item of a list is not one blob, or None."""
    items, stop = blob.items_of(item, 0)
    faults = blob.faults_of(items, 16)
    if faults or stop:
        return min(faults)[2:] if faults else stop
    return (items[-1].end, "size mismatch") if items[-1].end < len(item) else None


class Columns:
    """Needs `package`, the module polytwkb, and `met`, which counts how cases end."""

    package = None

    def met(self, end):
        raise NotImplementedError

    def degrees(self, chance, _):
        """Rows are read in degrees as fractions give them, and degrees are written as fractions are rounded, each by its own precision."""
        trees = [some_tree(chance) for _ in range(chance.choice((1, 1, 2, 3)))]
        stream = b"".join(blob.canonical(tree, True) for tree in trees)
        rows, units = self.package.read(stream, degrees=False)
        precisions = precisions_of_numbers(rows)
        wanted = [float(number / Fraction(10) ** precision) for number, precision in zip(units.flat, precisions)]
        found = self.package.read(stream)
        assert found.points.flat.tolist() == wanted, f"{stream.hex()} has other degrees"
        numbers = [some_double(chance, precision) for precision in precisions]
        rounded = [unit_of(number, precision) for number, precision in zip(numbers, precisions)]
        if None in rounded:
            self.met("degrees without a unit")
            return
        pairs = list(zip(rounded[::2], rounded[1::2]))
        forms = [array("d", numbers), list(zip(numbers[::2], numbers[1::2]))]
        form = chance.choice([*forms, numpy.array(numbers).reshape(-1, 2)] if numpy else forms)
        assert self.package.write(rows, form) == self.package.write(
            rows, pairs
        ), f"the package writes {numbers} at {precisions} otherwise"
        self.met("degrees ok")

    def ragged(self, chance, _):
        """Columns of one kind, with gaps: coordinates and offsets are those that a walk over the mappings gives, and go back to the blobs."""
        kind, precision = chance.choice(KINDS[:6]), chance.randint(-8, 7)
        trees = [tree for tree in (some_tree(chance) for _ in range(25)) if tree.kind == kind][
            : chance.choice((1, 2, 3))
        ]
        if not trees or not numpy:
            return
        trees = [with_precision(tree, precision)._replace(ids=None) for tree in trees]
        blobs = [blob.canonical(tree, chance.random() < 0.5) for tree in trees]
        for _ in range(chance.choice((0, 0, 1, 2))):
            blobs.insert(chance.randrange(len(blobs) + 1), None)
        column = self.package.ragged(blobs)
        mappings = self.package.geometries(blobs)
        coordinates, offsets = walked(mappings, DEPTHS[kind])
        if kind == "point":
            coordinates = [
                list(mapping["coordinates"]) or [math.nan] * 2 if mapping else [math.nan] * 2 for mapping in mappings
            ]
        same = numpy.array_equal(column.coordinates, numpy.array(coordinates, float).reshape(-1, 2), equal_nan=True)
        found = [part.tolist() for part in column.offsets]
        assert same and found == offsets, f"the column of {blobs} is another: {column}, not {coordinates}, {offsets}"
        assert column.missing.tolist() == [
            place for place, one in enumerate(blobs) if one is None
        ], f"{blobs} lacks others: {column.missing}"
        wanted = [one and blob.canonical(blob.spelled_in(one, 16)[0][0], True) for one in blobs]
        in_range = all(abs(number) < 2**52 for tree in trees for point in points_of(tree) for number in point)
        if in_range:
            assert (
                self.package.pack_ragged(column, precision).blobs == wanted
            ), f"the column of {blobs} goes back otherwise"
        self.met(f"ragged {kind}{'' if in_range else ', too far to go back'}")

    def listed(self, chance, _):
        """Items of a list that are no blob are kept apart, and the others stay at their places."""
        blobs = [blob.canonical(some_tree(chance), chance.random() < 0.5) for _ in range(chance.choice((1, 2, 4)))]
        given = [
            chance.choice((one, one, None, one[:-1], one + chance.choice(blobs), b"", stream_slip(chance, one)))
            for one in blobs
        ]
        found, refused = self.package.geometries(given, errors="collect")
        judged = [None if one is None else judged_item(one) for one in given]
        wanted = [
            None if one is None or fault else self.package.geometries(one)[0] for one, fault in zip(given, judged)
        ]
        faults = [(place, *fault) for place, fault in enumerate(judged) if fault]
        assert found == wanted, f"the list {given} has others: {found}"
        assert [
            (one.done, one.place, one.text) for one in refused
        ] == faults, f"the list {given} is refused otherwise: {refused}, not {faults}"
        assert [str(one) for one in self.package.check(given)] == [
            str(one) for one in refused
        ], f"check of {given} differs"
        self.met(f"list with {min(len(faults), 2)} faults")
