"""The rows of geometries in little-endian WKB, from their bytes."""
from __future__ import annotations

from struct import Struct
from typing import Any, List, Tuple

from ._rows import Kind

# Bytes before the points of a row of each kind: the order of bytes and the type, and a count if it has one.
HEADS = [0, 5, 9, 9, 9, 9, 9, 9, 4]
_POINT, _POLYGON, _COLLECTION, _RING = int(Kind.POINT), int(Kind.POLYGON), int(Kind.COLLECTION), int(Kind.RING)
_MOST_NEST = 32
# What is added for each row that is left, to the kind that it is a part of.
_ONE, _KIND = 8, 7
# From this many geometries on, rows are taken by steps. A step takes as long as 50 to 60 rows one after the other.
_MANY = 64
_WORD = Struct("<I").unpack_from


def items(memory: Any, dtype: str) -> Any:
    """The items of a type that begin at any byte of some memory."""
    import numpy

    kind = numpy.dtype(dtype)
    return numpy.ndarray((max(len(memory) - kind.itemsize + 1, 0),), kind, memory, 0, (1,))


class _Walk:
    """Geometries with rows left: of each its number, the byte at which its next row begins, and the level of this row,
    its depth plus 1; and at each level how many rows of each are left, with the kind that they are parts of."""

    def __init__(self, whole: bytes, starts: Any) -> None:
        import numpy

        self.whole, self.words, self.heads = whole, items(whole, "<u4"), numpy.array(HEADS)
        self.numbers, self.places, self.levels = numpy.arange(len(starts)), starts, numpy.ones(len(starts), numpy.int64)
        self.left = numpy.zeros((4, len(starts)), numpy.int64)
        # A geometry has a precision of its own, as a member of a collection has. Level 0 comes after the last row.
        self.left[0], self.left[1] = _ONE, _ONE + _COLLECTION

    def step(self) -> Tuple[Any, ...]:
        """Takes the next row of each geometry, all at once."""
        import numpy

        left = self.left[self.levels, self.numbers]
        self.left[self.levels, self.numbers] = left - _ONE
        parents = left & _KIND
        # A ring has no type: at the end of memory no word may be after its first byte.
        is_ring = parents == _POLYGON
        kinds = numpy.where(is_ring, _RING, self.words[self.places + ~is_ring])
        begins = self.places + self.heads[kinds]
        counts = numpy.where(kinds == _POINT, 1, self.words[begins - 4]).astype(numpy.int64)
        has_parts = (kinds >= _POLYGON) & (kinds < _RING)
        own = numpy.where(has_parts, 0, counts)
        rows = self.numbers, kinds, self.levels - 1, own, begins, parents == _COLLECTION
        self.places = begins + 16 * own
        self.leave(has_parts.nonzero()[0], _ONE * counts + kinds)
        return rows

    def leave(self, parents: Any, parts: Any) -> None:
        """Goes from rows to their parts, and from levels where no row is left to those above."""
        import numpy

        numbers, levels = self.numbers, self.levels
        levels[parents] += 1
        if levels.max() == len(self.left):
            self.left = numpy.concatenate([self.left, numpy.zeros_like(self.left)])
        self.left[levels[parents], numbers[parents]] = parts[parents]
        done = (self.left[levels, numbers] < _ONE).nonzero()[0]
        while len(done):
            levels[done] -= 1
            done = done[self.left[levels[done], numbers[done]] < _ONE]
        more = levels > 0
        self.numbers, self.places, self.levels = numbers[more], self.places[more], levels[more]

    def rest(self, number: int, place: int, level: int) -> Tuple[List[Tuple[int, ...]], bool]:
        """Takes the rows that one geometry has left, one after the other, up to one that is too deep. Returns them, and
        whether there is such a one."""
        rows: List[Tuple[int, ...]] = []
        left = self.left[:, number].tolist() + [0] * (_MOST_NEST + 4)
        while level:
            parent = left[level] & _KIND
            left[level] -= _ONE
            kind = _RING if parent == _POLYGON else _WORD(self.whole, place + 1)[0]
            place += HEADS[kind]
            count = 1 if kind == _POINT else _WORD(self.whole, place - 4)[0]
            has_parts = _POLYGON <= kind < _RING
            rows.append((number, kind, level - 1, 0 if has_parts else count, place, parent == _COLLECTION))
            if level > _MOST_NEST + 1 and parent == _COLLECTION:
                return rows, True
            if has_parts:
                level += 1
                left[level] = _ONE * count + kind
            else:
                place += 16 * count
            while left[level] < _ONE:
                level -= 1
        return rows, False


def walked(whole: bytes, starts: Any) -> List[Any]:
    """The rows of geometries that begin there, in columns: kinds, depths, counts, the bytes where their points begin,
    and whether they have a precision. A member of a collection that is deeper than any limit allows is the last row."""
    import numpy

    walk = _Walk(whole, starts)
    steps: List[Any] = []
    # Only the other way stops at the right row if one is too deep.
    while len(walk.numbers) >= _MANY and walk.levels.max() <= _MOST_NEST + 1:
        steps.append(walk.step())
    rest: List[Tuple[int, ...]] = []
    last = len(starts)
    for number, place, level in zip(walk.numbers.tolist(), walk.places.tolist(), walk.levels.tolist()):
        rows, is_too_deep = walk.rest(number, place, level)
        rest += rows
        if is_too_deep:
            last = number
            break
    steps.append(numpy.array(rest, numpy.int64).reshape(-1, 6).T)
    columns: List[Any] = list(map(numpy.concatenate, zip(*steps)))
    order = numpy.argsort(columns[0], kind="stable")
    order = order[columns[0][order] <= last]
    return [column[order] for column in columns[1:]]
