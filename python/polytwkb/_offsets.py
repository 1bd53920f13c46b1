"""Where the blobs of a stream are."""
from __future__ import annotations

from array import array
from typing import List, Optional

from ._library import CLimits
from ._reading import offsets_read

# Bits of the metadata byte.
_SIZE, _EXTENDED = 2, 8


def _by_sizes(blobs: bytes) -> Optional[array[int]]:
    """The offsets by the sizes in blobs; None if one has no size. Raises IndexError if bytes of a size are missing."""
    offsets, place, end = [0], 0, len(blobs)
    while place < end:
        metadata = blobs[place + 1]
        if not metadata & _SIZE:
            return None
        place += 3 if metadata & _EXTENDED else 2
        size = byte = blobs[place]
        shift = 7
        while byte > 127:
            place += 1
            byte = blobs[place]
            size += (byte - 1) << shift
            shift += 7
        place += 1 + size
        offsets.append(place)
    return array("q", offsets)


def size_of(blobs: bytearray) -> int:
    """How long a blob is by its size, if it has one and its first bytes are there; else 0."""
    place = 3 if len(blobs) > 1 and blobs[1] & _EXTENDED else 2
    if len(blobs) < 2 or not blobs[1] & _SIZE:
        return 0
    size, shift = 0, 0
    for byte in blobs[place : place + 10]:
        place += 1
        size += (byte & 127) << shift
        shift += 7
        if byte < 128:
            return place + size
    return 0


def _checked(blobs: bytes) -> array[int]:
    """The offsets of a stream. Raises ValueError if the last one is not its end."""
    try:
        offsets = _by_sizes(blobs)
    except IndexError:
        offsets = array("q")
    if offsets is None:
        offsets = offsets_read(blobs, CLimits(32, 1 << 20, 1 << 24))[1]
    if not offsets or offsets[-1] != len(blobs):
        raise ValueError("the bytes are no stream of whole blobs: the last one does not end with them")
    return offsets


class Packed(bytes):
    """A stream of blobs, as bytes, with the places of the blobs in it: what `pack_geometries` and `pack_ragged` return. One
    may be made of what `write` or `pack` returned: ``Packed(write(rows, points)).blobs``. Its places are found when they
    are asked for: by the sizes in the blobs, whose points are not read again. In the style ``"plain"`` blobs have no sizes,
    and the stream is read once more. Asking raises ValueError if the last blob does not end with the bytes."""

    _offsets: Optional[array[int]] = None

    @property
    def offsets(self) -> array[int]:
        """Where the blob of each geometry begins, and where the last one ends: 64-bit integers, one more than there are
        geometries. No bytes are those of a geometry that is None."""
        if self._offsets is None:
            self._offsets = _checked(self)
        return self._offsets

    @property
    def blobs(self) -> List[Optional[bytes]]:
        """The blob of each geometry, as bytes of its own: a column for a database. None stays None."""
        offsets = self.offsets
        return [self[start:end] if start < end else None for start, end in zip(offsets, offsets[1:])]


def packed_with(blobs: memoryview, offsets: array[int]) -> Packed:
    """A stream whose places are known."""
    packed = Packed(blobs)
    packed._offsets = offsets
    return packed


def packed_of(packed: Packed, missing: List[int]) -> Packed:
    """A stream of geometries some of which are None: those at these places."""
    if missing:
        offsets, own = array("q", (0,)), packed.offsets
        places, done = set(missing), 0
        for place in range(len(own) - 1 + len(places)):
            done += place not in places
            offsets.append(own[done])
        packed._offsets = offsets
    return packed
