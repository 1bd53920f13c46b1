"""The boxes of geometries, by numpy and without."""
import pickle
import unittest
from unittest import mock

import polytwkb
import vectors
from polytwkb import _boxes

try:
    import numpy
except ImportError:
    numpy = None

ROWS = (
    "0,linestring,,5,AAGG/0,point,,2,/0,collection,,0,/1,point,,0,AC/1,collection,,0,/2,linestring,,0,GEGE/"
    "0,multipoint,,1,/1,point,,,CA/1,point,,,AC/0,polygon,,5,/0,point,,-1,AC/"
)
TABLE = vectors.table_of(ROWS)
UNITS = [(1, 1, 5, 5), None, (2, 1, 6, 8), (1, 1, 2, 2), None, (2, 1, 2, 1)]
PRECISIONS = [5, 2, 0, 1, 5, -1]
BLOBS = polytwkb.split(polytwkb.pack(TABLE))


def both(test):
    """Runs a test with numpy, if it is there, and without."""

    def run(self):
        test(self)
        with mock.patch.object(_boxes, "numpy_of", lambda: None):
            test(self)

    return run


class Boxes(unittest.TestCase):
    maxDiff = None

    @both
    def test_degrees_and_units(self):
        stream = b"".join(BLOBS)
        decoded = polytwkb.decode_flat("AAGG").tolist()
        self.assertEqual(UNITS[0], (*decoded[:2], *decoded[2:]))
        for given in (stream, BLOBS, iter(BLOBS), bytearray(stream)):
            self.assertEqual(list(polytwkb.boxes(given, degrees=False)), UNITS)
        wanted = [
            box and tuple(polytwkb.in_degrees([box[:2], box[2:]], precision).flat)
            for box, precision in zip(UNITS, PRECISIONS)
        ]
        found = polytwkb.boxes(stream)
        self.assertEqual((list(found), len(found), found[2], found[1]), (wanted, 6, wanted[2], None))
        self.assertEqual((found[-6], found[1:3], found[::-1]), (wanted[0], wanted[1:3], wanted[::-1]))
        for place in (6, -7):
            with self.assertRaises(IndexError):
                found[place]
        self.assertEqual((pickle.loads(pickle.dumps(found)), found == wanted), (found, False))
        self.assertEqual(repr(found), "<polytwkb.Boxes: 6, in degrees>")

    @both
    def test_gaps_and_refusals(self):
        items = [None, BLOBS[0], BLOBS[1], float("nan"), BLOBS[0][:-1], BLOBS[2]]
        with self.assertRaises(polytwkb.Refused) as caught:
            polytwkb.boxes(items, degrees=False)
        self.assertEqual(list(caught.exception.output), [None, UNITS[0], None, None])
        found, refused = polytwkb.boxes(items, degrees=False, errors="collect")
        self.assertEqual(list(found), [None, UNITS[0], None, None, None, UNITS[2]])
        self.assertEqual(found.is_empty.tolist(), [True, False, True, True, True, False])
        self.assertEqual(list(map(str, refused)), [f"blob 4: byte {len(BLOBS[0]) - 1}: truncated"])
        for none in ([], b"", [None, None]):
            self.assertEqual(list(polytwkb.boxes(none)), [None] * (len(none) if none else 0))

    @both
    def test_a_wrong_box_in_a_blob_is_not_looked_at(self):
        right = polytwkb.pack_geometries({"type": "LineString", "coordinates": [(1, 2), (3, 5)]}, 0)
        self.assertEqual(right.hex(), "02030902040406020204" + "0406")
        wrong = right[:3] + b"\0" + right[4:]
        self.assertEqual(list(polytwkb.boxes(wrong)), [(1.0, 2.0, 3.0, 5.0)])

    @both
    def test_members_of_other_precisions(self):
        table = vectors.table_of("0,point,,0,AC/0,collection,,0,/1,point,,1,AC/1,point,,0,AC/")
        self.assertEqual(polytwkb.boxes(polytwkb.pack(table))[1], (0.2, 0.1, 2.0, 1.0))
        blobs = [None, *polytwkb.split(polytwkb.pack(table))]
        found = polytwkb.boxes(blobs, degrees=False)
        self.assertEqual((list(found), list(found.precision)), ([None, (2, 1, 2, 1), (2, 1, 20, 10)], [-128, 0, 1]))
        self.assertEqual((pickle.loads(pickle.dumps(found)), polytwkb.boxes(blobs).precision), (found, None))

    @both
    def test_members_of_other_precisions_are_in_the_finest(self):
        # The finer one of the members has no points. Of others the points of each are in units of the finer.
        rows = "0,collection,,7,/1,point,,7,/1,point,,-2,AC/", "0,collection,,0,/1,point,,-1,AC/1,linestring,,2,AAGG/"
        found = polytwkb.boxes(polytwkb.pack(vectors.table_of("".join(rows))), degrees=False)
        self.assertEqual((list(found), list(found.precision)), ([(2, 1, 2, 1), (1, 1, 2000, 1000)], [-2, 2]))
        far = {"kind": [7, 1, 1], "depth": [0, 1, 1], "counts": [0, 1, 1], "precision": [0, -8, 7]}
        blobs = [None, polytwkb.write(far, [(1 << 40, 0), (0, 0)])]
        with self.assertRaisesRegex(ValueError, "^geometry 1: its box has more than 64 bits"):
            polytwkb.boxes(blobs, degrees=False)

    @unittest.skipUnless(numpy, "numpy is not there")
    def test_numpy(self):
        found = polytwkb.boxes(BLOBS)
        array = numpy.asarray(found)
        self.assertEqual((array.shape, array.dtype), ((6, 4), float))
        self.assertEqual(numpy.isnan(array).all(axis=1).tolist(), [box is None for box in UNITS])
        units = polytwkb.boxes(BLOBS, degrees=False)
        self.assertEqual((numpy.asarray(units).dtype, numpy.asarray(units)[2].tolist()), (numpy.int64, [2, 1, 6, 8]))
        masked = numpy.ma.array(units, mask=numpy.repeat(units.is_empty, 4).reshape(-1, 4))
        self.assertEqual(masked[:, 2].tolist(), [box and box[2] for box in UNITS])
        self.assertEqual(numpy.asarray(polytwkb.boxes(b"")).shape, (0, 4))
        points = numpy.random.default_rng(3).uniform(-90, 90, (3000, 2))
        counts = [n % 7 for n in range(1000)][:1000]
        counts = [count for count in counts if count != 1]
        used = points[: sum(counts)]
        rows = {"kind": 2, "counts": counts, "precision": 7}
        with mock.patch.object(_boxes, "numpy_of", lambda: None):
            plain = polytwkb.boxes(polytwkb.write(rows, numpy.ascontiguousarray(used)))
        self.assertEqual(polytwkb.boxes(polytwkb.write(rows, numpy.ascontiguousarray(used))), plain)


if __name__ == "__main__":
    unittest.main()
