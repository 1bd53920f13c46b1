"""WKB out and in: forms of both byte orders, of ISO and EWKB, by hand and from Shapely; each refusal with its byte."""
import itertools
import pickle
import random
import re
import unittest
from unittest import mock

import polytwkb
import vectors
from polytwkb import _wkb_calls
from wkb_forms import FORMS, LINE, NAN, POINT, begins, turned, wkb

try:
    import shapely
    import shapely.geometry
    import shapely.wkb
    import shapely.wkt
except ImportError:
    shapely = None


IDS = "an id, which WKB cannot have: ids='drop' leaves ids out"


class Wkb(unittest.TestCase):
    def refused(self, given, text, precision=0, **options):
        with self.assertRaises(polytwkb.Refused) as caught:
            polytwkb.from_wkb(given, precision, **options)
        self.assertEqual(str(caught.exception), text)
        return caught.exception

    def test_forms(self):
        stream = polytwkb.pack(vectors.table_of("".join(rows for _, _, rows in FORMS)))
        wkbs = [bytes.fromhex(digits) for _, digits, _ in FORMS]
        blobs = polytwkb.split(stream)
        for given in (stream, blobs, iter(blobs)):
            self.assertEqual(polytwkb.to_wkb(given), wkbs)
        with mock.patch.object(_wkb_calls, "numpy_of", lambda: None):
            self.assertEqual((polytwkb.to_wkb(stream), polytwkb.to_wkb(b""), polytwkb.to_wkb([])), (wkbs, [], []))
        self.assertEqual(polytwkb.to_wkb(b""), [])
        digits = [digits for _, digits, _ in FORMS]
        big = [turned(item)[0] for item in wkbs]
        for given in (wkbs, digits, [text.upper() for text in digits], big, map(memoryview, wkbs), map(bytearray, big)):
            self.assertEqual(polytwkb.from_wkb(given, 0).blobs, blobs)
        for one in (POINT, POINT.hex(), bytearray(POINT), memoryview(POINT)):
            self.assertEqual(polytwkb.from_wkb(one, 0), blobs[0])
        plain = polytwkb.from_wkb(wkbs, 0, style="plain")
        self.assertEqual((polytwkb.to_wkb(plain), len(plain) < len(stream)), (wkbs, True))
        self.assertEqual(polytwkb.from_wkb([], 5), b"")

    def test_gaps(self):
        found = polytwkb.from_wkb([None, POINT, NAN, LINE], 0)
        self.assertEqual([blob and blob[0] for blob in found.blobs], [None, 1, None, 2])
        self.assertEqual(polytwkb.to_wkb(found.blobs), [None, POINT, None, LINE])

    def test_an_srid_is_passed_over_and_byte_orders_may_differ(self):
        mixed = wkb(7, counts=[2], order=">") + wkb(0x20000001, 2.0, 1.0, srid=4326) + wkb(1, 3.0, 4.0, order=">")
        plain = wkb(7, counts=[2]) + wkb(1, 2.0, 1.0) + wkb(1, 3.0, 4.0)
        whole = wkb(0x20000007, counts=[2], srid=3857) + plain[9:]
        self.assertEqual(polytwkb.from_wkb([mixed, whole], 0).blobs, polytwkb.from_wkb([plain, plain], 0).blobs)

    def test_the_precision_is_that_of_members_too(self):
        given = wkb(7, counts=[2]) + wkb(1, 0.15, -0.25) + wkb(7, counts=[1]) + wkb(2, 0.05, 1.0, 2.0, 2.0, counts=[2])
        rows = polytwkb.read(polytwkb.from_wkb(given, 1), degrees=False)
        self.assertEqual((rows.rows.precision.tolist(), rows.points.tolist()), ([1] * 4, [[2, -3], [1, 10], [20, 20]]))

    def test_dimensions_are_refused_by_name(self):
        for code, name in [
            (1001, "Z"),
            (2001, "M"),
            (3001, "Z and M"),
            (0x80000001, "Z"),
            (0x40000001, "M"),
            (0xC0000001, "Z and M"),
            (0xA0000001, "Z"),
            (0x80000000 | 2001, "Z and M"),
        ]:
            for order in "<>":
                item = wkb(code, 1.0, 2.0, 3.0, order=order)
                refused = self.refused([POINT, item], f"geometry 1: byte 1: {name} coordinates")
                self.assertEqual((refused.code, refused.place, refused.done), ("BLOB_EXTRA_DIMENSIONS", 1, 1))
                self.assertEqual(
                    (refused.output, str(pickle.loads(pickle.dumps(refused)))),
                    (polytwkb.from_wkb(POINT, 0), str(refused)),
                )
        self.refused(wkb(7, counts=[1]) + wkb(1001, 1, 2, 3), "geometry 0: byte 10: Z coordinates")

    def test_types_are_refused_at_their_byte(self):
        for code in (0, 8, 9, 12, 15, 16, 17, 1000, 1008, 4001, 0x10000001, 0x80000000, 0xFFFFFFFF):
            self.refused(wkb(code, 1, 2), "geometry 0: byte 1: unknown type")
        for first in (2, 3, 71, 255):
            self.refused(bytes([first]) + POINT[1:], "geometry 0: byte 0: byte order is neither 0 nor 1")
        for kind, part in ((4, LINE), (5, POINT), (6, LINE)):
            self.refused(wkb(kind, counts=[1]) + part, "geometry 0: byte 10: kind not allowed there")
        self.refused(wkb(3, counts=[1]) + wkb(2, counts=[0]), "geometry 0: byte 13: truncated")
        self.refused(POINT + b"\1", "geometry 0: byte 21: bytes after the geometry")
        self.refused(POINT + POINT, "geometry 0: byte 21: bytes after the geometry")

    def test_empty_points(self):
        empty = wkb(1, NAN, NAN)
        self.assertEqual(polytwkb.to_wkb(polytwkb.from_wkb([empty, wkb(1, NAN, -NAN, order=">")], 5)), [empty, empty])
        text = "geometry 0: byte 35: empty point in a multipoint"
        self.refused(wkb(4, counts=[2]) + POINT + empty, text)
        for given, byte in ((wkb(1, NAN, 1), 5), (wkb(1, 1, NAN), 13), (wkb(1, float("inf"), 1), 5)):
            text = f"geometry 2: byte {byte}: coordinate is no finite number"
            refused = self.refused([POINT, None, given, None, b"\1"], text, 5)
            self.assertEqual(refused.output.blobs, [polytwkb.from_wkb(POINT, 5), None])
        given = wkb(7, counts=[2]) + wkb(2, 1, 2, 3, 4, counts=[2]) + wkb(2, 1, 2, 3, NAN, counts=[2], order=">")
        self.refused(given, "geometry 0: byte 83: coordinate is no finite number", 5)

    def test_the_first_fault_of_the_bytes_is_named(self):
        far, line = wkb(2, 1, 2, NAN, 4, 5, 6, counts=[3]), wkb(2, 1, 1e30, 3, NAN, counts=[2])
        self.refused(far[:-3], "geometry 0: byte 25: coordinate is no finite number")
        self.refused(far[:41], "geometry 0: byte 25: coordinate is no finite number")
        self.refused(far[:40], "geometry 0: byte 33: truncated")
        self.refused(line, "geometry 0: byte 17: coordinate out of range")
        for rest in (b"", b"\1", b"\7" * 5, wkb(1, 1, 2)[:9], wkb(8)):
            given = wkb(7, counts=[2]) + line + rest
            refused = self.refused([POINT, None, given, b"\1"], "geometry 2: byte 26: coordinate out of range")
            self.assertEqual(refused.output.blobs, [polytwkb.from_wkb(POINT, 0), None])

    def test_limits_and_ranges_have_their_byte(self):
        nested = POINT
        for deep in range(1, 40):
            nested = wkb(7, counts=[1]) + nested
            for nest in (0, 1, 16, 32):
                limits = polytwkb.Limits(nest=nest)
                if deep <= nest:
                    self.assertEqual(
                        polytwkb.to_wkb(polytwkb.from_wkb(nested, 0, limits=limits), limits=limits), [nested]
                    )
                else:
                    self.refused(nested, f"geometry 0: byte {9 * (nest + 1)}: nested too deep", limits=limits)
        self.refused(wkb(7, counts=[1]) * 100000, "geometry 0: byte 153: nested too deep")
        few = polytwkb.Limits(nodes=3, points=2)
        point_rows = wkb(4, counts=[3]) + 3 * POINT
        self.refused([POINT, point_rows], "geometry 1: byte 5: too many nodes", limits=few)
        self.refused(wkb(2, *range(6), counts=[3]), "geometry 0: byte 5: too many points", limits=few)
        self.refused(
            wkb(4, counts=[2]) + 2 * POINT, "geometry 0: byte 35: too many points", limits=few._replace(points=1)
        )
        self.refused(wkb(5, counts=[2]) + LINE + wkb(2, counts=[3]), "geometry 0: byte 55: too many points", limits=few)
        refused = self.refused(
            [None, wkb(2, 1, 2, 3, 1e30, counts=[2])], "geometry 1: byte 33: coordinate out of range"
        )
        self.assertEqual((refused.done, refused.output), (1, b""))
        refused = self.refused(
            [POINT, None, wkb(7, counts=[1]) + wkb(2, 1, 2, counts=[1]), b"\1"],
            "geometry 3: byte 1: truncated",
        )
        self.assertEqual(refused.output.blobs[:2], [polytwkb.from_wkb(POINT, 0), None])

    def test_digits(self):
        self.refused([POINT, "01010000zz"], "geometry 1: byte 4: no hexadecimal digit")
        self.refused(["0 1"], "geometry 0: byte 0: no hexadecimal digit")
        self.refused([""], "geometry 0: byte 0: truncated")
        self.refused(["02010000zz"], "geometry 0: byte 0: byte order is neither 0 nor 1")
        self.refused(["0109000000zz"], "geometry 0: byte 1: unknown type")
        self.refused([POINT.hex() + "0"], "geometry 0: byte 21: truncated")
        self.refused([POINT.hex() + "zz"], "geometry 0: byte 21: no hexadecimal digit")
        self.refused([POINT.hex() + "00z"], "geometry 0: byte 21: bytes after the geometry")
        for end in range(2 * len(POINT)):  # half a byte more changes nothing
            with self.assertRaises(polytwkb.Refused) as caught:
                polytwkb.from_wkb([POINT[: end // 2]], 0)
            self.refused([POINT.hex()[:end]], str(caught.exception))

    def test_ids_are_refused_unless_they_are_dropped(self):
        rows = "0,multipoint,,0,/1,point,7,,AC/1,point,8,,GE/"
        within = "0,collection,,0,/1,point,,0,AC/1,multipoint,,0,/2,point,7,,AC/2,point,8,,GE/"
        with_ids, inside = (polytwkb.pack(vectors.table_of(given)) for given in (rows, within))
        point = polytwkb.from_wkb(POINT, 0)
        wanted = [POINT, bytes.fromhex(FORMS[6][1])]
        # The header of the member is after that of the collection, its size and count, and the point.
        byte = 1 + next(header.offset for header in polytwkb.show(inside) if header.kind == "multipoint")
        for given, text, done, output in [
            ([None, point, with_ids], f"blob 2: byte 1: {IDS}", 2, [None, POINT]),
            ([point, inside, with_ids], f"blob 1: byte {byte}: {IDS}", 1, [POINT]),
            (point + with_ids, f"byte {len(point) + 1}: {IDS}", 1, [POINT]),
            (iter([with_ids, point[:-1]]), f"blob 0: byte 1: {IDS}", 0, []),
        ]:
            with self.assertRaises(polytwkb.Refused) as caught:
                polytwkb.to_wkb(given)
            refused = caught.exception
            self.assertEqual((str(refused), refused.done, refused.output), (text, done, output))
        self.assertEqual(polytwkb.to_wkb([point, None, with_ids], ids="drop"), [wanted[0], None, wanted[1]])
        found, refused = polytwkb.to_wkb([with_ids, point, point[:-1], inside], errors="collect")
        self.assertEqual(
            (found, [str(one)[:6] for one in refused]), ([None, POINT, None, None], ["blob 0", "blob 2", "blob 3"])
        )
        for wrong, raised in ((None, TypeError), (True, TypeError), ("keep", ValueError)):
            with self.assertRaises(raised):
                polytwkb.to_wkb(point, ids=wrong)

    def test_wrong_types(self):
        for given in (None, 7, [7], [None, 1.5], [POINT, [POINT]], {"a": 1}.keys, memoryview(b"12345678").cast("d")[0]):
            with self.subTest(given=given), self.assertRaises(TypeError):
                polytwkb.from_wkb(given, 5)
        for precision, raised in ((None, TypeError), (1.5, TypeError), (8, ValueError), (-9, ValueError)):
            with self.assertRaises(raised):
                polytwkb.from_wkb(POINT, precision)


class Hostile(unittest.TestCase):
    def outcome(self, given):
        """The blobs, or the refusal, whose byte is in the item."""
        try:
            return polytwkb.from_wkb(given, 0)
        except polytwkb.Refused as refused:
            self.assertLessEqual(0, refused.place)
            self.assertLessEqual(refused.place, len(given))
            self.assertEqual((refused.done, refused.output), (0, b""))
            return refused

    def test_cut_at_every_byte(self):
        for digits in (digits for _, digits, _ in FORMS):
            for given in (bytes.fromhex(digits), turned(bytes.fromhex(digits))[0]):
                places, whole = begins(bytes.fromhex(digits))
                self.assertEqual(whole, len(given))
                for end in range(len(given)):
                    place = max(place for place in places if place <= end)
                    self.assertEqual(str(self.outcome(given[:end])), f"geometry 0: byte {place}: truncated")

    def test_flipped_bytes(self):
        chance = random.Random(11)
        for digits in (digits for _, digits, _ in FORMS):
            given = bytes.fromhex(digits)
            for place, bit in itertools.product(range(len(given)), range(8)):
                item = bytearray(given)
                item[place] ^= 1 << bit
                self.outcome(bytes(item))
            for _ in range(200):
                item = bytearray(given)
                for _ in range(chance.randrange(1, 6)):
                    item[chance.randrange(len(item))] = chance.choice((0, 1, 2, 7, 127, 255, chance.randrange(256)))
                self.outcome(bytes(item))

    def test_huge_counts(self):
        for kind in (2, 3, 4, 5, 6, 7):
            for count in (1 << 31, (1 << 32) - 1, 1 << 28, 1000):
                for order in "<>":
                    given = wkb(kind, counts=[count], order=order) + bytes(64)
                    many = "5: too many points" if kind == 2 else "5: too many nodes"
                    few = "73: truncated" if kind < 4 else "10: unknown type"
                    wanted = f"geometry 0: byte {few if count == 1000 else many}"
                    self.assertEqual(str(self.outcome(given)), wanted)
        given = wkb(3, counts=[1, (1 << 32) - 1]) + bytes(64)
        self.assertEqual(str(self.outcome(given)), "geometry 0: byte 9: too many points")
        rings, limits = wkb(3, counts=[1 << 21]) + bytes(4 << 21), polytwkb.Limits(nodes=1000)
        with self.assertRaisesRegex(polytwkb.Refused, "^geometry 0: byte 5: too many nodes"):
            polytwkb.from_wkb(rings, 0, limits=limits)
        nested = wkb(7, counts=[600]) + 600 * (wkb(7, counts=[600]) + 600 * wkb(7, counts=[0]))
        with self.assertRaisesRegex(polytwkb.Refused, "^geometry 0: byte 5423: too many nodes"):
            polytwkb.from_wkb(nested, 0, limits=limits)


@unittest.skipUnless(shapely, "shapely is not there")
class Shapely(unittest.TestCase):
    def test_shapes_to_blobs_and_back(self):
        shapes = [shapely.wkt.loads(text) for text, _, _ in FORMS]
        self.assertEqual([shapely.wkb.dumps(shape).hex() for shape in shapes], [digits for _, digits, _ in FORMS])
        blobs = polytwkb.pack_geometries(shapes, 0)
        for options in ({}, {"big_endian": True}, {"srid": 4326}, {"srid": 4326, "big_endian": True}, {"hex": True}):
            self.assertEqual(polytwkb.from_wkb([shapely.wkb.dumps(shape, **options) for shape in shapes], 0), blobs)
        self.assertEqual(
            [shapely.wkb.loads(item).wkt for item in polytwkb.to_wkb(blobs)], [shape.wkt for shape in shapes]
        )
        high = shapely.wkt.loads("LINESTRING Z (1 2 3, 4 5 6)")
        with self.assertRaisesRegex(polytwkb.Refused, "^geometry 0: byte 1: Z coordinates"):
            polytwkb.from_wkb(shapely.wkb.dumps(high), 0)

    def test_the_blobs_of_postgis(self):
        """The WKB is what Shapely writes of the mapping, and becomes the blob again, in its canonical form."""
        made, back = 0, 0
        for vector in vectors.postgis():
            blob = bytes.fromhex(vector["hex"])
            (mapping,), (found,) = polytwkb.geometries(blob), polytwkb.to_wkb(blob, ids="drop")
            headers = polytwkb.show(blob)
            with self.subTest(wkt=vector["wkt"]):
                # Shapely before 2 makes other shapes of mappings with empty parts.
                if not re.search(r"\(\)|\[\]", str(mapping)):
                    self.assertEqual(shapely.wkb.dumps(shapely.geometry.shape(mapping)), found)
                    made += 1
                precision = headers[0].precision
                if all(header.precision == precision and not header.metadata & 4 for header in headers):
                    packed = polytwkb.from_wkb(found, precision)
                    self.assertEqual(packed.hex(), vector.get("full", vector["hex"]))
                    back += 1
        self.assertGreater(min(made, back), 30)

    def test_what_shapely_reads_is_read_alike(self):
        """Flipped bytes that both take are the same geometry."""
        chance, count = random.Random(5), 0
        for digits in (digits for _, digits, _ in FORMS):
            for _ in range(300):
                item = bytearray.fromhex(digits)
                item[chance.randrange(len(item))] = chance.randrange(256)
                try:
                    packed = polytwkb.from_wkb(bytes(item), 0)
                    shape = shapely.wkb.loads(bytes(item))
                    wanted = polytwkb.pack_geometries(shape, 0)
                except (ValueError, shapely.errors.ShapelyError):
                    continue
                self.assertEqual(packed, wanted)
                count += 1
        self.assertGreater(count, 300)


if __name__ == "__main__":
    unittest.main()
