"""The package among others: pickles, processes, frames, masks, buffers that are read-only, unaligned or in another order."""
import copy
import io
import multiprocessing
import pickle
import sys
import unittest
from array import array
from unittest import mock

import polytwkb
from polytwkb import _library, _memory, _writing
from test_arrays import DEGREES, POINTS, TABLE
from test_writing import BLOBS, ROWS, columns_of

try:
    import numpy
except ImportError:
    numpy = None
try:
    import pandas
except ImportError:
    pandas = None
try:
    import dask
except ImportError:
    dask = None

PARTS = [BLOBS, b"", BLOBS * 3]


def read_or_refused(blobs):
    """What `read` returns, or raises."""
    try:
        return polytwkb.read(blobs)
    except polytwkb.Refused as refused:
        return refused


class Pickles(unittest.TestCase):
    def test_what_calls_return(self):
        arrays = polytwkb.read(BLOBS * 2)
        packed = polytwkb.pack_geometries([None, {"type": "Point", "coordinates": (1, 2)}], 0)
        for copied in (lambda given: pickle.loads(pickle.dumps(given)), copy.deepcopy, copy.copy):
            found = copied(arrays)
            self.assertEqual((type(found), found, found.offsets), (polytwkb.Arrays, arrays, arrays.offsets))
            self.assertEqual((copied(arrays.rows), copied(arrays.points)), (arrays.rows, arrays.points))
            self.assertEqual(
                (copied(packed), copied(packed).offsets, copied(packed).blobs), (packed, packed.offsets, packed.blobs)
            )
            empty = polytwkb.read(b"", degrees=False)
            self.assertEqual((copied(empty), copied(empty).points.format), (empty, "q"))
        points = polytwkb.in_units([(1, 2)], 0)
        self.assertEqual(pickle.loads(pickle.dumps(points)), points)

    def test_refusals(self):
        for call, given in [
            (polytwkb.read, (BLOBS + b"\x08",)),
            (polytwkb.geometries, ([BLOBS[:2]],)),
            (polytwkb.encode, ([(1 << 62, 0)],)),
            (polytwkb.unpack, (BLOBS[:-1],)),
            (polytwkb.write, (columns_of(ROWS), POINTS[1:])),
            (polytwkb.pack_geometries, ([{"type": "Point", "coordinates": (1e30, 0)}], 0)),
        ]:
            with self.assertRaises(polytwkb.Refused) as caught:
                call(*given)
            refused, found = caught.exception, pickle.loads(pickle.dumps(caught.exception))
            fields = ("reason", "code", "text", "place", "text_offset", "done", "output")
            self.assertEqual([getattr(found, name) for name in fields], [getattr(refused, name) for name in fields])
            self.assertEqual((str(found), type(found)), (str(refused), polytwkb.Refused))

    def test_processes(self):
        with multiprocessing.get_context("spawn").Pool(2) as pool:
            found = pool.map(polytwkb.read, PARTS)
            self.assertEqual(found, list(map(polytwkb.read, PARTS)))
            with self.assertRaises(polytwkb.Refused) as caught:
                pool.map(polytwkb.read, [BLOBS, BLOBS + b"\x08"])
        self.assertEqual(
            (str(caught.exception), caught.exception.output), (f"byte {len(BLOBS)}: unknown type", polytwkb.read(BLOBS))
        )

    @unittest.skipUnless(dask, "dask is not there")
    def test_dask(self):
        calls = [dask.delayed(read_or_refused)(part) for part in [*PARTS, b"\x08"]]
        *found, refused = dask.compute(*calls, scheduler="processes", num_workers=2)
        self.assertEqual((found, str(refused)), (list(map(polytwkb.read, PARTS)), "byte 0: unknown type"))


class Sequences(unittest.TestCase):
    def test_points_without_numpy(self):
        points = polytwkb.read(BLOBS).points
        pairs = list(map(tuple, DEGREES))
        self.assertEqual(
            ([(x, y) for x, y in points], points[0], points[-1], points[4, 0], len(points)),
            (pairs, pairs[0], pairs[-1], 0.02, 8),
        )
        self.assertEqual(
            (points[1:3].tolist(), points[::-2].tolist(), points[5:2].tolist()), (DEGREES[1:3], DEGREES[::-2], [])
        )
        self.assertEqual((list(points.x), list(points.y)), ([x for x, _ in pairs], [y for _, y in pairs]))
        self.assertEqual(
            (points.flat.tolist(), points.tobytes()),
            ([number for pair in pairs for number in pair], points.flat.tobytes()),
        )
        for place in (8, -9):
            with self.assertRaises(IndexError):
                points[place]
        self.assertEqual(
            (points == points[:], points == points[:-1], points == pairs, repr(points)),
            (True, False, False, "<polytwkb.Points: 8, in degrees>"),
        )
        self.assertEqual(polytwkb.encode(points, precision=2), polytwkb.encode(pairs, precision=2))
        if sys.version_info >= (3, 12):
            self.assertEqual((memoryview(points).shape, memoryview(points).tolist()), ((8, 2), DEGREES))
        self.assertEqual(polytwkb.in_units(points, 2).tolist()[:6], POINTS[:6])

    def test_rows(self):
        rows = polytwkb.read(BLOBS).rows
        self.assertEqual(next(iter(rows)), polytwkb.Row(id=0, counts=0, depth=0, kind=3, has_id=False, precision=2))
        self.assertEqual([row.kind for row in rows], rows.kind.tolist())


class Messages(unittest.TestCase):
    def test_they_name_arguments_that_are_there(self):
        rows = polytwkb.read(BLOBS).rows
        half = memoryview(bytes(4)).cast("B")
        for call, given, text in [
            (
                polytwkb.in_degrees,
                (array("d", [1, 2]), 5),
                "not floats: in_degrees is given units, and makes floats of them",
            ),
            (polytwkb.encode, (array("d", [1, 2]),), "not floats: give a precision"),
            (polytwkb.write, (rows, half), "not items of format 'B'"),
            (polytwkb.write, (rows, array("q", [1])), "x and y of each: one dimension, or two columns"),
            (
                lambda given: polytwkb.geometries(given, errors="ignore"),
                ([BLOBS],),
                "errors is 'raise' or 'collect', not 'ignore'",
            ),
            (
                lambda given: polytwkb.geometries(given, errors="collect"),
                (BLOBS,),
                "errors='collect' needs a list of blobs",
            ),
            (polytwkb.read, ([BLOBS],), "a stream of blobs is bytes, not list"),
        ]:
            with self.subTest(text=text), self.assertRaises((TypeError, ValueError)) as caught:
                call(*given)
            self.assertIn(text, str(caught.exception))


class Buffers(unittest.TestCase):
    def test_rows_are_copied_and_points_too_where_threads_run_free(self):
        rows, points = polytwkb.read(BLOBS, degrees=False)
        self.assertFalse(isinstance(_memory.borrowed(points.view), bytes))
        self.assertTrue(isinstance(_memory.borrowed(points.view.toreadonly()), bytes))
        with mock.patch.object(sys, "_is_gil_enabled", lambda: False, create=True):
            self.assertEqual(_memory.borrowed(points.view), points.tobytes())
            self.assertEqual((polytwkb.write(rows, points), polytwkb.encode(points[:2])), (BLOBS, "???G"))
        memory = bytearray(rows.records)
        for given in [memory, polytwkb.Rows(memory), *([numpy.frombuffer(memory, rows.dtype)] if numpy else [])]:
            memory[:] = rows.records
            own = _writing._own_rows(given)
            memory[:] = bytes(len(memory))
            self.assertEqual((own, polytwkb.write(own, points)), (rows, BLOBS))

    def test_only_integers_in_place_keep_other_threads_waiting(self):
        """What is rounded, gathered of pairs or copied is in memory that nothing else has."""
        rows, points = polytwkb.read(BLOBS, degrees=False)
        degrees, held = polytwkb.read(BLOBS).points, []

        def hook(*given):
            held.append(given)
            return _library.write_in_place(*given)

        with mock.patch.object(_writing, "write_in_place", hook):
            for given in (degrees, points.tolist(), degrees.tolist(), points.view.toreadonly()):
                self.assertEqual((polytwkb.write(rows, given), held), (BLOBS, []))
            packed = polytwkb.pack_geometries(polytwkb.geometries(BLOBS), 2)
            self.assertEqual((polytwkb.read(packed).points, held), (degrees, []))
            if numpy:
                column = polytwkb.ragged(polytwkb.split(BLOBS)[:1])
                self.assertEqual((polytwkb.pack_ragged(column, 2), held), (polytwkb.split(BLOBS)[0], []))
            self.assertEqual((polytwkb.write(rows, points), len(held)), (BLOBS, 1))

    def test_buffers_that_are_not_aligned(self):
        rows, points = polytwkb.read(BLOBS, degrees=False)
        shifted = memoryview(bytearray(b"1" + points.tobytes()))[1:].cast("q")
        self.assertEqual(_memory.borrowed(shifted), points.tobytes())
        shifted_rows = memoryview(bytearray(b"1" + rows.records))[1:]
        self.assertEqual(
            (polytwkb.write(shifted_rows, shifted), polytwkb.encode(shifted)), (BLOBS, polytwkb.encode(points))
        )
        self.assertEqual(polytwkb.in_degrees(shifted, 2).tolist()[:6], DEGREES[:6])


class Streams(unittest.TestCase):
    def test_blobs_as_their_bytes_come(self):
        plain = polytwkb.pack(TABLE, style="plain")
        for blobs in (BLOBS, plain, BLOBS + plain + BLOBS * 2, b""):
            for pieces in (
                io.BytesIO(blobs),
                [blobs],
                [bytes([byte]) for byte in blobs],
                [blobs[:3], b"", bytearray(blobs[3:])],
            ):
                found = list(polytwkb.stream(pieces))
                self.assertEqual(b"".join(found), blobs)
                self.assertEqual([blob for part in found for blob in polytwkb.split(part)], polytwkb.split(blobs))
        self.assertEqual(sum(1 for _ in polytwkb.stream([bytes([byte]) for byte in BLOBS])), 2)

    def test_a_file_is_read_in_pieces(self):
        asked = []

        class File:
            def read(self, size):
                asked.append(size)
                return BLOBS if len(asked) < 4 else b""

        self.assertEqual((list(polytwkb.stream(File())), asked), ([BLOBS] * 3, [1 << 20] * 4))

    def test_refusals_have_their_place_in_the_stream(self):
        polygon = polytwkb.split(BLOBS)[0]
        for given, text, done, parts in [
            ([BLOBS, BLOBS + b"\x08", BLOBS], f"byte {2 * len(BLOBS)}: unknown type", 4, [BLOBS, BLOBS]),
            ([BLOBS, polygon[:-1]], None, 2, [BLOBS]),
            ([BLOBS[:-1], b"\x80" * 10], None, 1, [polygon]),
        ]:
            found, stream = [], polytwkb.stream(given)
            with self.assertRaises(polytwkb.Refused) as caught:
                for blobs in stream:
                    found.append(blobs)
            with self.assertRaises(polytwkb.Refused) as whole:
                polytwkb.read(b"".join(given))
            self.assertEqual(
                (str(caught.exception), caught.exception.done, found), (text or str(whole.exception), done, parts)
            )
            self.assertEqual(
                (str(caught.exception), caught.exception.place), (str(whole.exception), whole.exception.place)
            )
        for wrong in (None, 7, "ab", BLOBS, bytearray(BLOBS), ["ab"], io.StringIO("ab")):
            with self.subTest(wrong=wrong), self.assertRaises(TypeError):
                list(polytwkb.stream(wrong))

    def test_a_blob_in_many_pieces_is_not_read_at_each(self):
        large = polytwkb.write({"kind": 2, "counts": [60000], "precision": 0}, array("q", range(0, 12000000, 100)))
        plain = polytwkb.write(*polytwkb.read(large), style="plain")
        for blob, most in ((large, 4), (plain, 12)):
            with mock.patch("polytwkb._reading._read_into", wraps=polytwkb._reading._read_into) as looked:
                self.assertEqual(
                    list(polytwkb.stream(blob[place : place + 1000] for place in range(0, len(blob), 1000))), [blob]
                )
            self.assertLess(looked.call_count, len(blob) // 1000 // 2 + most)


@unittest.skipUnless(numpy, "numpy is not there")
class Numpy(unittest.TestCase):
    def test_masked_arrays_are_refused(self):
        rows = polytwkb.read(BLOBS).rows
        for kind in ("i8", "f8"):
            masked = numpy.ma.array([[1, 2], [3, 4]], kind, mask=[[False, True], [False, False]])
            for call, given in [
                (polytwkb.encode, (masked,)),
                (lambda given: polytwkb.encode(given, precision=5), (masked,)),
                (polytwkb.in_units, (masked, 5)),
                (polytwkb.in_degrees, (masked, 5)),
                (polytwkb.write, (rows, masked)),
                (polytwkb.write, ({"kind": 2, "counts": masked[:, 0], "precision": 0}, [(1, 2)])),
                (polytwkb.pack_geometries, ({"type": "LineString", "coordinates": masked}, 5)),
            ]:
                with self.subTest(call=call.__name__, kind=kind), self.assertRaisesRegex(TypeError, "[Mm]ask"):
                    call(*given)

    def test_arrays_in_other_forms(self):
        units = numpy.array([(1, 1), (5, 5), (2, 1)])
        expected = polytwkb.encode([(1, 1), (5, 5), (2, 1)])
        unaligned = numpy.frombuffer(b"1" + units.tobytes(), "u1")[1:].view("i8").reshape(-1, 2)
        fixed = units.copy()
        fixed.setflags(write=False)
        for given in (units, fixed, numpy.asfortranarray(units), unaligned, unaligned.copy(), units[::-1][::-1]):
            self.assertEqual(polytwkb.encode(given), expected)
        for given in (
            units.astype("f8"),
            units.astype("f4"),
            numpy.asfortranarray(units.astype("f4")),
            unaligned.astype(float),
        ):
            self.assertEqual(polytwkb.encode(given, precision=0), expected)
            self.assertEqual(polytwkb.in_units(given, 0).tolist(), units.tolist())
        columns = {"kind": 2, "counts": numpy.array([[3, 9]])[:, 0], "precision": numpy.zeros(2, "i1")[::2]}
        for given in (units, fixed, unaligned, units.astype("f4"), numpy.asfortranarray(units.astype(float))):
            self.assertEqual(polytwkb.unpack(polytwkb.write(columns, given)).split()[1], f"0,linestring,,0,{expected}")

    @unittest.skipUnless(pandas, "pandas is not there")
    def test_frames(self):
        rows, points = polytwkb.read(BLOBS)
        for frame in (pandas.DataFrame(rows), pandas.DataFrame(numpy.asarray(rows))):
            self.assertEqual(
                {name: list(frame[name]) for name in frame}, {name: list(getattr(rows, name)) for name in rows.places}
            )
            self.assertEqual(polytwkb.write({name: frame[name].to_numpy() for name in frame}, points), BLOBS)
        frame = pandas.DataFrame(points, columns=["x", "y"])
        self.assertEqual(frame.values.tolist(), DEGREES)
        self.assertEqual(polytwkb.write(rows, frame.to_numpy()), BLOBS)


if __name__ == "__main__":
    unittest.main()
