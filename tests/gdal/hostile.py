"""Files of strangers, devices that fail, and several threads."""
import os
import random
import threading

from osgeo import gdal, ogr

from driver import case, put, read, errors, run, K, BIG, SAID


@case
def each_byte_turned():
    chance = random.Random(7)
    for place in range(len(K)):
        for value in chance.sample(range(256), 24):
            read(put("turned.twkb", K[:place] + bytes([value]) + K[place + 1 :]))


@case
def huge_counts():
    """A count of points, rings, members or bytes that is larger than the file is refused, and takes no memory for it."""
    for begin, said in (
        ("0200ffffff07", "truncated"),
        ("0200ffffffff0f", "too many points"),
        ("0300ffffff07", "too many nodes"),
        ("0700ffffff7f", "too many nodes"),
        ("0102ffffffffffffffff7f0402", "size mismatch"),
        ("0200ffffffffffffffffff7f", "bad varint"),
    ):
        assert read(put("huge.twkb", bytes.fromhex(begin))) == [] and said in errors()[0], (begin, SAID)


@case
def many_small_ones_after_a_long_one():
    """A window that was made larger for one geometry takes the next ones in parts."""
    line = ogr.Geometry(ogr.wkbLineString)
    for i in range(300000):
        line.AddPoint_2D(i % 1000, i % 777)
    data = ogr.GetDriverByName("TWKB").CreateDataSource("long.twkb")
    layer = data.CreateLayer("long", options=["PRECISION=0"])
    feature = ogr.Feature(layer.GetLayerDefn())
    feature.SetGeometry(line)
    assert layer.CreateFeature(feature) == 0
    layer = data = None
    with open("long.twkb", "ab") as file:
        file.write(bytes.fromhex("0110") * 900000)
    data = ogr.Open("long.twkb")
    layer = data.GetLayer(0)
    assert layer.GetFeatureCount() == 900001
    first, last = layer.GetFeature(0), layer.GetFeature(900000)
    assert first.GetGeometryRef().GetPointCount() == 300000 and last.GetGeometryRef().IsEmpty()


@case
def full_device():
    """Each way to write to a full device ends with an error."""
    code, _, err = run(f"ogr2ogr -f TWKB TWKB:/dev/full {BIG}")
    assert code != 0 and "writing failed" in err, (code, err)
    code, _, err = run("ogr2ogr -f TWKB /vsistdout/ k.twkb > /dev/full")
    assert "ERROR" in err or code != 0, (code, err)
    SAID.clear()
    data = ogr.GetDriverByName("TWKB").CreateDataSource("/dev/full")
    layer = data.CreateLayer("a")
    feature = ogr.Feature(layer.GetLayerDefn())
    feature.SetGeometry(ogr.CreateGeometryFromWkt("POINT (1 2)"))
    assert layer.CreateFeature(feature) == 0
    assert layer.SyncToDisk() != 0 and errors(), SAID
    assert layer.SyncToDisk() != 0
    assert layer.CreateFeature(feature) != 0 and "not written" in errors()[-1], SAID
    layer = data = None


@case
def what_is_no_file():
    for name in ("TWKB:", "TWKB:/nothere/a", "TWKB_TABLE:", "TWKB:."):
        SAID.clear()
        data = gdal.OpenEx(name, gdal.OF_VECTOR)
        if data:  # a folder is opened by some systems, and cannot be read
            assert list(data.GetLayer(0)) == [] and errors(), (name, SAID)
        else:
            assert errors(), name
    SAID.clear()
    assert ogr.GetDriverByName("TWKB").CreateDataSource("/nothere/a.twkb") is None and errors()


@case
def threads_with_a_dataset_each():
    """Streams and tables in eight threads; each has the answers of one alone."""
    put("t.table", b"depth,kind,id,precision,polyline\n" + b"0,point,,0,AC\n" * 500)
    wrong = []

    def count(name, expected):
        for _ in range(20):
            data = gdal.OpenEx(name, gdal.OF_VECTOR)
            found = sum(1 for feature in data.GetLayer(0) if feature.GetGeometryRef())
            if found != expected:
                wrong.append((name, found))

    given = (("TWKB_TABLE:t.table", 500), ("k.twkb", 3)) * 4
    running = [threading.Thread(target=count, args=one) for one in given]
    for thread in running:
        thread.start()
    for thread in running:
        thread.join()
    assert not wrong, wrong


@case
def what_stays_of_a_stream_that_is_cut():
    """Each cut of a small file gives a prefix of its geometries, also to ogr2ogr, which then ends with an error."""
    size = os.path.getsize("k.twkb")
    for length in (size - 1, 30, 14, 1):
        put("cut.twkb", K[:length])
        code, _, err = run("ogr2ogr -f TWKB -lco PRECISION=FIELD out.twkb cut.twkb")
        assert (code != 0) == (length not in (14,)) and ("truncated" in err) == (code != 0), (length, code, err)
