"""What is read of a stream: kinds, fields, filters, random reads, names and places."""
import http.server
import random
import shutil
import subprocess
import threading

from osgeo import gdal, ogr

from driver import case, put, get, read, wkts, write, errors, run, good, K, KINDS, BIG, COUNT, SAID


@case
def registered():
    driver = gdal.GetDriverByName("TWKB")
    assert driver and driver.GetMetadataItem("DMD_EXTENSION") == "twkb"
    assert b"TWKB -vector- (rw+v)" in good("ogrinfo --formats")
    assert b"PRECISION" in good("ogrinfo --format TWKB")


@case
def reads_all_kinds():
    put("k.twkb", K)
    assert wkts("k.twkb") == [
        "MULTIPOINT (2 1,3 4)",
        "GEOMETRYCOLLECTION (POLYGON ((0 0,0 1,1 1,0 0)),LINESTRING (0.001 0.001,0.005 0.005))",
        "POINT EMPTY",
    ], wkts("k.twkb")


@case
def fields_of_a_stream():
    rows = [(f.GetFID(), f.GetField("twkb_prec"), f.GetField("twkb_ids")) for f in read("k.twkb")]
    assert rows == [(0, 0, "[7,8]"), (1, 5, None), (2, 0, None)], rows
    assert all(f.GetFieldCount() == 0 for f in read("k.twkb", ["FIELDS=NO"]))


@case
def cut_everywhere():
    ends = {0: 0, 14: 1, 59: 2, len(K): 3}
    for size in range(len(K)):
        put("cut.twkb", K[:size])
        got = len(read("cut.twkb"))
        assert got == sum(1 for e in ends if 0 < e <= size), (size, got)
        assert bool(errors()) == (size not in ends), (size, SAID)
        assert all("truncated" in text for text in errors()), SAID  # else a window's end would end the stream


@case
def cut_in_ogr2ogr():
    put("cut.twkb", get(BIG)[:-5])
    code, out, err = run("ogr2ogr -f TWKB -lco PRECISION=5 out.twkb cut.twkb")
    assert code != 0 and "truncated" in err, (code, err)
    assert get(BIG).startswith(get("out.twkb")), "no prefix"
    assert len(get("out.twkb")) > 0.9 * len(get(BIG)), len(get("out.twkb"))


@case
def bad_bytes():
    put("bad.twkb", K + b"\x0f\x00" + K)
    assert len(read("bad.twkb")) == 3 and "byte %d" % len(K) in errors()[0], SAID
    put("z.twkb", bytes.fromhex("0108 01 02 04 06".replace(" ", "")))
    assert len(read("z.twkb")) == 0 and "dimension" in errors()[0], SAID
    for at in range(len(K)):
        for value in random.Random(at).sample(range(256), 12):
            put("fuzz.twkb", K[:at] + bytes([value]) + K[at + 1 :])
            read("fuzz.twkb")


@case
def spatial_filter():
    data = ogr.Open(BIG)
    layer = data.GetLayer(0)
    layer.SetSpatialFilterRect(7, 46, 7.2, 46.1)
    got = [f.GetFID() for f in layer]
    box = ogr.CreateGeometryFromWkt("POLYGON ((7 46,7.2 46,7.2 46.1,7 46.1,7 46))")
    layer.SetSpatialFilter(None)
    want = [f.GetFID() for f in layer if f.GetGeometryRef().Intersects(box)]
    assert got == want and got, (len(got), len(want))
    layer.SetSpatialFilter(box)
    assert layer.GetFeatureCount() == len(got)
    assert layer.GetExtent() and data.GetLayer(0).TestCapability(ogr.OLCFastFeatureCount) in (0, 1, False, True)


@case
def attribute_filter_and_sql():
    data = ogr.Open("k.twkb")
    layer = data.GetLayer(0)
    layer.SetAttributeFilter("twkb_prec = 0")
    assert [f.GetFID() for f in layer] == [0, 2] and layer.GetFeatureCount() == 2
    layer.SetAttributeFilter("OGR_GEOMETRY = 'MULTIPOINT'")
    assert [f.GetFID() for f in layer] == [0]
    layer.SetAttributeFilter(None)
    for dialect, statement, want in ("", "SELECT COUNT(*) FROM k", 3), ("SQLITE", "SELECT SUM(twkb_prec) FROM k", 5):
        result = data.ExecuteSQL(statement, dialect=dialect)
        assert [f.GetField(0) for f in result] == [want]
        data.ReleaseResultSet(result)


@case
def random_reads():
    data = ogr.Open(BIG)
    layer = data.GetLayer(0)
    count = layer.GetFeatureCount()
    want = {}
    wanted = set(random.Random(3).sample(range(count), 300)) | {0, count - 1}
    for f in layer:
        if f.GetFID() in wanted:
            want[f.GetFID()] = f.GetGeometryRef().ExportToWkb()
    order = list(wanted)
    random.Random(4).shuffle(order)
    layer.ResetReading()
    for at, fid in enumerate(order):
        f = layer.GetFeature(fid)
        assert f.GetGeometryRef().ExportToWkb() == want[fid], fid
        assert layer.GetNextFeature().GetFID() == at
    assert layer.GetFeature(count) is None and layer.GetFeature(-1) is None
    data = ogr.Open(BIG)  # nothing read before
    for fid in (count - 1, 5, count // 2):
        f = data.GetLayer(0).GetFeature(fid)
        assert f.GetFID() == fid and (fid not in want or f.GetGeometryRef().ExportToWkb() == want[fid])
    assert data.GetLayer(0).SetNextByIndex(7) == 0 and data.GetLayer(0).GetNextFeature().GetFID() == 7


@case
def count_and_extent():
    data = ogr.Open("k.twkb")
    layer = data.GetLayer(0)
    assert layer.GetFeatureCount(force=0) == -1 and layer.GetFeatureCount() == 3
    assert layer.GetExtent() == (0, 3, 0, 4), layer.GetExtent()
    assert f"Feature Count: {COUNT}".encode() in good("ogrinfo -so -al " + BIG)


@case
def empty_file():
    put("empty.twkb", b"")
    assert read("empty.twkb") == [] and not errors()
    assert write("none.twkb", []) == [] and get("none.twkb") == b""
    good("ogrinfo -so -al empty.twkb")
    code, out, err = run("ogr2ogr -f GPKG empty.gpkg empty.twkb")
    assert code == 0, err


@case
def prefix_and_names():
    shutil.copy("k.twkb", "noext")
    assert ogr.Open("noext") is None
    assert wkts("TWKB:noext") == wkts("k.twkb")
    shutil.copy("k.twkb", "K2.TWKB")
    assert len(read("K2.TWKB")) == 3
    assert ogr.Open("TWKB:nothere") is None


@case
def over_http():
    class Quiet(http.server.SimpleHTTPRequestHandler):
        def log_message(self, *_):
            pass

    server = http.server.ThreadingHTTPServer(("127.0.0.1", 0), Quiet)
    threading.Thread(target=server.serve_forever, daemon=True).start()
    put("k.twkb", K)
    assert wkts("/vsicurl/http://127.0.0.1:%d/k.twkb" % server.server_port) == wkts("k.twkb")
    server.shutdown()


@case
def compressed():
    put("k.twkb", K)
    good("gzip -kf k.twkb")
    assert wkts("/vsigzip/k.twkb.gz") == wkts("k.twkb")
    data = ogr.Open("/vsigzip/k.twkb.gz")
    assert data.GetLayer(0).GetName() == "k"
    write("/vsigzip/w.twkb.gz", KINDS), write("w.twkb", KINDS)
    assert good("gzip -dc w.twkb.gz") == get("w.twkb")
    good("gzip -c %s > big.twkb.gz" % BIG)
    good("ogr2ogr -f TWKB -lco PRECISION=5 g.twkb /vsigzip/big.twkb.gz")
    assert subprocess.run(["cmp", "g.twkb", BIG]).returncode == 0
    put("cut.twkb.gz", get("big.twkb.gz")[:1000000])
    code, out, err = run("ogr2ogr -f TWKB g.twkb /vsigzip/cut.twkb.gz")
    assert code != 0, "a cut gzip file: exit 0, " + err
    good("python3 -c \"import zipfile; zipfile.ZipFile('k.zip', 'w').write('k.twkb')\"")
    assert wkts("/vsizip/k.zip/k.twkb") == wkts("k.twkb")


@case
def standard_streams():
    assert good("ogr2ogr -f TWKB /vsistdout/ k.twkb", None) != b""
    good("ogr2ogr -f TWKB m.twkb k.twkb")
    assert good("ogr2ogr -f TWKB /vsistdout/ k.twkb") == get("m.twkb")
    assert good("cat %s | ogr2ogr -lco PRECISION=5 -f TWKB /vsistdout/ TWKB:/vsistdin/ | cmp - %s" % (BIG, BIG)) == b""
    assert f"Feature Count: {COUNT}".encode() in good("ogrinfo -so -al TWKB:/vsistdin/ < " + BIG)
    code, out, err = run("cat %s | ogrinfo -al -q TWKB:/vsistdin/ | grep -c LINESTRING" % BIG)
    assert out.strip() == str(COUNT).encode(), (out, err)


@case
def threads():
    def count(result):
        data = ogr.Open(BIG)
        result.append(sum(1 for _ in data.GetLayer(0)))

    results = []
    made = [threading.Thread(target=count, args=(results,)) for _ in range(3)]
    [t.start() for t in made], [t.join() for t in made]
    assert len(set(results)) == 1 and len(results) == 3, results


@case
def ignored_fields():
    layer_of = ogr.Open("k.twkb")
    layer = layer_of.GetLayer(0)
    assert layer.SetIgnoredFields(["OGR_GEOMETRY"]) == 0
    assert all(f.GetGeometryRef() is None for f in layer)
    layer.SetSpatialFilterRect(2.5, 3.5, 3.5, 4.5)  # which the geometry is needed for
    assert [f.GetFID() for f in layer] == [0]
    layer.SetSpatialFilter(None)
    for ignored, other in ("twkb_ids", "twkb_prec"), ("twkb_prec", "twkb_ids"):
        assert layer.SetIgnoredFields([ignored]) == 0
        first = layer.GetFeature(0)
        assert first.GetGeometryRef() and not first.IsFieldSet(ignored) and first.IsFieldSet(other)


@case
def arrow():
    layer_of = ogr.Open("k.twkb")
    stream = layer_of.GetLayer(0).GetArrowStreamAsNumPy() if hasattr(ogr.Layer, "GetArrowStreamAsNumPy") else None
    if stream is not None:
        assert sum(len(batch["twkb_prec"]) for batch in stream) == 3
