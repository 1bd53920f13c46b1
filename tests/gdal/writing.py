"""What is written, and what is refused, a feature at a time."""
import math
import os
import struct
import subprocess

from osgeo import gdal, ogr, osr

from driver import case, put, get, read, wkts, write, errors, warnings, run, good, bad, peak, KINDS, BIG, SAID


@case
def writes_all_kinds():
    for style in "FULL", "PLAIN":
        answers = write("all.twkb", KINDS, ["STYLE=" + style])
        assert not any(answers), (answers, SAID)
        want = [ogr.CreateGeometryFromWkt(w).ExportToWkt() for w in KINDS]
        assert wkts("all.twkb") == want, [p for p in zip(wkts("all.twkb"), want) if p[0] != p[1]]


@case
def precisions():
    for precision in range(-8, 8):
        write("p.twkb", ["POINT (123456789.123456789 -0.5)"], ["PRECISION=%d" % precision])
        x = read("p.twkb")[0].GetGeometryRef().GetX()
        assert abs(x - 123456789.123456789) <= 0.5000001 * 10**-precision, (precision, x)
        assert read("p.twkb")[0].GetField("twkb_prec") == precision
    for wrong in "-9", "8", "five", "", "5.5", "4294967301":
        SAID.clear()
        data = ogr.GetDriverByName("TWKB").CreateDataSource("p.twkb")
        assert data.CreateLayer("a", options=["PRECISION=" + wrong]) is None and errors()


@case
def precision_of_the_field():
    """A number or its text. What is no precision is refused, since coordinates would lose digits without a word."""
    for kind, values, answers in (
        (ogr.OFTString, ["5", "x", "5.5", "8", "", "4294967301"], [0, 1, 1, 1, 0, 1]),
        (ogr.OFTReal, [5.0, 5.7, -9.0], [0, 1, 1]),
        (ogr.OFTInteger64, [5, 4294967301], [0, 1]),
    ):
        fields, given = [ogr.FieldDefn("twkb_prec", kind)], [(value,) for value in values]
        got = write("f.twkb", ["POINT (1.23456 2)"] * len(values), ["PRECISION=FIELD"], fields=fields, values=given)
        assert [answer != 0 for answer in got] == [answer != 0 for answer in answers], (kind, got)
        assert {f.GetGeometryRef().GetX() for f in read("f.twkb")} == {1.23456}
        assert [f.GetField(0) for f in read("f.twkb")] == ([5, 7] if kind == ogr.OFTString else [5])


@case
def precision_by_default():
    for code, want in (None, 7), (4326, 7), (25832, 3):
        srs = osr.SpatialReference()
        if code:
            srs.ImportFromEPSG(code)
        write("p.twkb", ["POINT (1 2)"], srs=srs if code else None)
        assert read("p.twkb")[0].GetField("twkb_prec") == want


@case
def halves():
    write("h.twkb", ["POINT (0.15 -0.15)", "POINT (0.25 1.05)"], ["PRECISION=1"])
    assert wkts("h.twkb") == ["POINT (0.2 -0.2)", "POINT (0.3 1.1)"], wkts("h.twkb")


@case
def heights():
    assert write("z.twkb", ["POINT Z (1 2 3)", "POINT (1 2)"]) == [ogr.OGRERR_FAILURE, 0] and "heights" in errors()[0]
    assert wkts("z.twkb") == ["POINT (1 2)"]
    assert write("z.twkb", ["POINT Z (1 2 3)", "GEOMETRYCOLLECTION Z (POINT Z (1 2 3))"], ["HEIGHTS=DROP"]) == [0, 0]
    assert wkts("z.twkb") == ["POINT (1 2)", "GEOMETRYCOLLECTION (POINT (1 2))"]
    put("z.geojson", b'{"type":"Point","coordinates":[1,2,3]}')
    bad("ogr2ogr -f TWKB z2.twkb z.geojson", "-dim XY")
    good("ogr2ogr -f TWKB z2.twkb z.geojson -dim XY")


@case
def measures_and_curves():
    assert write(
        "m.twkb",
        ["POINT M (1 2 3)", "CIRCULARSTRING (0 0,1 1,2 0)", "CURVEPOLYGON (CIRCULARSTRING (0 0,1 1,2 0,1 -1,0 0))"],
    ) == [0, 0, 0], SAID
    got = wkts("m.twkb")
    assert got[0] == "POINT (1 2)" and got[1].startswith("LINESTRING") and got[2].startswith("POLYGON"), got


@case
def other_types():
    answers = write("t.twkb", ["TRIANGLE ((0 0,1 0,1 1,0 0))", "TIN (((0 0,1 0,1 1,0 0)))", "POINT (1 1)"])
    assert answers == [ogr.OGRERR_FAILURE, ogr.OGRERR_FAILURE, 0], (answers, SAID)


@case
def numbers_out_of_range():
    point = lambda x: ogr.CreateGeometryFromWkb(struct.pack("<BIdd", 1, 1, x, 2.0))
    answers = write(
        "n.twkb",
        ["POINT (1 1)", point(math.inf), point(1e300), point(4.7e11), "LINESTRING (0 0,5e11 0)", "POINT (2 2)"],
    )
    assert answers == [0] + [ogr.OGRERR_FAILURE] * 4 + [0], answers
    assert wkts("n.twkb") == ["POINT (1 1)", "POINT (2 2)"], wkts("n.twkb")
    line = ogr.CreateGeometryFromWkt("LINESTRING (0 0,1 1)")
    line.SetPoint_2D(1, math.nan, 1)
    assert write("n.twkb", [line]) == [ogr.OGRERR_FAILURE]


@case
def no_geometry():
    assert write("n.twkb", [None, "POINT (1 1)"]) == [ogr.OGRERR_FAILURE, 0] and "no geometry" in errors()[0]
    put("n.csv", b'id,WKT\n1,"POINT (1 2)"\n2,\n3,"POINT (5 6)"\n')
    bad("ogr2ogr -f TWKB n2.twkb n.csv", "no geometry")
    code, out, err = run("ogr2ogr -skipfailures -f TWKB n2.twkb n.csv")
    assert wkts("n2.twkb") == ["POINT (1 2)", "POINT (5 6)"], (wkts("n2.twkb"), err)
    assert "feature 1: it has no geometry" in err, err


@case
def empty_point_in_multipoint():
    assert write("e.twkb", ["MULTIPOINT (EMPTY,(1 1))"]) == [ogr.OGRERR_FAILURE], SAID


@case
def attributes_warn_once():
    fields = [
        ogr.FieldDefn("a", ogr.OFTInteger),
        ogr.FieldDefn("b", ogr.OFTString),
        ogr.FieldDefn("c", ogr.OFTRealList),
    ]
    write("w.twkb", ["POINT (1 1)"] * 3, fields=fields, values=[(1, "x")] * 3)
    assert len(SAID) == 1 and len(warnings()) == 1, SAID
    put("w.csv", b'a,b,WKT\n1,x,"POINT (1 2)"\n')
    code, out, err = run("ogr2ogr -f TWKB w2.twkb w.csv")
    assert code == 0 and err.count("Warning") == 1, err


@case
def ids_that_do_not_fit():
    field = [ogr.FieldDefn("twkb_ids", ogr.OFTString)]
    for geometry, ids in (
        ("MULTIPOINT ((1 1),(2 2))", "[1]"),
        ("MULTIPOINT ((1 1),(2 2))", "[1,2,3]"),
        ("POINT (1 1)", "[1]"),
        ("MULTIPOINT ((1 1),(2 2))", "[1,x]"),
        ("MULTIPOINT ((1 1),(2 2))", "[1,99999999999999999999]"),
        ("MULTIPOINT ((1 1),(2 2))", "[1,null]"),
    ):
        answers = write("i.twkb", [geometry, "POINT (5 5)"], fields=field, values=[(ids,), (None,)])
        assert answers == [0, 0] and len(warnings()) == 1, (ids, answers, SAID)
        assert len(read("i.twkb")) == 2 and not any(f.GetField(1) for f in read("i.twkb"))


@case
def deep_collections():
    deep = lambda n: "GEOMETRYCOLLECTION (" * n + "POINT (1 1)" + ")" * n
    answers = write("d.twkb", [deep(n) for n in range(1, 20)] + ["POINT (1 1)"])
    bad_ones = [n for n, a in enumerate(answers, 1) if a]
    assert answers[-1] == 0 and len(read("d.twkb")) == answers.count(0) and not errors(), (bad_ones, SAID)
    assert bad_ones, answers


@case
def one_long_geometry():
    line = ogr.Geometry(ogr.wkbLineString)
    for i in range(1500000):
        line.AddPoint_2D((i * 7919 % 360000) / 1000, (i * 104729 % 180000) / 1000)
    assert write("l.twkb", ["POINT (1 1)", line, "POINT (2 2)"]) == [0, 0, 0]
    got = read("l.twkb")
    assert len(got) == 3 and got[1].GetGeometryRef().Equals(line) and got[2].GetGeometryRef().GetX() == 2


@case
def too_many_points():
    wkb = struct.pack("<BII", 1, 2, (1 << 24) + 1) + bytes(16 * ((1 << 24) + 1))
    assert (
        write("l.twkb", [ogr.CreateGeometryFromWkb(wkb), "POINT (1 1)"]) == [ogr.OGRERR_FAILURE, 0]
        and "too many" in errors()[0]
    )


@case
def full_disk():
    bad("ogr2ogr -f TWKB /dev/full " + BIG, "writing failed")
    code, out, err = run("ogr2ogr -f TWKB /dev/full k.twkb")
    assert "ERROR" in err, err
    assert code != 0, "exit 0: " + err


@case
def append_and_update():
    good("ogr2ogr -f TWKB a.twkb k.twkb")
    before = get("a.twkb")
    bad("ogr2ogr -append -f TWKB a.twkb k.twkb -nln a", "nothing is appended")
    assert get("a.twkb") == before
    data = gdal.OpenEx("a.twkb", gdal.OF_VECTOR | gdal.OF_UPDATE)
    assert not data.GetLayer(0).TestCapability(ogr.OLCSequentialWrite)
    data = None
    good("ogr2ogr -f TWKB a.twkb k.twkb")  # over an old file
    code, out, err = run("ogr2ogr -overwrite -f TWKB a.twkb k.twkb -nln a")
    assert code == 0 and get("a.twkb") == before, ("overwrite", code, err)


@case
def renamed_copied_deleted():
    put("old.twkb", get("k.twkb"))
    one = gdal.GetDriverByName("TWKB")
    assert one.CopyFiles("copy.twkb", "old.twkb") == 0 and get("copy.twkb") == get("k.twkb")
    os.symlink("old.twkb", "link.twkb")
    for same in "old.twkb", "TWKB:old.twkb", "link.twkb":
        assert one.CopyFiles(same, "old.twkb") != 0 and get("old.twkb") == get("k.twkb"), same
    assert one.Rename("new.twkb", "old.twkb") == 0 and get("new.twkb") == get("k.twkb")
    SAID.clear()
    assert one.Rename("/nothere/new.twkb", "new.twkb") != 0 and errors(), SAID
    assert one.Delete("new.twkb") == 0 and one.Delete("copy.twkb") == 0 and one.Delete("new.twkb") != 0


@case
def append_by_hand():
    good("ogr2ogr -f TWKB a.twkb k.twkb && ogr2ogr -f TWKB /vsistdout/ k.twkb >> a.twkb")
    assert len(read("a.twkb")) == 6


@case
def second_layer():
    good("rm -f two.gpkg; ogr2ogr -f GPKG two.gpkg k.twkb -nln a && ogr2ogr -update -f GPKG two.gpkg k.twkb -nln b")
    bad("ogr2ogr -f TWKB two.twkb two.gpkg", "cannot be created")
    good("ogr2ogr -f TWKB two.twkb two.gpkg a")


@case
def reference_system():
    data = gdal.OpenEx("k.twkb", gdal.OF_VECTOR, open_options=["SRS=EPSG:4326"])
    srs = data.GetLayer(0).GetSpatialRef()
    assert srs.GetAuthorityCode(None) == "4326" and srs.GetDataAxisToSRSAxisMapping() == [2, 1]
    data = gdal.OpenEx("k.twkb", gdal.OF_VECTOR)
    assert data.GetLayer(0).GetSpatialRef() is None
    SAID.clear()
    assert gdal.OpenEx("k.twkb", gdal.OF_VECTOR, open_options=["SRS=nonsense"]) is None and errors()
    good("ogr2ogr -f GPKG -t_srs EPSG:25832 srs.gpkg k.twkb -oo SRS=EPSG:4326 -overwrite")
    good("ogr2ogr -f TWKB u.twkb srs.gpkg")
    assert read("u.twkb")[0].GetField("twkb_prec") == 3  # and not 0, that of the degrees
    put("p.geojson", b'{"type":"Point","coordinates":[13.3777,52.5163]}')
    good("ogr2ogr -f TWKB p.twkb p.geojson -lco PRECISION=5")  # x is the longitude
    assert wkts("p.twkb") == ["POINT (13.3777 52.5163)"]
    assert gdal.GetDriverByName("TWKB").Delete("u.twkb") == 0
    assert not os.path.exists("u.twkb")


@case
def options_of_ogr2ogr():
    good("ogr2ogr -f TWKB x.twkb k.twkb -explodecollections")
    assert len(read("x.twkb")) == 5, wkts("x.twkb")
    good("ogr2ogr -f TWKB x.twkb %s -limit 10 -nlt PROMOTE_TO_MULTI" % BIG)
    assert all(w.startswith("MULTILINESTRING") for w in wkts("x.twkb"))
    good("ogr2ogr -f TWKB x.twkb %s -spat 7 46 7.1 46.1 -simplify 0.001" % BIG)
    good("ogr2ogr -f TWKB x.twkb %s -limit 10 -sql 'SELECT * FROM \"%s\"'" % (BIG, os.path.basename(BIG)[:-5]))
    assert len(read("x.twkb")) == 10


@case
def bounded_memory():
    with open("huge.twkb", "wb") as file:
        for _ in range(8):
            file.write(get(BIG))
    for line in (
        "ogr2ogr -f TWKB -lco PRECISION=5 huge2.twkb huge.twkb",
        "ogrinfo -so -al huge.twkb",
        "ogr2ogr -f FlatGeobuf -lco SPATIAL_INDEX=NO huge.fgb huge.twkb",
    ):
        kilobytes = peak(line)
        assert kilobytes < 64 * 1024, (line, kilobytes)
    assert subprocess.run(["cmp", "huge.twkb", "huge2.twkb"]).returncode == 0
    os.remove("huge2.twkb"), os.remove("huge.twkb"), os.remove("huge.fgb")
