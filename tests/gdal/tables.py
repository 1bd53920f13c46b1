"""A table of encoded polylines as a layer, by the prefix TWKB_TABLE:."""
import os

from osgeo import gdal, ogr

from driver import case, put, get, read, wkts, errors, good, bad, SAID

HEADER = b"depth,kind,id,precision,polyline\n"
# Lines of the page on the format of polylines, by hand: (38.5, -120.2), (40.7, -120.95), (43.252, -126.453).
LINE = b"0,linestring,,5,_p~iF~ps|U_ulLnnqC_mqNvxq`@\n"
POINTS = b"0,multipoint,,0,\n1,point,7,,AC\n1,point,-8,,?A\n"


@case
def table_as_a_layer():
    put("t.table", HEADER + LINE + POINTS + b"0,point,,0,\n")
    got = read("TWKB_TABLE:t.table")
    assert [f.GetGeometryRef().ExportToWkt() for f in got] == [
        "LINESTRING (-120.2 38.5,-120.95 40.7,-126.453 43.252)",
        "MULTIPOINT (2 1,1 0)",
        "POINT EMPTY",
    ], got
    assert [(f.GetField("twkb_prec"), f.GetField("twkb_ids")) for f in got] == [(5, None), (0, "[7,-8]"), (0, None)]
    assert not errors(), SAID


@case
def table_by_random_reads():
    put("t.table", HEADER + b"".join(b"0,point,,0,%s\n" % text for text in (b"AA", b"AC", b"AE", b"AG")))
    data = ogr.Open("TWKB_TABLE:t.table")
    layer = data.GetLayer(0)
    assert layer.GetName() == "t" and layer.GetFeatureCount() == 4 and layer.GetExtent() == (1, 4, 1, 1)
    features = [layer.GetFeature(fid) for fid in (3, 0, 2)]
    assert [feature.GetGeometryRef().GetX() for feature in features] == [4, 1, 3]
    assert layer.GetFeature(4) is None


@case
def table_that_is_refused():
    """All geometries but the last before the refused record are there, and the error names it, as the command does."""
    for bad_line, said in (
        (b"0,linestring,,5,yop}Gysml@lA\n", "record 4: polyline at 12: latitude without longitude"),
        (b"0,line,,5,AC\n", "record 4: unknown kind"),
        (b"0,point,,8,AC\n", "record 4: bad precision"),
    ):
        put("t.table", HEADER + LINE + LINE + bad_line + POINTS)
        assert len(read("TWKB_TABLE:t.table")) == 1
        assert len(errors()) == 1 and said in errors()[0] and "after 1 geometries" in errors()[0], SAID
        bad("ogr2ogr -f TWKB t.twkb TWKB_TABLE:t.table", said)
    put("t.table", b"a,b\n1,2\n")
    assert read("TWKB_TABLE:t.table") == [] and "record 1: bad header" in errors()[0], SAID


@case
def tables_of_nothing():
    put("t.table", HEADER)
    assert read("TWKB_TABLE:t.table") == [] and not errors(), SAID
    put("t.table", b"")
    read("TWKB_TABLE:t.table")
    SAID.clear()
    assert gdal.OpenEx("TWKB_TABLE:nothere", gdal.OF_VECTOR) is None and errors()


@case
def table_of_standard_input():
    table = HEADER + LINE + POINTS
    assert good("ogr2ogr -f TWKB -lco PRECISION=FIELD /vsistdout/ TWKB_TABLE:/vsistdin/", table)
    put("t.csv", table)
    assert b"CSV" in good("ogrinfo -so t.csv")  # GDAL's own driver opens a table without the prefix
    assert wkts("TWKB_TABLE:t.csv")[1] == "MULTIPOINT (2 1,1 0)"


@case
def tables_are_only_read():
    put("t.table", HEADER + LINE)
    bad("ogr2ogr -f TWKB TWKB_TABLE:t.table k.twkb", "a table is only read")
    bad("ogr2ogr -append -f TWKB TWKB_TABLE:t.table k.twkb -nln t", "")
    assert get("t.table") == HEADER + LINE


@case
def tables_leave_nothing_in_memory():
    put("t.table", HEADER + LINE)
    for _ in range(3):
        read("TWKB_TABLE:t.table")
    assert not [name for name in gdal.ReadDir("/vsimem/") or [] if "polytwkb" in name], gdal.ReadDir("/vsimem/")
    assert not [name for name in os.listdir(".") if "polytwkb" in name]
