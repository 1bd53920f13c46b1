"""The same bytes come back by way of other formats."""
import os
import subprocess

from osgeo import ogr

from driver import case, get, read, wkts, write, good, KINDS, NO_EMPTIES, BIG, SAID


def round_trip(suffix, driver, *options):
    name = "trip." + suffix
    for old in name, "back.twkb":
        if os.path.exists(old):
            os.remove(old)
    good("ogr2ogr -f '%s' %s %s all_ids.twkb" % (driver, name, " ".join(options)))
    good("ogr2ogr -f TWKB -lco PRECISION=FIELD back.twkb " + name)
    assert get("back.twkb") == get("all_ids.twkb"), (wkts("back.twkb"), [f.items() for f in read("back.twkb")])


def make_all_ids(kinds):
    fields = [ogr.FieldDefn("twkb_prec", ogr.OFTInteger), ogr.FieldDefn("twkb_ids", ogr.OFTString)]
    values = [
        (
            at % 8,
            {
                "MULTIPOINT ((1 2),(3 4))": "[7,-9007199254740993]",
                "GEOMETRYCOLLECTION (POINT (1 2),GEOMETRYCOLLECTION (LINESTRING (0 0,1 1)),MULTIPOINT ((1 1)))": "[5,6,null,8,9]",
            }.get(w),
        )
        for at, w in enumerate(kinds)
    ]
    assert not any(write("all_ids.twkb", kinds, ["PRECISION=FIELD"], fields=fields, values=values)), SAID
    assert [f.GetField(1) for f in read("all_ids.twkb")] == [v[1] for v in values]
    assert [f.GetField(0) for f in read("all_ids.twkb")] == [v[0] for v in values]


@case
def trip_geopackage():
    make_all_ids(KINDS)
    round_trip("gpkg", "GPKG")


@case
def trip_flatgeobuf():
    make_all_ids(NO_EMPTIES)  # FlatGeobuf leaves out features whose geometry is empty
    round_trip("fgb", "FlatGeobuf", "-lco SPATIAL_INDEX=NO")


@case
def trip_geojson():
    make_all_ids(NO_EMPTIES)  # GeoJSON makes null of an empty geometry
    round_trip("geojson", "GeoJSON", "-lco RFC7946=NO")


@case
def trip_geojson_lines():
    # turns rings as RFC 7946 says, so polygons do not come back the same
    make_all_ids([k for k in NO_EMPTIES if "POLYGON" not in k])
    round_trip("geojsonl", "GeoJSONSeq", "-lco COORDINATE_PRECISION=7")


@case
def trip_csv():
    make_all_ids(KINDS)
    good("ogr2ogr -f CSV trip.csv all_ids.twkb -lco GEOMETRY=AS_WKT")
    good("ogr2ogr -f TWKB -lco PRECISION=FIELD back.twkb trip.csv -select twkb_prec,twkb_ids -oo AUTODETECT_TYPE=YES")
    assert get("back.twkb") == get("all_ids.twkb")


@case
def trip_spatialite_sqlite():
    make_all_ids([k for k in KINDS if "POINT EMPTY" not in k])  # SQLite makes 0 0 of an empty point
    round_trip("sqlite", "SQLite")


@case
def trip_geometry_of_k():
    # of a collection whose members have several precisions the highest is kept, and none of the digits is lost
    good("ogr2ogr -f GPKG k.gpkg k.twkb && ogr2ogr -f TWKB -lco PRECISION=FIELD kk.twkb k.gpkg")
    assert wkts("kk.twkb") == wkts("k.twkb")
    good("ogr2ogr -f TWKB -lco PRECISION=FIELD kkk.twkb kk.twkb")
    assert get("kkk.twkb") == get("kk.twkb")


@case
def trip_big():
    for driver, suffix, options in ("FlatGeobuf", "fgb", "-lco SPATIAL_INDEX=NO"), (
        "GPKG",
        "gpkg",
        "-lco SPATIAL_INDEX=NO",
    ):
        good(
            "ogr2ogr -f %s big.%s %s %s && ogr2ogr -f TWKB -lco PRECISION=FIELD big.twkb big.%s"
            % (driver, suffix, BIG, options, suffix)
        )
        assert subprocess.run(["cmp", "big.twkb", BIG]).returncode == 0
        os.remove("big." + suffix)


@case
def trip_plain():
    good(
        "ogr2ogr -f TWKB -lco PRECISION=5 -lco STYLE=PLAIN plain.twkb %s && ogr2ogr -f TWKB -lco PRECISION=5 full.twkb plain.twkb"
        % BIG
    )
    assert os.path.getsize("plain.twkb") < os.path.getsize(BIG)
    assert subprocess.run(["cmp", "full.twkb", BIG]).returncode == 0


@case
def trip_shapefile_lines():
    good("ogr2ogr -f 'ESRI Shapefile' s.shp %s -limit 1000 && ogr2ogr -f TWKB -lco PRECISION=5 s.twkb s.shp" % BIG)
    assert get(BIG).startswith(get("s.twkb")) and len(read("s.twkb")) == 1000
