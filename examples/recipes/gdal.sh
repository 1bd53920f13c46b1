#!/usr/bin/env bash
# A stream as a layer of GDAL: into a GeoPackage and back to the same bytes, by FlatGeobuf, and what others lose.
source "$(dirname "$0")/common.bash"
source "$here/gdal_driver.bash"

cat > my.table << 'END'
depth,kind,id,precision,polyline
0,linestring,,5,yop}Gysml@lAxTfChSgKhK
0,multipoint,,6,
1,point,12,,AC
1,point,-7,,?A
0,point,,0,
END
polytwkb pack < my.table > my.twkb

ogr2ogr my.gpkg my.twkb -oo SRS=EPSG:4326
ogr2ogr -f TWKB -lco PRECISION=FIELD again.twkb my.gpkg
cmp my.twkb again.twkb

ogrinfo -q -al my.twkb > my.txt
grep -qxF '  twkb_ids (String) = [12,-7]' my.txt

# FlatGeobuf leaves out the empty point, the last one.
ogr2ogr -lco SPATIAL_INDEX=NO my.fgb my.twkb
ogr2ogr -f TWKB -lco PRECISION=FIELD again.twkb my.fgb
head -c -3 my.twkb | cmp - again.twkb

# A table is the same layer as its stream.
ogr2ogr table.gpkg TWKB_TABLE:my.table -oo SRS=EPSG:4326
ogr2ogr -f TWKB -lco PRECISION=FIELD again.twkb table.gpkg
cmp my.twkb again.twkb

# GeoJSONSeq turns a ring around: (0, 0), (0, 1), (1, 1), which are clockwise, become (0, 0), (1, 1), (0, 1).
cat > ring.table << 'END'
depth,kind,id,precision,polyline
0,polygon,,0,
1,ring,,,??A??A@@
END
polytwkb pack < ring.table > ring.twkb
ogr2ogr -f GeoJSONSeq ring.geojsonl ring.twkb -oo SRS=EPSG:4326
ogr2ogr -f TWKB -lco PRECISION=FIELD turned.twkb ring.geojsonl
cmp -s ring.twkb turned.twkb || polytwkb unpack < turned.twkb | tail -n 1
