#!/usr/bin/env bash
# A stream into PostGIS, and out of it again to the same bytes, by ogr2ogr.
source "$(dirname "$0")/postgres.bash"
source "$here/gdal_driver.bash"
need_postgis
createdb gis
psql -d gis -c 'CREATE EXTENSION postgis'

cat > my.table << 'END'
depth,kind,id,precision,polyline
0,linestring,,5,yop}Gysml@lAxTfChSgKhK
0,multipoint,,6,
1,point,12,,AC
1,point,-7,,?A
END
polytwkb pack < my.table > my.twkb

ogr2ogr -f PostgreSQL PG:dbname=gis my.twkb -nln my_routes -oo SRS=EPSG:4326
ogr2ogr -f TWKB -lco PRECISION=FIELD again.twkb PG:dbname=gis my_routes

cmp my.twkb again.twkb
psql -d gis -At -c 'SELECT ST_AsEWKT(wkb_geometry), twkb_prec, twkb_ids FROM my_routes ORDER BY ogc_fid' | tail -n 1
