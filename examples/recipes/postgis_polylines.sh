#!/usr/bin/env bash
# Lines of PostGIS to a stream by ST_AsEncodedPolyline, and back by ST_LineFromEncodedPolyline, with all other columns.
source "$(dirname "$0")/postgres.bash"
need python3
need_postgis

psql << 'SQL'
CREATE TABLE my_lines (id text PRIMARY KEY, geom geometry(LineString, 4326));
INSERT INTO my_lines VALUES
    ('12', 'SRID=4326;LINESTRING(7.44781 46.94797, 7.44432 46.94758, 7.44107 46.9469, 7.4391 46.94886)'),
    ('14', NULL),
    ('N3, at night', 'SRID=4326;LINESTRING(7.44107 46.9469, 7.4411 46.94675, 7.44018 46.94643)');
SQL

psql -c "COPY (SELECT id, ST_AsEncodedPolyline(geom, 5) AS polyline FROM my_lines WHERE geom IS NOT NULL ORDER BY id)
    TO STDOUT (FORMAT csv, HEADER)" > my.csv
python3 $RECIPES/column_to_table.py polyline 5 my.rest < my.csv > my.table
polytwkb pack < my.table > my.twkb

polytwkb unpack < my.twkb | python3 $RECIPES/table_to_column.py polyline my.rest > again.csv
psql -c 'CREATE TABLE my_polylines (id text, polyline text)'
psql -c 'COPY my_polylines FROM STDIN (FORMAT csv, HEADER)' < again.csv
psql -c 'CREATE TABLE again AS SELECT id, ST_LineFromEncodedPolyline(polyline, 5) AS geom FROM my_polylines'

cmp - my.csv << 'END'
id,polyline
12,yop}Gysml@lAxTfChSgKhK
"N3, at night",cip}Guill@\E~@vD
END
cmp again.csv my.csv
polytwkb show < my.twkb | cmp - <(printf '0 %s\n' '0 linestring 5 03 33 4' '33 linestring 5 03 26 3')
psql -At -c 'SELECT id, ST_AsEWKT(geom) FROM again ORDER BY id'
differ=$(psql -At -c "SELECT count(*) FROM my_lines FULL JOIN again USING (id)
    WHERE ST_AsEWKT(my_lines.geom, 5) IS DISTINCT FROM ST_AsEWKT(again.geom, 5)")
[ "$differ" = 0 ]
