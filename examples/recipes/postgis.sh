#!/usr/bin/env bash
# Geometries of PostGIS to a stream with their keys beside it, and the stream back into PostGIS, by COPY in binary.
source "$(dirname "$0")/postgres.bash"
need python3
need_postgis

psql << 'SQL'
CREATE TABLE my_table (id bigint PRIMARY KEY, geom geometry);
INSERT INTO my_table VALUES
    (1, 'SRID=4326;POINT(7.44781 46.94797)'),
    (2, NULL),
    (3, 'SRID=4326;LINESTRING(7.44781 46.94797, 7.44432 46.94758, 7.44107 46.9469, 7.4391 46.94886)'),
    (4, 'SRID=4326;POLYGON((0 0, 60 0, 60 40, 0 40, 0 0), (20 10, 20 30, 40 30, 40 10, 20 10))'),
    (10, 'SRID=4326;GEOMETRYCOLLECTION(POINT(2 1), MULTIPOINT((0 0), (1 1)))');
SQL

psql -c "COPY (SELECT id::text AS key, ST_AsTWKB(ST_Force2D(geom), 5, 0, 0, true, true) FROM my_table ORDER BY id)
    TO STDOUT (FORMAT binary)" | python3 $RECIPES/copy_to_stream.py my.keys > my.twkb

polytwkb show < my.twkb > my.headers
cmp - my.headers << 'END'
0 0 point 5 03 19 1
0 19 linestring 5 03 33 4
0 52 polygon 5 03 65 10
0 117 collection 5 03 49 3
1 129 point 5 03 17 1
1 146 multipoint 5 03 20 2
END
polytwkb unpack < my.twkb > my.csv
cmp - my.csv << 'END'
depth,kind,id,precision,polyline
0,point,,5,yop}Gysml@
0,linestring,,5,yop}Gysml@lAxTfChSgKhK
0,polygon,,5,
1,ring,,,???_wemJ_ocsF??~vemJ~ncsF?
1,ring,,,_c`|@_gayB_gayB??_gayB~fayB??~fayB
0,collection,,5,
1,point,,5,_ibE_seK
1,multipoint,,5,
2,point,,,??
2,point,,,_ibE_ibE
END

# What is packed by polytwkb goes back.
polytwkb pack < my.csv > my.twkb
psql -c 'CREATE TABLE my_blobs (key text, twkb bytea)'
python3 $RECIPES/stream_to_copy.py my.twkb my.keys | psql -c 'COPY my_blobs FROM STDIN (FORMAT binary)'
psql -c 'CREATE TABLE again AS
    SELECT key::bigint AS id, ST_SetSRID(ST_GeomFromTWKB(twkb), 4326) AS geom FROM my_blobs'

psql -At -c 'SELECT id, ST_AsEWKT(geom) FROM again ORDER BY id'
differ=$(psql -At -c "SELECT count(*) FROM my_table FULL JOIN again USING (id)
    WHERE ST_AsEWKT(my_table.geom, 5) IS DISTINCT FROM ST_AsEWKT(again.geom, 5)")
[ "$differ" = 0 ]

# The keys are a column of a CSV.
printf 'route_id,polyline,name\n12,yop}Gysml@lAxT,"Bern, Bahnhof"\n14,cip}Guill@\\E,\n' > routes.csv
python3 $RECIPES/column_to_table.py polyline 5 routes.rest < routes.csv | polytwkb pack > routes.twkb
psql -c 'TRUNCATE my_blobs'
python3 $RECIPES/stream_to_copy.py --column route_id routes.twkb routes.rest | psql -c 'COPY my_blobs FROM STDIN (FORMAT binary)'
[ "$(psql -At -c "SELECT string_agg(key, ' ' ORDER BY key::int) FROM my_blobs")" = "12 14" ]

# Keys that are not one for each blob, and a stream that is refused, load no row.
psql -c 'TRUNCATE my_blobs'
tail -n +2 my.keys > fewer.keys
head -c 100 my.twkb > cut.twkb
for input in 'my.twkb fewer.keys' 'cut.twkb my.keys'; do
  if python3 $RECIPES/stream_to_copy.py $input 2>> fault.txt |
    psql -c 'COPY my_blobs FROM STDIN (FORMAT binary)' 2> psql.txt; then
    exit 1
  fi
done
[ "$(psql -At -c 'SELECT count(*) FROM my_blobs')" = 0 ]
cat fault.txt
