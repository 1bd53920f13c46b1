#!/usr/bin/env bash
# Geometries of PostGIS to one blob with their ids in it, and back with the ids as keys.
source "$(dirname "$0")/postgres.bash"
need python3
need_postgis

psql << 'SQL'
CREATE TABLE my_table (id bigint PRIMARY KEY, geom geometry);
INSERT INTO my_table VALUES
    (101, 'SRID=4326;POINT(7.44781 46.94797)'),
    (102, NULL),
    (103, 'SRID=4326;LINESTRING(7.44781 46.94797, 7.44432 46.94758, 7.44107 46.9469, 7.4391 46.94886)'),
    (104, 'SRID=4326;MULTIPOINT((0 0), (1 1))');
SQL

psql -c "COPY (SELECT 'all', ST_AsTWKB(array_agg(ST_Force2D(geom) ORDER BY id), array_agg(id ORDER BY id),
    5, 0, 0, true, true)
    FROM my_table WHERE geom IS NOT NULL) TO STDOUT (FORMAT binary)" |
  python3 $RECIPES/copy_to_stream.py all.keys > all.twkb
polytwkb unpack < all.twkb > all.csv
cmp - all.csv << 'END'
depth,kind,id,precision,polyline
0,collection,,5,
1,point,101,5,yop}Gysml@
1,linestring,103,5,yop}Gysml@lAxTfChSgKhK
1,multipoint,104,5,
2,point,,,??
2,point,,,_ibE_ibE
END

awk -F, -v OFS=, 'NR == 1 { print; next } $1 == 0 { precision = $4; next }
    $1 == 1 { print $3 > "my.keys"; $3 = ""; if ($4 == "") $4 = precision }
    { $1--; print }' all.csv | polytwkb pack > my.twkb
psql -c 'CREATE TABLE my_blobs (key text, twkb bytea)'
python3 $RECIPES/stream_to_copy.py my.twkb my.keys | psql -c 'COPY my_blobs FROM STDIN (FORMAT binary)'
psql -At -c 'SELECT key::bigint, ST_AsText(ST_GeomFromTWKB(twkb)) FROM my_blobs'

differ=$(psql -At -c "SELECT count(*) FROM (SELECT * FROM my_table WHERE geom IS NOT NULL) AS before
    FULL JOIN my_blobs ON before.id = key::bigint
    WHERE ST_AsText(before.geom, 5) IS DISTINCT FROM ST_AsText(ST_GeomFromTWKB(twkb), 5)")
[ "$differ" = 0 ]
