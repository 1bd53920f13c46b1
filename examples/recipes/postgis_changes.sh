#!/usr/bin/env bash
# What PostGIS makes of a stream: a table packed by polytwkb, read and written again by PostGIS, and unpacked.
source "$(dirname "$0")/postgres.bash"
need python3
need_postgis

cat > before.csv << 'TABLE'
depth,kind,id,precision,polyline
0,linestring,,0,AC??AA
0,multipoint,,0,
1,point,7,,AC
1,point,8,,GE
0,collection,,5,
1,point,,0,AC
1,linestring,,0,
0,collection,,0,
1,linestring,,0,
TABLE

polytwkb pack < before.csv > before.twkb
psql -c 'CREATE TABLE my_blobs (key text, twkb bytea)'
python3 $RECIPES/stream_to_copy.py before.twkb | psql -c 'COPY my_blobs FROM STDIN (FORMAT binary)'
psql -c "COPY (SELECT key, ST_AsTWKB(ST_GeomFromTWKB(twkb), 0, 0, 0, true, true) FROM my_blobs ORDER BY key::int)
    TO STDOUT (FORMAT binary)" | python3 $RECIPES/copy_to_stream.py after.keys > after.twkb
polytwkb unpack < after.twkb > after.csv
diff before.csv after.csv > changes.txt || true
cat changes.txt
cmp - changes.txt << 'END'
2c2
< 0,linestring,,0,AC??AA
---
> 0,linestring,,0,ACAA
4,6c4,6
< 1,point,7,,AC
< 1,point,8,,GE
< 0,collection,,5,
---
> 1,point,,,AC
> 1,point,,,GE
> 0,collection,,0,
10d9
< 1,linestring,,0,
END
