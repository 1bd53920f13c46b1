#!/usr/bin/env bash
# A column of polylines in PostgreSQL to a column of blobs; and rows to a stream by COPY .. TO PROGRAM, and back by
# COPY .. FROM PROGRAM, on the server and on the client.
source "$(dirname "$0")/postgres.bash"
need python3

psql << 'END'
CREATE TABLE my_table (key text PRIMARY KEY, polyline text);
INSERT INTO my_table VALUES ('12', 'yop}Gysml@lAxTfChSgKhK'), ('14', NULL), ('N3, at night', 'cip}Guill@\E~@vD');
END

psql -c 'COPY (SELECT key, polyline FROM my_table ORDER BY key) TO STDOUT (FORMAT csv, HEADER)' |
  polytwkb pack --column polyline --precision 5 --hex > my.csv
psql -c 'CREATE TABLE my_blobs (key text, twkb bytea)'
psql -c 'COPY my_blobs FROM STDIN (FORMAT csv, HEADER)' < my.csv

psql -c 'COPY (SELECT key, twkb FROM my_blobs ORDER BY key) TO STDOUT (FORMAT csv, HEADER)' |
  polytwkb unpack --column twkb --hex > again.csv
cat again.csv

# The same blobs by the scripts of PostGIS, in their binary format.
psql -c 'COPY (SELECT key, twkb FROM my_blobs WHERE twkb IS NOT NULL ORDER BY key) TO STDOUT (FORMAT binary)' |
  python3 $RECIPES/copy_to_stream.py again.keys > again.twkb
psql -c 'CREATE TABLE again (key text, twkb bytea)'
python3 $RECIPES/stream_to_copy.py again.twkb again.keys | psql -c 'COPY again FROM STDIN (FORMAT binary)'
[ "$(psql -At -c 'SELECT count(*) FROM my_blobs JOIN again USING (key) WHERE my_blobs.twkb = again.twkb')" = 2 ]

# Where the server's user may run it.
cp "$(command -v polytwkb)" "$folder/polytwkb"

cat > trip.csv << 'END'
depth,kind,id,precision,polyline
0,multipoint,,5,
1,point,101,,yop}Gysml@
1,point,102,,cip}Guill@
0,polygon,,0,
1,ring,,,???wBoA??vBnA?
1,ring,,,Sg@g@??g@f@??f@
END

# The column n keeps the order of the rows. "precision" is a word of SQL, so it is quoted.
psql << 'END'
CREATE TABLE rows (n bigserial, depth int, kind text, id bigint, "precision" int, polyline text);
CREATE TABLE back (LIKE rows INCLUDING ALL);
\copy rows (depth, kind, id, "precision", polyline) FROM 'trip.csv' WITH (FORMAT csv, HEADER)
END

# On the server, as its user.
psql << END
COPY (SELECT depth, kind, id, "precision", polyline FROM rows ORDER BY n)
    TO PROGRAM '$folder/polytwkb pack > $folder/server.twkb' WITH (FORMAT csv, HEADER);
COPY back (depth, kind, id, "precision", polyline)
    FROM PROGRAM '$folder/polytwkb unpack < $folder/server.twkb' WITH (FORMAT csv, HEADER);
END

# On the client.
psql << 'END'
\copy (SELECT depth, kind, id, "precision", polyline FROM back ORDER BY n) TO PROGRAM 'polytwkb pack > client.twkb' WITH (FORMAT csv, HEADER)
END

polytwkb pack < trip.csv | cmp - server.twkb
cmp server.twkb client.twkb
polytwkb unpack < client.twkb | cmp - trip.csv
echo "server and client: the same $(wc -c < client.twkb) bytes, the same rows back"

# A table that is refused fails the statement; the server's log has the line.
if psql 2> fault.txt << END; then
COPY (SELECT depth, kind, id, 9 AS "precision", polyline FROM rows ORDER BY n)
    TO PROGRAM '$folder/polytwkb pack > $folder/refused.twkb' WITH (FORMAT csv, HEADER);
END
  exit 1
fi
head -n 1 fault.txt | sed "s|$folder|..|g"
grep -h '^polytwkb:' server.log
