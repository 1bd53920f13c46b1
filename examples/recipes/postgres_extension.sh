#!/usr/bin/env bash
# TWKB inside PostgreSQL: routes of a CSV into a column with a CHECK, its rows as a query, and the blobs of these rows again;
# then the constraint on a table of many blobs, a million unless BLOBS says how many, of which three are bad.
source "$(dirname "$0")/postgres.bash"
need_polytwkb

cat > routes.csv << 'END'
route_id,polyline
12,yop}Gysml@lAxTfChSgKhK
"N3, at night",cip}Guill@\E~@vD
14,""
15,
END

psql -c 'CREATE TABLE routes (route_id text, polyline text)'
psql -c "\\copy routes FROM 'routes.csv' (FORMAT csv, HEADER)"
psql -c 'ALTER TABLE routes ADD COLUMN twkb bytea CHECK (twkb_fault(twkb) IS NULL)'
psql -c "UPDATE routes SET twkb = twkb_pack('linestring', 5, polyline)"
psql -At -c 'SELECT route_id, twkb_polyline(twkb), length(twkb) FROM routes' > packed.rows
cmp - packed.rows << 'END'
12|yop}Gysml@lAxTfChSgKhK|33
N3, at night|cip}Guill@\E~@vD|26
14||3
15||
END

# A route with its stops.
psql << 'SQL'
CREATE TABLE trip (n serial, depth int, kind text, id bigint, "precision" int, polyline text);
INSERT INTO trip (depth, kind, id, "precision", polyline) VALUES
    (0, 'collection', NULL, 5, NULL),
    (1, 'linestring', 1, 5, 'yop}Gysml@lAxTfChSgKhK'),
    (1, 'multipoint', 2, 5, NULL),
    (2, 'point', 101, NULL, 'yop}Gysml@'),
    (2, 'point', 102, NULL, 'cip}Guill@');
SQL
psql -c "INSERT INTO routes (route_id, twkb)
    SELECT 'trip', twkb_pack(depth, kind, id, \"precision\", polyline ORDER BY n) FROM trip"
psql -At -c "SELECT r.* FROM routes, twkb_rows(twkb) AS r WHERE route_id = 'trip'" > trip.rows
cmp - trip.rows << 'END'
0|collection||5|
1|linestring|1|5|yop}Gysml@lAxTfChSgKhK
1|multipoint|2|5|
2|point|101||yop}Gysml@
2|point|102||cip}Guill@
END
psql -At -c "SELECT twkb_geojson(twkb) FROM routes WHERE route_id = 'trip'" > trip.geojson
cmp - trip.geojson << 'END'
{"type":"GeometryCollection","ids":[1,2],"geometries":[{"type":"LineString","coordinates":[[7.44781,46.94797],[7.44432,46.94758],[7.44107,46.9469],[7.4391,46.94886]]},{"type":"MultiPoint","ids":[101,102],"coordinates":[[7.44781,46.94797],[7.44107,46.9469]]}]}
END

# Rows out of all blobs, and in again.
psql -c 'CREATE TABLE my_rows AS
    SELECT route_id, r.* FROM routes, twkb_rows(twkb) WITH ORDINALITY AS r (depth, kind, id, "precision", polyline, n)'
psql -c 'CREATE TABLE again AS
    SELECT route_id, twkb_pack(depth, kind, id, "precision", polyline ORDER BY n) AS twkb FROM my_rows GROUP BY route_id'
[ "$(psql -At -c 'SELECT count(*) FROM routes JOIN again USING (route_id) WHERE routes.twkb <> again.twkb')" = 0 ]

# Many blobs from elsewhere, and the constraint.
psql -q -v blobs="${BLOBS:-1000000}" << 'SQL'
CREATE TABLE blobs AS SELECT i AS id, twkb_pack('linestring', 5, repeat('AC', i % 50)) AS twkb
    FROM generate_series(1, :blobs) AS i;
UPDATE blobs SET twkb = substr(twkb, 1, 10) WHERE id = 1049;
UPDATE blobs SET twkb = twkb || '\x00' WHERE id = 2000;
UPDATE blobs SET twkb = '' WHERE id = 3000;
SQL
psql -c 'ALTER TABLE blobs ADD CONSTRAINT is_twkb CHECK (twkb_fault(twkb) IS NULL)' 2> fault.txt && exit 1
cat fault.txt
psql -At -c 'SELECT id, twkb_fault(twkb) FROM blobs WHERE twkb_fault(twkb) IS NOT NULL ORDER BY id'
psql -c 'DELETE FROM blobs WHERE twkb_fault(twkb) IS NOT NULL'
psql -c 'ALTER TABLE blobs ADD CONSTRAINT is_twkb CHECK (twkb_fault(twkb) IS NULL)'
psql -c "INSERT INTO blobs VALUES (0, '\\x01020204')" 2> fault.txt && exit 1
head -n 1 fault.txt
