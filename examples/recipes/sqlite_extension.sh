#!/usr/bin/env bash
# TWKB inside SQLite: routes of a CSV into a column with a CHECK, its rows as a query, and the blobs of these rows again.
source "$(dirname "$0")/common.bash"
need sqlite3
# The extension of the repository, or one that is installed.
export LD_LIBRARY_PATH=$here/../../out${LD_LIBRARY_PATH:+:$LD_LIBRARY_PATH}
sqlite3 -cmd '.load mod_polytwkb' :memory: 'SELECT twkb_fault(NULL)' > /dev/null 2>&1 ||
  {
    echo "skipped: needs the extension mod_polytwkb"
    exit 0
  }

cat > routes.csv << 'END'
route_id,polyline
12,yop}Gysml@lAxTfChSgKhK
"N3, at night",cip}Guill@\E~@vD
14,
END

sqlite3 my.db '.import --csv routes.csv routes'
sqlite3 -cmd '.load mod_polytwkb' my.db 'ALTER TABLE routes ADD COLUMN twkb BLOB CHECK (twkb_fault(twkb) IS NULL)'
sqlite3 -cmd '.load mod_polytwkb' my.db "UPDATE routes SET twkb = twkb_pack('linestring', 5, polyline)"
sqlite3 -cmd '.load mod_polytwkb' my.db 'SELECT route_id, twkb_polyline(twkb), length(twkb) FROM routes'

# A route with its stops.
cat > trip.csv << 'END'
depth,kind,id,precision,polyline
0,collection,,5,
1,linestring,1,5,yop}Gysml@lAxTfChSgKhK
1,multipoint,2,5,
2,point,101,,yop}Gysml@
2,point,102,,cip}Guill@
END
polytwkb pack < trip.csv > trip.twkb
sqlite3 -cmd '.load mod_polytwkb' my.db "INSERT INTO routes VALUES ('trip', NULL, readfile('trip.twkb'))"
sqlite3 -cmd '.load mod_polytwkb' my.db "SELECT r.* FROM routes, twkb_rows(twkb) AS r WHERE route_id = 'trip'" > trip.rows
cmp - trip.rows << 'END'
0|collection||5|
1|linestring|1|5|yop}Gysml@lAxTfChSgKhK
1|multipoint|2|5|
2|point|101||yop}Gysml@
2|point|102||cip}Guill@
END
sqlite3 -cmd '.load mod_polytwkb' my.db "SELECT twkb_geojson(twkb) FROM routes WHERE route_id = 'trip'" > trip.geojson
cmp - trip.geojson << 'END'
{"type":"GeometryCollection","ids":[1,2],"geometries":[{"type":"LineString","coordinates":[[7.44781,46.94797],[7.44432,46.94758],[7.44107,46.9469],[7.4391,46.94886]]},{"type":"MultiPoint","ids":[101,102],"coordinates":[[7.44781,46.94797],[7.44107,46.9469]]}]}
END

# Rows out of all blobs, and in again.
sqlite3 -cmd '.load mod_polytwkb' my.db 'CREATE TABLE my_rows AS
    SELECT route_id, r.rowid AS n, r.* FROM routes, twkb_rows(twkb) AS r'
sqlite3 -cmd '.load mod_polytwkb' my.db 'CREATE TABLE again AS
    SELECT route_id, twkb_pack(depth, kind, id, precision, polyline) AS twkb
    FROM (SELECT * FROM my_rows ORDER BY route_id, n) GROUP BY route_id'
[ "$(sqlite3 my.db 'SELECT count(*) FROM routes JOIN again USING (route_id) WHERE routes.twkb <> again.twkb')" = 0 ]

# What is refused, by the CHECK and by a function.
sqlite3 -cmd '.load mod_polytwkb' my.db 'UPDATE routes SET twkb = substr(twkb, 1, 30)' 2>&1 | tail -n 1 || true
sqlite3 -cmd '.load mod_polytwkb' my.db "SELECT twkb_fault(substr(twkb, 1, 30)) FROM routes WHERE length(twkb) > 30"
[ "$(sqlite3 my.db 'SELECT count(*) FROM again')" = 4 ]
