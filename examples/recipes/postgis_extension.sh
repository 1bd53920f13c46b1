#!/usr/bin/env bash
# PostGIS and the extension in one server: geometries to blobs and back, and blobs that PostGIS reads without a word and
# that are not what the standard says.
source "$(dirname "$0")/postgres.bash"
need_postgis
need_polytwkb

psql << 'SQL'
CREATE TABLE my_table (id bigint PRIMARY KEY, geom geometry);
INSERT INTO my_table VALUES
    (1, 'SRID=4326;POINT(7.44781 46.94797)'),
    (2, NULL),
    (3, 'SRID=4326;LINESTRING(7.44781 46.94797, 7.44432 46.94758, 7.44107 46.9469, 7.4391 46.94886)'),
    (4, 'SRID=4326;POLYGON((0 0, 60 0, 60 40, 0 40, 0 0), (20 10, 20 30, 40 30, 40 10, 20 10))'),
    (10, 'SRID=4326;GEOMETRYCOLLECTION(POINT(2 1), MULTIPOINT((0 0), (1 1)))');
SQL

psql -c 'ALTER TABLE my_table ADD COLUMN twkb bytea CHECK (twkb_fault(twkb) IS NULL)'
psql -c 'UPDATE my_table SET twkb = ST_AsTWKB(ST_Force2D(geom), 5)'
psql -At -c 'SELECT my_table.id, r.* FROM my_table, twkb_rows(twkb) AS r ORDER BY 1' > my.rows
cmp - my.rows << 'END'
1|0|point||5|yop}Gysml@
3|0|linestring||5|yop}Gysml@lAxTfChSgKhK
4|0|polygon||5|
4|1|ring|||???_wemJ_ocsF??~vemJ~ncsF?
4|1|ring|||_c`|@_gayB_gayB??_gayB~fayB??~fayB
10|0|collection||5|
10|1|point||5|_ibE_seK
10|1|multipoint||5|
10|2|point|||??
10|2|point|||_ibE_ibE
END

# Back, by the blob and by GeoJSON.
psql -c 'CREATE TABLE again AS SELECT id, ST_SetSRID(ST_GeomFromTWKB(twkb), 4326) AS geom FROM my_table'
psql -c 'CREATE TABLE by_geojson AS SELECT id, ST_GeomFromGeoJSON(twkb_geojson(twkb)) AS geom FROM my_table'
for table in again by_geojson; do
  differ=$(psql -At -c "SELECT count(*) FROM my_table JOIN $table USING (id)
        WHERE ST_AsEWKT(my_table.geom, 5) IS DISTINCT FROM ST_AsEWKT($table.geom, 5)")
  [ "$differ" = 0 ]
done

# The blobs that PostGIS wrote for the tests of the repository, if they are there: each is one blob.
blobs=$here/../../tests/postgis/blobs.jsonl
if [ -e "$blobs" ]; then
  psql -c 'CREATE TABLE written (line jsonb)'
  sed 's/\\/\\\\/g' "$blobs" | psql -c 'COPY written FROM STDIN'
  faults=$(psql -At -c "SELECT count(*) FILTER (WHERE twkb_fault(decode(line->>'hex', 'hex')) IS NOT NULL) || ' of ' || count(*) FROM written")
  [ "$faults" = "0 of 49" ]
fi

# A line from (1, 1) to (5, 5), with a size and a box, and what became of it elsewhere.
psql << 'SQL'
CREATE TABLE blobs (what text, twkb bytea);
INSERT INTO blobs VALUES
    ('a line', '\x020309020802080202020808'),
    ('a wrong size', '\x02031f020802080202020808'),
    ('a size of 0', '\x020300020802080202020808'),
    ('bytes after it', '\x02030902080208020202080800'),
    ('two lines', '\x020309020802080202020808020309020802080202020808'),
    ('a box elsewhere', '\x0203096e0870080202020808');
SQL
psql -At -c 'SELECT what, ST_AsText(ST_GeomFromTWKB(twkb)), twkb_fault(twkb) FROM blobs'

# Boxes are not checked on reading. The blob of its rows has the right one.
psql -At -c "SELECT what FROM blobs WHERE twkb_fault(twkb) IS NULL AND twkb <>
    (SELECT twkb_pack(r.depth, r.kind, r.id, r.precision, r.polyline) FROM twkb_rows(twkb) AS r)"
