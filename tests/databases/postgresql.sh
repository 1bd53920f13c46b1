#!/usr/bin/env bash
# The extension of PostgreSQL in a server of its own: one line for each check, status 1 if one failed.
#
#   tests/databases/postgresql.sh CASES
#
# CASES is a file of cases.py.
cases=$(realpath "$1")
# shellcheck source=scripts/checks.bash
source "$(dirname "$0")/../../scripts/checks.bash"
rm -rf "$work"
tests=$PWD/tests/databases
# shellcheck disable=SC2034 # for the server
SERVER_OPTIONS='-c max_connections=1050 -c shared_buffers=256MB'
# shellcheck source=examples/recipes/postgres.bash
source examples/recipes/postgres.bash
need python3
need_polytwkb
set +e
# shellcheck disable=SC2034 # for the checks
work=$folder about="PostgreSQL: "
value() { psql -At -c "$1"; }

random_cases() { python3 -B "$tests/in_postgresql.py" "$cases"; }
digits() { python3 -B "$tests/digits.py" postgresql; }

# A CHECK, an index over a function, and a transaction that a refusal leaves as it was.
in_tables() {
  local bad
  value "CREATE TABLE kept (b bytea CHECK (twkb_fault(b) IS NULL)); CREATE INDEX ON kept (twkb_polyline(b));
    INSERT INTO kept VALUES ('\\x0102020402'), (NULL), ('\\x021200')" || return 1
  for bad in '\x01020204' '\x010202040200' ''; do
    value "INSERT INTO kept VALUES ('\\x011200'), ('$bad')" 2> refused.txt && return 1
    grep 'violates check constraint "kept_b_check"' refused.txt || return 1
  done
  cat > tables.sql << 'END'
SELECT count(*) FROM kept;
BEGIN;
INSERT INTO kept VALUES (NULL);
SAVEPOINT s;
\set ON_ERROR_STOP 0
SELECT twkb_geojson('\x01');
\set ON_ERROR_STOP 1
ROLLBACK TO s;
COMMIT;
SELECT count(*) FROM kept;
SELECT string_agg(kind || polyline, ' ') FROM kept, twkb_rows(b);
SELECT string_agg(coalesce(p::text, '-'), ' ' ORDER BY p) FROM (
    SELECT twkb_pack(r.depth, r.kind, r.id, r."precision", r.polyline) AS p
    FROM kept LEFT JOIN twkb_rows(b) AS r ON true GROUP BY kept.ctid) AS g;
END
  psql -At -f tables.sql > tables.txt 2> tables.errors
  grep 'polytwkb: byte 1: truncated' tables.errors && diff - tables.txt << 'END'
3
4
pointAC linestring
\x0102020402 \x021200 - -
END
}

# A GiST index over boxes, and the plan of a query that goes through it.
in_index() {
  cat > index.sql << 'END'
CREATE TABLE places AS SELECT i, twkb_from_wkb('\x0000000001' || float8send(i % 50) || float8send(i / 50), 5) AS twkb
    FROM generate_series(0, 9999) AS i;
INSERT INTO places VALUES (10000, '\x011200'), (10001, NULL);
CREATE INDEX places_box ON places USING gist (twkb_box(twkb));
ANALYZE places;
SELECT i FROM places WHERE twkb_box(twkb) && box '((6.5,2),(7.5,3))' ORDER BY i;
EXPLAIN (COSTS OFF) SELECT i FROM places WHERE twkb_box(twkb) && box '((6.5,2),(7.5,3))';
END
  psql -At -f index.sql > index.txt && head -n 2 index.txt | diff - <(printf '107\n157\n') && grep 'Scan.* on places_box\|using places_box' index.txt
}

# The same answers by several workers.
in_parallel() {
  psql -c "CREATE TABLE many AS SELECT twkb_pack('linestring', 5, repeat('AC', i % 50)) AS b FROM generate_series(1, 200000) AS i" -c "ANALYZE many" || return 1
  local statement='SELECT count(twkb_fault(b)), sum(length(twkb_geojson(b))), sum(length(twkb_polyline(b))) FROM many'
  local forced='SET max_parallel_workers_per_gather = 4; SET parallel_setup_cost = 0; SET min_parallel_table_scan_size = 0;'
  value "$forced EXPLAIN $statement" | grep 'Workers Planned' && [ "$(value "$forced $statement")" = "$(value "$statement")" ]
}

# A thousand connections, each with a statement at the same time as the others.
at_once() {
  cat > once.sql << 'END'
SELECT 1 / (count(*) = 100 AND count(twkb_fault(b)) = 0 AND sum(length(twkb_geojson(b))) > 0
    AND min((twkb_pack('linestring', 5, twkb_polyline(b)) = b)::int) = 1)::int FROM (SELECT b FROM many LIMIT 100) AS few;
END
  "$bindir/pgbench" -n -c 1000 -j 4 -t 1 -f once.sql > pgbench.txt 2>&1
  grep 'processed: 1000/1000' pgbench.txt || {
    tail -n 3 pgbench.txt
    return 1
  }
}

# WKB beside that of PostGIS: of the same blobs, of our WKB, and in each of its spellings to the same blob. Left out are
# precisions below 0, as PostGIS divides by a power that is no double; what it refuses, such as a line of one point; parts
# that are empty, as it writes a geometry that has only such parts as one that has none; and rings that it closes.
beside_postgis() {
  cat > postgis.sql << 'END'
CREATE FUNCTION geometry_of(blob bytea) RETURNS geometry LANGUAGE plpgsql AS $$
BEGIN RETURN ST_GeomFromTWKB(blob); EXCEPTION WHEN OTHERS THEN RETURN NULL; END $$;
CREATE FUNCTION geometry_of_wkb(wkb bytea) RETURNS geometry LANGUAGE plpgsql AS $$
BEGIN RETURN ST_GeomFromWKB(wkb); EXCEPTION WHEN OTHERS THEN RETURN NULL; END $$;
CREATE TABLE beside AS SELECT n, value, geometry_of(value) AS geom, geometry_of_wkb(twkb_wkb(value, 'drop')) AS again,
    "precision" AS p FROM vals WHERE twkb_fault(value) IS NULL AND "precision" >= 0;
DELETE FROM beside WHERE geom IS NULL OR ST_NPoints(geom) <> (SELECT points FROM twkb_show(value) LIMIT 1) OR (SELECT count(*) > 1 AND bool_or(CASE
    WHEN polyline IS NULL THEN coalesce(after, 0) <= depth ELSE polyline = '' END)
    FROM (SELECT *, lead(depth) OVER (ORDER BY place) AS after FROM twkb_rows(value)
        WITH ORDINALITY AS r (depth, kind, id, "precision", polyline, place)) AS r);
SELECT count(*) > 100, count(again) > 100 FROM beside;
SELECT n, value FROM beside WHERE twkb_wkb(value, 'drop') <> ST_AsBinary(geom, 'NDR')
    OR twkb_wkb(value, 'drop') <> ST_AsBinary(again, 'NDR');
SELECT n, value FROM beside WHERE EXISTS (SELECT FROM (VALUES (ST_AsBinary(geom, 'XDR')), (ST_AsBinary(geom, 'NDR')),
    (ST_AsEWKB(geom, 'XDR')), (ST_AsEWKB(ST_SetSRID(geom, 4326), 'XDR')), (ST_AsEWKB(ST_SetSRID(geom, 4326), 'NDR'))) AS v (wkb)
    WHERE twkb_wkb(twkb_from_wkb(wkb, p)) IS DISTINCT FROM twkb_wkb(value, 'drop'));
\set ON_ERROR_STOP 0
SELECT twkb_from_wkb(ST_AsEWKB('POINT Z (1 2 3)'::geometry), 5);
SELECT twkb_from_wkb(ST_AsBinary('LINESTRING M (1 2 3, 4 5 6)'::geometry), 5);
SELECT twkb_from_wkb(ST_AsBinary('POINT ZM (1 2 3 4)'::geometry), 5);
SELECT twkb_from_wkb(ST_AsBinary('CIRCULARSTRING (0 0, 1 1, 2 0)'::geometry), 5);
SELECT twkb_from_wkb(ST_AsBinary('MULTIPOINT (1 2, EMPTY)'::geometry), 5);
END
  psql -c 'CREATE EXTENSION postgis' 2> postgis.errors || { echo "PostGIS is not there" && return 0; }
  psql -At -f postgis.sql > postgis.txt 2> postgis.errors
  { cat postgis.txt && sed 's/.*ERROR:  //' postgis.errors; } | diff - <(printf '%s\n' 't|t' 'polytwkb: byte 1: Z coordinates' \
    'polytwkb: byte 1: M coordinates' 'polytwkb: byte 1: Z and M coordinates' 'polytwkb: byte 1: unknown type' \
    'polytwkb: byte 35: empty point in a multipoint')
}

# Who owns a database may create the extension there, and need be no superuser.
by_an_owner() {
  value 'CREATE ROLE owner LOGIN' && value 'CREATE DATABASE own OWNER owner' || return 1
  PGDATABASE=own PGUSER=owner value "CREATE EXTENSION polytwkb; SELECT twkb_fault('\\x0102020402') IS NULL" | grep -x t
}

# A refusal leaves no memory behind: that of the backend after 20,000 of them is that after the first thousand.
no_memory_left() {
  cat > refusals.sql << 'SQL'
CREATE FUNCTION pg_temp.refused(times int) RETURNS bigint LANGUAGE plpgsql AS $$
BEGIN
    FOR i IN 1 .. times LOOP
        BEGIN PERFORM * FROM twkb_rows('\x07070f02000200020e0101020202020212'); EXCEPTION WHEN OTHERS THEN NULL; END;
        BEGIN PERFORM twkb_geojson('\x0102020402ff'); EXCEPTION WHEN OTHERS THEN NULL; END;
        BEGIN
            PERFORM twkb_pack(d, 'linestring', NULL, 5, repeat('AC', 1000)) FROM generate_series(0, 1) AS d;
        EXCEPTION WHEN OTHERS THEN NULL; END;
    END LOOP;
    RETURN (SELECT sum(total_bytes) FROM pg_backend_memory_contexts);
END $$;
SELECT pg_temp.refused(1000) AS before \gset
SELECT pg_temp.refused(20000) - :before < 200000;
SQL
  [ "$(psql -At -f refusals.sql)" = t ]
}

# A statement that is cancelled ends with that, and not with its answer: one of many calls, and calls that take long by
# themselves. Each would take hours.
is_cancelled() {
  local statement
  psql -c "CREATE TABLE large AS SELECT twkb_pack('linestring', 5, repeat('AC', 16000000)) AS b" || return 1
  for statement in 'SELECT count(twkb_fault(b)) FROM many, generate_series(1, 1000000)' \
    'SELECT length(twkb_geojson(b)) FROM large, generate_series(1, 1000000)' \
    'SELECT length(twkb_wkb(twkb_from_wkb(twkb_wkb(b), 5))) FROM large, generate_series(1, 1000000)' \
    'SELECT count(*) FROM large, generate_series(1, 1000000), twkb_rows(b)' \
    'SELECT count(*) FROM many, twkb_rows(b), generate_series(1, 1000000)'; do
    psql -c "SET statement_timeout = 300" -c "$statement" > /dev/null 2> cancelled.txt
    grep 'canceling statement' cancelled.txt || {
      echo "$statement"
      cat cancelled.txt
      return 1
    }
  done
}

# Lengths by hand: 2 bytes, the size, the box, the count, and two bytes a point or one a line. The largest geometry works; one point or row more, and bytes up to a value's length, are refused by name.
largest() {
  cat > largest.sql << 'END'
SET client_min_messages = error;
CREATE TABLE most AS SELECT twkb_pack('linestring', 7, repeat('AC', 16777216)) AS b;
SELECT length(b), twkb_fault(b), length(twkb_polyline(b)) FROM most;
SELECT depth, kind, length(polyline) FROM most, twkb_rows(b);
SELECT level, length, points FROM most, twkb_show(b);
SELECT left(g, 60), right(g, 24) FROM (SELECT twkb_geojson(b) AS g FROM most) AS t;
SELECT twkb_pack('linestring', 7, repeat('AC', 16777217));
SELECT twkb_fault('\x020081808008'::bytea);
SELECT twkb_fault('\x011200'::bytea || decode(repeat('00', 60000000), 'hex'));
SELECT twkb_polyline(decode(repeat('011200', 20000000), 'hex'));
SELECT length(twkb_pack(least(i, 1), CASE i WHEN 0 THEN 'multilinestring' ELSE 'linestring' END, NULL, CASE i WHEN 0 THEN 0 END, ''
    ORDER BY i)) FROM generate_series(0, 1048575) AS i;
SELECT length(twkb_pack(least(i, 1), CASE i WHEN 0 THEN 'multilinestring' ELSE 'linestring' END, NULL, CASE i WHEN 0 THEN 0 END, ''
    ORDER BY i)) FROM generate_series(0, 1148576) AS i;
END
  psql -At -v ON_ERROR_STOP=0 -f largest.sql 2>&1 | sed 's/^psql:[^ ]* //' > largest.txt
  diff - largest.txt << 'END'
33554452||33554432
0|linestring|33554432
0|33554452|16777216
{"type":"LineString","coordinates":[[0.0000002,0.0000001],[0|,[3.3554432,1.6777216]]}
ERROR:  polytwkb: too many points
byte 2: too many points
byte 3: bytes after the blob
ERROR:  polytwkb: byte 3: bytes after the blob
1048583
ERROR:  polytwkb: row 1048577: too many rows in one geometry
END
}

alive() { [ "$(value 'SELECT 1')" = 1 ] && ! grep -E 'terminated by signal|PANIC|TRAP' "$folder/server.log"; }

report "random cases and vectors" random_cases
told "digits of a CSV" digits
report "WKB beside PostGIS" beside_postgis
report "constraints, indexes and transactions" in_tables
report "boxes in a GiST index" in_index
report "created by an owner" by_an_owner
report "several workers" in_parallel
report "1,000 statements at once" at_once
report "refusals leave no memory" no_memory_left
report "cancelled" is_cancelled
report "the largest values" largest
report "no backend ended" alive
passed_all
