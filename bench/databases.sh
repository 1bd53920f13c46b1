#!/usr/bin/env bash
# Times of the extension of PostgreSQL beside PostGIS, in one server and one run: a check, rows and the aggregate, over
# points, lines of 27 points and lines of 500.
#
#   bench/databases.sh [BLOBS [ROUNDS]]
#
# takes BLOBS points, as many lines of 27 points, and a tenth as many of 500 (1,000,000), and prints the least of ROUNDS
# rounds (3): seconds of the processor, user and system, of the backend. The last column is how many times as long PostGIS
# takes, both without the statement that only reads the column. Lines repeat after a thousand, so no plan may keep results
# of a function. Needs PostGIS and what `make databases` makes.
blobs=${1:-1000000} rounds=${2:-3}
# shellcheck disable=SC2034 # for the server
SERVER_OPTIONS='-c shared_buffers=2GB -c jit=off -c enable_memoize=off -c max_parallel_workers_per_gather=0 -c autovacuum=off -c work_mem=256MB -c max_wal_size=20GB'
# shellcheck source=examples/recipes/postgres.bash
source "$(dirname "$0")/../examples/recipes/postgres.bash"
need python3
need_postgis
need_polytwkb

# A thousand random walks of so many points, as encoded polylines.
walks() {
  PYTHONPATH=$here python3 -B - "$1" << 'END'
import random, sys
from polylines import text_of_units
count, chance = int(sys.argv[1]), random.Random(27)
for line in range(1000):
    x, y = chance.randint(-18000000, 18000000), chance.randint(-8000000, 8000000)
    numbers = [y, x] + [chance.randint(-400, 400) for _ in range(2 * count - 2)]
    print(f'{line},"{text_of_units(numbers)}"')
END
}

# fill TABLE POINTS BLOBS: a table of blobs, and their geometries, in groups of ten; and the rows of these groups.
fill() {
  psql -c "CREATE TABLE walks_$1 (line int, polyline text)"
  walks "$2" | psql -c "COPY walks_$1 FROM STDIN (FORMAT csv)"
  psql << END
CREATE TABLE $1 AS SELECT i, i / 10 AS g, twkb_pack('$3', 5, polyline) AS b
    FROM generate_series(0, $4 / 1000 - 1) AS s, walks_$1, LATERAL (SELECT s * 1000 + line AS i) AS n ORDER BY i;
CREATE TABLE shapes_$1 AS SELECT i, g, ST_GeomFromTWKB(b) AS geom FROM $1 ORDER BY i;
CREATE TABLE rows_$1 AS
    SELECT g, 0 AS n, 0 AS depth, 'collection' AS kind, NULL::bigint AS id, 5 AS "precision", NULL AS polyline FROM $1 WHERE i % 10 = 0
    UNION ALL SELECT g, 1 + i % 10, 1, r.kind, i, 5, r.polyline FROM $1, twkb_rows(b) AS r ORDER BY g, n;
VACUUM ANALYZE $1, shapes_$1, rows_$1;
END
}

# seconds STATEMENT: the least of the rounds, by what the server says of the last statement of a session.
seconds() {
  for ((round = 0; round < rounds; round++)); do
    psql -At -c 'SET log_statement_stats = on' -c 'SET client_min_messages = log' -c "$1" 2>&1 |
      sed -n 's/^!\s*\([0-9.]*\) s user, \([0-9.]*\) s system, .*/\1 \2/p' | tail -n 1
  done | awk '{ print $1 + $2 }' | sort -n | head -n 1
}

# compare TABLE WHAT BASE OURS THEIRS: a line of the table. Each statement is said without what BASE takes.
compare() {
  local base ours theirs
  base=$(seconds "$3") ours=$(seconds "$4") theirs=$(seconds "$5")
  awk -v table="$1" -v what="$2" -v base="$base" -v ours="$ours" -v theirs="$theirs" 'BEGIN {
    printf "| %s | %s | %.2f | %.2f | %.2f | %.1f |\n", table, what, base, ours, theirs, (theirs - base) / (ours - base) }'
}

echo "| Blobs | Statement | the column alone, s | extension, s | PostGIS, s | times |"
echo "|---|---|---|---|---|---|"
for case in "points 1 point $blobs" "lines 27 linestring $blobs" "long 500 linestring $((blobs / 10))"; do
  # shellcheck disable=SC2086 # words
  set -- $case
  fill "$1" "$2" "$3" "$4"
  name="$4 of $2"
  compare "$name" check "SELECT count(length(b)) FROM $1" "SELECT count(twkb_fault(b)) FROM $1" "SELECT count(ST_GeomFromTWKB(b)) FROM $1"
  compare "$name" rows "SELECT count(length(b)) FROM $1" "SELECT count(polyline) FROM $1, twkb_rows(b)" \
    "SELECT count(geom) FROM $1, ST_DumpPoints(ST_GeomFromTWKB(b))"
  compare "$name" pack "SELECT count(length(polyline)) FROM rows_$1" \
    "SELECT count(twkb_pack('$3', 5, polyline)) FROM rows_$1 WHERE depth = 1" "SELECT count(ST_AsTWKB(geom, 5, 0, 0, true, true)) FROM shapes_$1"
  compare "$name" "aggregate, groups of ten" "SELECT count(c) FROM (SELECT g, count(length(polyline)) AS c FROM rows_$1 GROUP BY g) AS t" \
    "SELECT count(b) FROM (SELECT g, twkb_pack(depth, kind, id, \"precision\", polyline ORDER BY n) AS b FROM rows_$1 GROUP BY g) AS t" \
    "SELECT count(b) FROM (SELECT g, ST_AsTWKB(array_agg(geom ORDER BY i), array_agg(i::bigint ORDER BY i), 5, 0, 0, true, true) AS b FROM shapes_$1 GROUP BY g) AS t"
done
