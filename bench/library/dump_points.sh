#!/usr/bin/env bash
# How long PostGIS takes for all points of blobs: milliseconds, the best of three runs. dump_points.sh < BLOBS, a line of hexadecimal digits each.
lines=$(mktemp)
cat > "$lines"
# shellcheck source=examples/recipes/postgres.bash
source "$(dirname "$0")/../../examples/recipes/postgres.bash"
need_postgis
mv "$lines" blobs.hex
chmod a+r blobs.hex
psql -c 'CREATE TABLE lines (hex text)' -c "\\copy lines FROM 'blobs.hex'" \
  -c "CREATE TABLE blobs AS SELECT decode(hex, 'hex') AS twkb FROM lines" -c 'SET max_parallel_workers_per_gather = 0' > /dev/null
for _ in 1 2 3; do
  psql -c '\timing on' -c 'SELECT sum(ST_X(geom)) FROM (SELECT (ST_DumpPoints(ST_GeomFromTWKB(twkb))).geom FROM blobs) AS points'
done | sed -n 's/^Time: \([0-9.]*\) ms.*/\1/p' | sort -n | head -n 1
