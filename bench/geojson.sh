#!/usr/bin/env bash
# Times of GeoJSON out of lines of 6 to 41 points at precision 5, in one run by turns:
#
#   bench/geojson.sh [LINES [ROUNDS [PROGRAM]]]
#
# takes LINES lines (300,000) of tests/gdal/lines.py, whose seed is 1, and prints a row for each way: the least of ROUNDS
# rounds (5) of seconds of the processor, user and system, and megabytes of text. The ways are `unpack --geojson` of PROGRAM
# (bin/polytwkb); the plain program of bench/plain, whose text has to be the same; `ogr2ogr` over the driver of extensions/gdal,
# with five decimals; and PostGIS' ST_AsGeoJSON over a column of geometries, less a statement that only reads the column. A way
# whose tools are missing is skipped, by name.
lines=${1:-300000} rounds=${2:-5} program=${3:-bin/polytwkb}
set -euo pipefail
cd "$(dirname "$0")/.."
out=$PWD/bench/out
mkdir -p "$out"
work=$(mktemp -d)
trap 'rm -rf "$work"' EXIT
program=$(realpath "$program")
ln -s "$program" "$work/polytwkb"
PATH=$work:$PATH # for what the recipes need
python3 -B tests/gdal/lines.py "$work/given.twkb" "$lines" "$work/lines.wkb" "$work/lines.polylines"

declare -A least
names=()

# used NAME COMMAND..: the seconds of the processor that a command takes count for NAME if they are the least.
used() {
  local name=$1
  shift
  /usr/bin/time -f '%U %S' -o "$work/time" "$@" > "$work/text" < "$work/given.twkb"
  keep "$name" "$(awk '{ print $1 + $2 }' "$work/time")"
}

# keep NAME SECONDS: keeps the least.
keep() {
  [ -n "${least[$1]:-}" ] || names+=("$1")
  least[$1]=$(awk -v a="${least[$1]:-1e9}" -v b="$2" 'BEGIN { printf "%.2f", a < b ? a : b }')
}

declare -A size
measure() { size[$1]=$(wc -c < "$work/text" | awk '{ printf "%.1f", $1 / 1e6 }'); }

plain=
if command -v cargo > /dev/null; then
  bench/plain/build.sh "$out/plain"
  plain=$out/plain/release/plain
else
  echo "skipped: plain program (no cargo)"
fi
plugin=$(compgen -G "$PWD/out/gdal/*/ogr_TWKB.so" | tail -n 1 || true)
if [ -z "$plugin" ] || ! command -v ogr2ogr > /dev/null; then
  echo "skipped: ogr2ogr (no ogr2ogr, or no driver; 'make gdal' makes it)"
  plugin=
fi
database=
if [ -f /usr/share/postgresql/15/extension/postgis.control ] || compgen -G '/usr/share/postgresql/*/extension/postgis.control' > /dev/null; then
  database=yes
  # shellcheck disable=SC2034 # for the server
  SERVER_OPTIONS='-c shared_buffers=1GB -c jit=off -c max_parallel_workers_per_gather=0 -c autovacuum=off'
  # shellcheck source=examples/recipes/postgres.bash
  source examples/recipes/postgres.bash
  trap 'as_server pg_ctl -D "$folder/data" -m immediate -w stop > /dev/null; rm -rf "$folder" "$work"' EXIT
  need_postgis
  psql -c 'CREATE TABLE texts (polyline text)'
  psql -c "COPY texts FROM STDIN (FORMAT csv, DELIMITER E'\\x01', QUOTE E'\\x02')" < "$work/lines.polylines"
  psql -c 'CREATE TABLE shapes AS SELECT ST_LineFromEncodedPolyline(polyline, 5) AS geom FROM texts' -c 'VACUUM ANALYZE shapes'
else
  echo "skipped: PostGIS (not installed)"
fi

# seconds STATEMENT: what the server says of the last statement of a session.
seconds() {
  psql -At -c 'SET log_statement_stats = on' -c 'SET client_min_messages = log' -c "$1" 2>&1 |
    sed -n 's/^!\s*\([0-9.]*\) s user, \([0-9.]*\) s system, .*/\1 \2/p' | tail -n 1 | awk '{ print $1 + $2 }'
}

for ((round = 0; round < rounds; round++)); do
  used polytwkb "$program" unpack --geojson
  measure polytwkb
  if [ -n "$plain" ]; then
    mv "$work/text" "$work/ours"
    used plain "$plain" geojson
    measure plain
    cmp "$work/ours" "$work/text"
  fi
  if [ -n "$plugin" ]; then
    rm -f "$work/lines.geojsonl"
    GDAL_DRIVER_PATH=${plugin%/*} used ogr2ogr ogr2ogr -f GeoJSONSeq -lco COORDINATE_PRECISION=5 "$work/lines.geojsonl" "$work/given.twkb"
    size[ogr2ogr]=$(wc -c < "$work/lines.geojsonl" | awk '{ printf "%.1f", $1 / 1e6 }')
  fi
  if [ -n "$database" ]; then
    keep "PostGIS, the column" "$(seconds 'SELECT count(geom) FROM shapes WHERE ST_MemSize(geom) > 0')"
    keep "PostGIS" "$(seconds 'SELECT sum(length(ST_AsGeoJSON(geom, 5))) FROM shapes WHERE ST_MemSize(geom) > 0')"
  fi
done

echo "| Way | seconds | MB of text |"
echo "|---|---|---|"
for name in "${names[@]}"; do echo "| $name | ${least[$name]} | ${size[$name]:-} |"; done
