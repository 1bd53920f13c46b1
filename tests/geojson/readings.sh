#!/usr/bin/env bash
# What json with Decimal, Shapely, jq, ogr2ogr and PostGIS read in the GeoJSON that the command writes:
#
#   tests/geojson/readings.sh [PROGRAM]
#
# of PROGRAM (bin/polytwkb). A reader that is missing is skipped, by name. Status 1 if a reader finds another geometry.
# shellcheck source=scripts/checks.bash
source "$(dirname "$0")/../../scripts/checks.bash"
program=$(realpath "${1:-bin/polytwkb}")
top=$PWD lines=$work/lines.geojsonl
chmod 755 "$work" && mkdir "$work/bin" && ln -s "$program" "$work/bin/polytwkb"

readings() { python3 -B "$top/tests/geojson/readings.py" "$@"; }

# unless_missing NAME WORD..: reports a reading, or that what it needs is missing, which status 77 says.
unless_missing() {
  readings "${@:2}" > "$work/said" 2>&1
  case $? in
    0) passed "$1" ;;
    77) skip "$1: it is not there" ;;
    *) failed "$1: $(tail -c 700 "$work/said" | tr '\n' '/')" ;;
  esac
}

by_jq() { jq -c . "$lines" > "$work/by_jq" && readings json "$work/by_jq"; }

# SQLite keeps WKB as it is.
by_gdal() {
  ogr2ogr -f SQLite -nlt GEOMETRY -nln lines -lco FORMAT=WKB "$work/by_gdal.sqlite" "GeoJSONSeq:$lines" || return 1
  python3 -B - "$work/by_gdal.sqlite" > "$work/by_gdal" << 'END' && readings wkb "$work/by_gdal"
import sqlite3, sys
for (blob,) in sqlite3.connect(sys.argv[1]).execute('SELECT GEOMETRY FROM lines ORDER BY ogc_fid'):
    print(blob.hex())
END
}

by_postgis() (
  PATH=$work/bin:$PATH
  # shellcheck source=examples/recipes/postgres.bash
  source "$top/examples/recipes/postgres.bash"
  need_postgis
  psql -c 'CREATE TABLE texts (place serial, line text)'
  psql -c "COPY texts (line) FROM STDIN (FORMAT csv, DELIMITER E'\\x01', QUOTE E'\\x02')" < "$lines"
  psql -At -c "SELECT encode(ST_AsBinary(ST_GeomFromGeoJSON(line), 'NDR'), 'hex') FROM texts ORDER BY place" > "$work/by_postgis"
  readings wkb "$work/by_postgis"
)

unless_missing "GeoJSON as json with Decimal reads it" write "$program" "$lines"
unless_missing "a FeatureCollection as json with Decimal reads it" collection "$program" "$work/collection.geojson"
unless_missing "GeoJSON as Shapely reads it" shapely "$lines"
needing jq "GeoJSON as jq reads it" by_jq
needing ogr2ogr "GeoJSON as ogr2ogr reads it" by_gdal
if compgen -G '/usr/share/postgresql/*/extension/postgis.control' > /dev/null; then
  needing psql "GeoJSON as PostGIS reads it" by_postgis
else
  skip "GeoJSON as PostGIS reads it: it is not there"
fi
passed_all
