#!/usr/bin/env bash
# Sizes and times of a stream beside other formats of GDAL:
#
#   bench/library/gdal.sh [ROUTES [ROUNDS]]
#
# takes ROUTES routes (300,000) of tests/gdal/lines.py, whose seed is 1, at precision 5, without attributes or an index, and
# prints a row for each format, and for WKB and polylines: megabytes of its files, plain and by gzip, and the least of ROUNDS rounds (5;
# with 0 sizes alone), by turns, of seconds of the processor to write from memory and to read. Status 1 if a format has
# other points. Needs what `make gdal` makes.
set -euo pipefail
routes=${1:-300000} rounds=${2:-5}
cd "$(dirname "$0")/../.."
plugin=$(compgen -G 'out/gdal/*/ogr_TWKB.so' | tail -n 1) || {
  echo "gdal: no driver; 'make gdal' makes it" >&2
  exit 2
}
export GDAL_DRIVER_PATH=$PWD/${plugin%/*}
work=$(mktemp -d)
trap 'rm -rf "$work"' EXIT
# shellcheck disable=SC2046 # flags
"${CXX:-c++}" -std=c++17 -O2 -Wall -Wextra $(pkg-config --cflags gdal) -o "$work/gdal" bench/library/gdal.cpp $(pkg-config --libs gdal)
mkdir "$work/WKB" "$work/polylines"
python3 -B tests/gdal/lines.py "$work/given.twkb" "$routes" "$work/WKB/routes.wkb" "$work/polylines/routes.csv"

formats=(TWKB FlatGeobuf GPKG 'ESRI Shapefile' GeoJSON)
declare -A suffix=([TWKB]=twkb [FlatGeobuf]=fgb [GPKG]=gpkg ['ESRI Shapefile']=shp [GeoJSON]=geojson)
declare -A options=([TWKB]=PRECISION=5 [FlatGeobuf]=SPATIAL_INDEX=NO [GPKG]=SPATIAL_INDEX=NO ['ESRI Shapefile']='' [GeoJSON]=COORDINATE_PRECISION=5)
declare -A wrote read

write() {
  mkdir "$work/$1"
  # shellcheck disable=SC2086 # no option is no word
  "$work/gdal" write "$work/given.twkb" "$1" "$work/$1/routes.${suffix[$1]}" ${options[$1]}
}
least() { awk -v a="${1:-1e9}" -v b="$2" 'BEGIN { printf "%.2f", a < b ? a : b }'; }

for ((round = 0; round < (rounds ? rounds : 1); ++round)); do
  for format in "${formats[@]}"; do
    rm -rf "${work:?}/$format"
    wrote[$format]=$(least "${wrote[$format]:-}" "$(write "$format")")
    read[$format]=$(least "${read[$format]:-}" "$("$work/gdal" read "$work/$format/routes.${suffix[$format]}" 2> "$work/$format.points")")
    cmp "$work/TWKB.points" "$work/$format.points"
  done
done
cmp "$work/given.twkb" "$work/TWKB/routes.twkb"

ogrinfo --version
echo "$routes routes, $(cat "$work/TWKB.points")"
megabytes() { wc -c | awk '{ printf "%.1f", $1 / 1e6 }'; }
for format in polylines WKB "${formats[@]}"; do
  row="| $format | $(cat "$work/$format"/* | megabytes) | $(cat "$work/$format"/* | gzip | megabytes) |"
  if [ "$rounds" -gt 0 ] && [ -n "${wrote[$format]:-}" ]; then row+=" ${wrote[$format]} | ${read[$format]} |"; fi
  echo "$row"
done
