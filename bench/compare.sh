#!/usr/bin/env bash
# Times a part of the workspace against a plain loop over the same data (bench/baseline/; wants rustc):
#
#   compare.sh reading [MB [ROUNDS]]
#                             canonical streams of five kinds of tables (bench/plain; wants cargo too): by a reader of rows, by one of
#                             trees, by a session that is fed whole pieces, by one that is fed byte by byte, by a reader of rows whose
#                             rows are printed, and by `unpack` and `show` whole; the memory of 10,000 sessions in the middle of a line
#   compare.sh rows [MB [ROUNDS]]
#                             the same streams, by a program that reads rows and does nothing else
#   compare.sh stream [MB [ROUNDS]]
#                             the same, by one that reads the whole stream, as `unpack` does
#   compare.sh writing        lines of 1000 points, held already, below 0, 8, 16 and 32 collections: measured and written
#   compare.sh tables [MB [ROUNDS]]
#                             single points, lines of 1000 points, multipolygons, collections 8 deep: by the reader of tables,
#                             and by that of `csv` alone
#
# The program bench/NAME/main.rt.in is no crate of the repository: it is proved and built in a copy, which is removed. Not part
# of the tests.
set -euo pipefail
cd "$(dirname "$0")/.."
name=${1-}
case "$name" in
  reading)
    libraries="twkb_blob twkb_convert twkb_geom twkb_io twkb_table" words="reader" loops="read_loop"
    bench/plain/build.sh bench/out/plain
    ;;
  rows | stream)
    libraries="twkb_blob twkb_geom twkb_io" words="" loops="read_loop" measure=rows
    bench/plain/build.sh bench/out/plain
    ;;
  writing)
    libraries="twkb_points twkb_io twkb_geom twkb_blob"
    words="0 0" loops="read_loop write_loop"
    ;;
  tables) libraries="csv twkb_io twkb_geom twkb_table" words="records" loops="table_loop" ;;
  *)
    echo "compare.sh reading|rows|stream [MB [ROUNDS]], compare.sh writing, or compare.sh tables [MB [ROUNDS]]" >&2
    exit 2
    ;;
esac
copy=$(mktemp -d)
trap 'rm -rf "$copy"' EXIT
cp -a crates crates.txt HANDLES "$copy"
git init --quiet "$copy"
mkdir -p "$copy/crates/$name/src"
cp "bench/$name/main.rt.in" "$copy/crates/$name/src/main.rt"
echo "$name: $libraries" >> "$copy/crates.txt"
# shellcheck disable=SC2086 # the words are words
(cd "$copy/crates/$name" && rt run -- $words < /dev/null > /dev/null)
built=()
for loop in $loops; do
  rustc -O "bench/baseline/$loop.rs" -o "$copy/$loop"
  built+=("$copy/$loop")
done
python3 "bench/measure_${measure:-$name}.py" "$copy/crates/$name/out/$name" "${built[@]}" "$copy" "${@:2}"
