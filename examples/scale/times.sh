#!/usr/bin/env bash
# Times conversions in parts on 1, 2 and 4 cores, best of three, beside one run. times.sh [GEOMETRIES]
# Prints lines of the table in docs/PERF.md. Wants a quiet machine; 2,000,000 geometries are a table of some 280 MB.
source "$(dirname "$0")/scratch.bash" polytwkb parallel python3
TIMEFORMAT=%R

# The least of three wall times of a command, in seconds.
best() {
  for _ in 1 2 3; do { time "$@"; } 2>&1; done | sort -n | head -n 1
}
whole_pack() { polytwkb pack < table.csv > whole.twkb; }
whole_unpack() { polytwkb unpack < whole.twkb > whole.csv; }

python3 "$here/make_table.py" "${1:-2000000}" > table.csv
echo "| one run | $(best whole_pack) | $(best whole_unpack) |"
for jobs in 1 2 4; do
  pack=$(best "$here/pack_in_parts.sh" table.csv parts.twkb $jobs)
  cmp whole.twkb parts.twkb
  unpack=$(best "$here/unpack_in_parts.sh" whole.twkb parts.csv $jobs)
  cmp whole.csv parts.csv
  echo "| parts, $jobs at once | $pack | $unpack |"
done
