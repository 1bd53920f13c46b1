#!/usr/bin/env bash
# A column of shapes of GeoPandas to a column of blobs and back.
source "$(dirname "$0")/common.bash"
source "$here/python.bash"
run_with geopandas "$here/geopandas_column.py" > seen.txt
if grep '^skipped' seen.txt; then exit; fi
head -n 5 seen.txt | cmp - <(
  cat << 'END'
station 10 bytes: a10207d6ea5ac48abd04
route 33 bytes: a2031ecce75ace0dc48abd048803049af55a9a8cbd04b9054d8905870189038803
square 32 bytes: a3031df8ee5aa001ec8abd04780105f8ee5aec8abd04a0010000789f01000077
unknown has no shape
back: the same shapes
END
)
tail -n +6 seen.txt
