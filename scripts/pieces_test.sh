#!/usr/bin/env bash
# pieces_test.sh PROGRAM: examples/c/pieces.c on streams longer than its window, whole and cut, and on a geometry longer
# than its window and its arrays, in little memory.
set -euo pipefail
[ $# -eq 1 ] || {
  sed -n '2,3p' "$0"
  exit 2
}

# A collection of a point and an empty linestring, and a linestring of two points: 18 bytes, worked by hand from TWKB;
# and a linestring of 20,000 points.
stream() {
  python3 -c 'import sys
pair = bytes.fromhex("0704020e01010002020210" "02000202020808")
line = bytes.fromhex("0200a09c01") + bytes(2 * 20000)
sys.stdout.buffer.write((pair * 50000 + line) * 4)'
}

same() {
  [ "$2" = "$3" ] || {
    echo "FAIL  $1: $2, and not $3" >&2
    exit 1
  }
  echo "ok    $1"
}

ulimit -v 100000
all="400004 geometries, 800004 rows, 680000 points"
same "a stream of pieces" "$(stream | "$1")" "$all"
same "a stream that comes byte by byte at first" "$({ stream | head -c 20 && stream | tail -c +21; } | "$1")" "$all"
same "a cut stream" "$(stream | head -c -1 | "$1" 2>&1 || true)" \
  "400003 geometries, 800003 rows, 660000 points
byte 3760019: truncated"
same "no bytes" "$("$1" < /dev/null)" "0 geometries, 0 rows, 0 points"
