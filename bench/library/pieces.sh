#!/usr/bin/env bash
# Instructions of reading a stream by windows of 64 kB and rooms for 1,000 rows, and by one call, counted by callgrind:
#
#   bench/library/pieces.sh LIBRARY.a [MB]
#
# Status 1 if windows take more than 1.1 times as many, or read other geometries.
set -euo pipefail
library=$(realpath "$1") mb=${2:-4}
cd "$(dirname "$0")"
work=$(mktemp -d)
trap 'rm -rf "$work"' EXIT
cc -std=c11 -O2 -Wall -Wextra -I../../include -Wl,--wrap=malloc,--wrap=realloc,--wrap=free -o "$work/pieces" pieces.c "$library"

# counted MODE: the instructions of the calls, after the line that the program prints.
counted() {
  valgrind --tool=callgrind --toggle-collect="$1" --callgrind-out-file="$work/$1.out" "$work/pieces" "$1" "$mb" 2> /dev/null | tee "$work/$1.line" >&2
  sed -n 's/^totals: //p; s/^summary: //p' "$work/$1.out" | head -n 1
}
once=$(counted once)
windows=$(counted windows)
read_by() { sed 's/.*bytes, \(.*\), the caller.*/\1/' "$work/$1.line"; }
[ "$(read_by once)" = "$(read_by windows)" ] || {
  echo "pieces: other geometries" >&2
  exit 1
}
awk -v once="$once" -v windows="$windows" 'BEGIN {
  printf "%d MB: %.1f million instructions by one call, %.1f by windows, %.3f times as many\n", '"$mb"', once / 1e6, windows / 1e6, windows / once
  exit once == 0 || windows > 1.1 * once
}'
