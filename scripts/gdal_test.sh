#!/usr/bin/env bash
# The driver for GDAL: one line for each check, status 1 if one failed.
#
#   scripts/gdal_test.sh [INPUTS [SEED]]
#
# runs the cases of tests/gdal, and the driver on INPUTS random files (4,000) under the address sanitizer. Needs what `make
# gdal` makes; what is not there is skipped.
# shellcheck source=scripts/checks.bash
source "$(dirname "$0")/checks.bash"
inputs=${1:-4000}
seed=${2:-$(date -u +%Y%m%d)}
tests=$PWD/tests/gdal
library=$PWD/out/libpolytwkb.a
about="GDAL: "
export PYTHONDONTWRITEBYTECODE=1

plugin=$(compgen -G 'out/gdal/*/ogr_TWKB.so' | tail -n 1)
if [ -z "$plugin" ] || ! pkg-config --exists gdal; then
  skip "the driver: libgdal-dev is not there"
  exit
fi
export GDAL_DRIVER_PATH=$PWD/${plugin%/*} TWKB_BIG=$work/big.twkb TWKB_COUNT=30000
root=$PWD
sources=("$root"/extensions/gdal/*.cpp)

no_symbol_is_shown() {
  nm -D --defined-only --format=just-symbols "$root/$plugin" | grep -v RegisterOGRTWKB | grep -i twkb && return 1
  ldd -r "$root/$plugin" 2>&1 | grep 'undefined symbol' && return 1
  echo "one symbol is shown"
}
# The cases of a file, in a folder of their own. What is skipped is named.
cases() (
  set -o pipefail
  mkdir -p "$work/$1"
  cd "$work/$1" && /usr/bin/python3 -B -W ignore "$tests/cases.py" "$1" 2>&1 | tee "$work/$1.said"
)
under_the_sanitizer() {
  # shellcheck disable=SC2046 # flags
  "${CXX:-c++}" -std=c++17 -O1 -g -Wall -Wextra -Werror -fsanitize=address,undefined -fno-sanitize-recover=all -I"$root/include" \
    $(pkg-config --cflags gdal | sed 's/-I/-isystem /g') -o "$work/fuzz" "$tests/fuzz.cpp" "${sources[@]}" "$library" \
    $(pkg-config --libs gdal) && "$work/fuzz" "$inputs" "$seed"
}
# GDAL and what it loads have findings of their own; none may name the driver.
under_valgrind() (
  mkdir -p "$work/valgrind" && cd "$work/valgrind" || return 1
  printf '\x07\x07\x0f\x02\x00\x02\x00\x02\x0e\x01\x01\x02\x02\x02\x02\x02\x12\x00\xa2\x00\x14' > cut.twkb
  printf 'depth,kind,id,precision,polyline\n0,linestring,,5,_p~iF~ps|U_ulLnnqC_mqNvxq`@\n0,point,,9,\n' > a.table
  local line
  for line in 'ogrinfo -q -al cut.twkb' 'ogrinfo -q -al TWKB_TABLE:a.table' 'ogr2ogr -f TWKB out.twkb cut.twkb'; do
    # shellcheck disable=SC2086 # words
    valgrind --error-exitcode=9 --leak-check=full --errors-for-leak-kinds=none --log-file=said $line > /dev/null 2>&1
    if [ $? -eq 9 ] || grep -q 'twkb::\|ogr_TWKB' said; then
      cat said
      return 1
    fi
  done
  echo "3 programs"
)

python3 -B "$tests/lines.py" "$TWKB_BIG" "$TWKB_COUNT"
told "symbols" no_symbol_is_shown
if ! /usr/bin/python3 -c 'import osgeo.ogr' 2> /dev/null || ! is_there ogr2ogr; then
  skip "cases: python3-gdal or gdal-bin is not there"
else
  for file in reading writing trips tables hostile programs; do
    told "$file" cases $file
    sed -n "s/^skip  /skip  $about/p" "$work/$file.said"
  done
fi
told "random files under the address sanitizer" under_the_sanitizer
if is_there valgrind && is_there ogr2ogr; then
  told "memory, by valgrind" under_valgrind
else
  skip "memory: valgrind or gdal-bin is not there"
fi
passed_all
