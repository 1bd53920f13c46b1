#!/usr/bin/env bash
# The extensions for SQLite and PostgreSQL: one line for each check, status 1 if one failed.
#
#   scripts/databases_test.sh [CASES [SEED]]
#
# compares CASES random cases (20,000) with the command in each database. Needs bin/polytwkb and what `make databases`
# makes; what is not there is skipped.
# shellcheck source=scripts/checks.bash
source "$(dirname "$0")/checks.bash"
cases=${1:-20000}
seed=${2:-$(date -u +%Y%m%d)}
tests=tests/databases
export PYTHONDONTWRITEBYTECODE=1

# A Python whose sqlite3 loads extensions.
loads() { "$1" -c 'import sqlite3; sqlite3.connect(":memory:").enable_load_extension(True)' 2> /dev/null; }
python=
for one in python3 /usr/bin/python3; do [ -n "$python" ] || ! loads "$one" || python=$one; done

growths() {
  cc -std=gnu11 -O1 -g -Wall -Wextra -Werror -o "$work/growths" $tests/growths.c -lsqlite3 && "$work/growths" out/mod_polytwkb.so
}
# WKB of strangers under the address sanitizer.
hostile_wkb() {
  cc -std=c11 -O1 -g -Wall -Wextra -Werror -Wno-unused-function -fsanitize=address,undefined -fno-sanitize-recover=all \
    -Iinclude -Iextensions/shared -o "$work/hostile_wkb" $tests/hostile_wkb.c out/libpolytwkb.a -lm && "$work/hostile_wkb" "$cases" "$seed"
}
has_sanitizer() { echo 'int main(void) { return 0; }' | cc -fsanitize=address,undefined -x c - -o "$work/sanitized" 2> "$work/none"; }
# Statements of the shell, some of which fail: its output, and then its errors.
under_valgrind() {
  valgrind -q --error-exitcode=9 --leak-check=full --errors-for-leak-kinds=definite sqlite3 < $tests/statements.sql > "$work/output" 2> "$work/errors"
  [ $? -ne 9 ] && cat "$work/output" "$work/errors" | diff $tests/statements.txt - && echo "$(grep -c ';' $tests/statements.sql) statements"
}
in_sqlite() {
  about="SQLite: "
  [ -e out/mod_polytwkb.so ] || {
    skip "libsqlite3-dev is not there"
    return
  }
  if [ -n "$python" ]; then
    told "cases, types and tables" "$python" $tests/in_sqlite.py out/mod_polytwkb.so "$work/cases" "$work/geojson"
    if [ ! -e js/polytwkb.wasm ] || ! is_there node; then
      skip "GeoJSON as in JavaScript: node or js/polytwkb.wasm is not there"
    else
      told "GeoJSON as in JavaScript" node $tests/geojson.mjs "$work/geojson"
    fi
    told "the largest and hostile values" "$python" $tests/hostile.py out/mod_polytwkb.so
  else
    skip "no python3 is there whose sqlite3 loads extensions"
  fi
  if is_there sqlite3; then
    told "digits of a CSV" python3 $tests/digits.py sqlite out/mod_polytwkb.so
  else
    skip "digits of a CSV: sqlite3 is not there"
  fi
  told "each growth refused" growths
  if is_there valgrind && is_there sqlite3; then
    told "memory, by valgrind" under_valgrind
  else
    skip "memory: valgrind or sqlite3 is not there"
  fi
}
in_postgresql() {
  local said status
  compgen -G 'out/postgresql/*/polytwkb.so' > /dev/null || {
    skip "PostgreSQL: postgresql-server-dev is not there"
    return
  }
  said=$($tests/postgresql.sh "$work/cases" 2>&1)
  status=$?
  case $said in
    "skipped: "*) skip "PostgreSQL: ${said#skipped: }" ;;
    *)
      echo "$said"
      [ $status -eq 0 ] || touch "$work/failed"
      ;;
  esac
}

if has_sanitizer; then
  told "hostile WKB" hostile_wkb
else
  skip "hostile WKB: the compiler has no address sanitizer"
fi
told "cases" python3 $tests/cases.py "$work/cases" "$cases" "$seed"
in_sqlite &
in_postgresql
wait
passed_all
