#!/usr/bin/env bash
# All tests: the gate (`rt ci`), and then the parts below on what it built, side by side. One line reports the
# result of each part, and what it needs that this machine lacks; if a part failed, all its output is shown. The
# last line has the counts of all.
#
# As root, and unless SYSTEM=no, it meanwhile installs the Debian packages that it lacks, and tests the package
# that `make dist` makes.
# shellcheck source=scripts/checks.bash
source "$(dirname "$0")/checks.bash"
# shellcheck source=scripts/kit.bash
source scripts/kit.bash
exec < /dev/null
unset MAKEFLAGS MAKELEVEL
parts="lint smoke completions fuzz library databases gdal machines documents dist hostile arm64 javascript"

# The packages of the tools that the parts need and that are not there. Most have the tool's name; for the others the
# list has a tool or a file, with * for any text. There is no sshd among them, which would let others in.
lacking() {
  local tool package
  for tool in make pkg-config lintian shellcheck shfmt black clang-format pyflakes3 mypy strace valgrind zsh fish sqlite3 jq xxd parallel pv chromium \
    firefox-esr esbuild debootstrap; do
    is_there "$tool" || echo "$tool"
  done
  for package in polyline numpy shapely geopandas distributed; do
    [ -e "/usr/lib/python3/dist-packages/$package" ] || echo "python3-$package"
  done
  while read -r tool package; do
    compgen -G "$tool" > /dev/null || is_there "$tool" || echo "$package"
  done << 'END'
cc gcc
/usr/include/stdio.h libc6-dev
dpkg-deb dpkg
/usr/share/python-wheels python3-venv
/usr/include/sqlite3ext.h libsqlite3-dev
node nodejs
wasm-validate wabt
tsc node-typescript
/usr/share/javascript/leaflet libjs-leaflet
/usr/share/postgresql/*/extension/postgis.control postgresql-postgis
/usr/include/postgresql/15/server/postgres.h postgresql-server-dev-15
ogr2ogr gdal-bin
c++ g++
/usr/include/gdal/gdal.h libgdal-dev
/usr/lib/python3/dist-packages/osgeo/ogr.py python3-gdal
go golang-go
aarch64-linux-gnu-gcc gcc-aarch64-linux-gnu
/usr/aarch64-linux-gnu/include/stdio.h libc6-dev-arm64-cross
qemu-aarch64-static qemu-user-static
END
}

# Each package by itself, so that one that a mirror lacks does not stop the others. The server that PostgreSQL's package
# brings is not started: recipes start one of their own.
install_lacking() {
  local package packages apt=(apt-get -y -q -o DPkg::Lock::Timeout=300 -o Acquire::http::Timeout=20)
  packages=$(lacking)
  if [ -z "$packages" ] || [ "${SYSTEM:-yes}" = no ] || [ "$(id -u)" -ne 0 ] || ! is_there apt-get; then return; fi
  export DEBIAN_FRONTEND=noninteractive
  policy=/usr/sbin/policy-rc.d # not local: the trap outlives the function
  if [ ! -e "$policy" ]; then
    trap 'rm -f "$policy"' EXIT
    install -m 755 /dev/stdin "$policy" <<< $'#!/bin/sh\nexit 101'
  fi
  timeout 120 "${apt[@]}" update
  for package in $packages; do timeout 300 "${apt[@]}" install --no-install-recommends "$package"; done
}

# take_programs: copies what the gate built to where `make` looks for it.
take_programs() {
  local crate
  install -D crates/polytwkb/out/polytwkb bin/polytwkb || return 1
  for crate in tests_blobs tests_conversions; do install "crates/$crate/out/${crate}_tests" "bin/$crate" || return 1; done
}

# gate: runs `rt ci`, and leaves its counts and what it built.
gate() {
  local own counts status
  own=$(compgen -G 'crates/*/out/rlib')
  rt ci 2>&1 | tee "$work/gate.log"
  [ "${PIPESTATUS[0]}" -eq 0 ] && take_programs
  status=$?
  counts=$(tail -n 1 "$work/gate.log" | grep -xE '[0-9]+ passed, [0-9]+ failed') || counts="0 passed, 1 failed"
  [ $status -eq 0 ] || counts=${counts/% 0 failed/ 1 failed}
  echo "$counts" > "$work/gate.counts"
  # Libraries of other runs were there, and are back: those of the gate are gone.
  [ -n "$own" ] || export PROVED=$PWD
  [[ $counts == *" 0 failed" ]]
}

# lacks WHAT TOOL..: reports that this is skipped, if one of the tools is missing.
lacks() {
  local tool
  for tool in "${@:2}"; do is_there "$tool" || {
    skip "$1: $tool is not there"
    return
  }; done
  return 1
}

# made TARGET..: makes targets of a part, which fails if they have no end after an hour.
made() { timeout --kill-after=60 3600 make -s "$@"; }

lint() { scripts/lint.sh; }
smoke() { MEGABYTES=${MEGABYTES:-50} GIGABYTES=${GIGABYTES:-5} scripts/smoke.sh; }
completions() { scripts/completions_test.sh; }
fuzz() {
  lacks "reading in pieces" make cc || {
    made fuzz "${random[@]}"
    return
  }
  tests/fuzz/fuzz.py --cases "$cases" --seed "$seed"
}
hostile() {
  if lacks "calls that fail in turn" make cc; then tests/hostile/sizes.py bin/polytwkb; else made hostile; fi
}
documents() {
  python3 tests/vectors/make.py --check && scripts/docs_test.py || return 1
  tests/recipes/scripts.py && passed "the scripts of the recipes" || return 1
  tests/recipes/installed.sh && passed "the recipes of an archive" || return 1
  tests/geojson/readings.sh
}
machines() {
  local check said
  for check in dask ssh; do
    said=$("examples/scale/check_$check.sh" 20 2>&1)
    case $?$said in
      "0skipped: "*) skip "many machines, $check: ${said#skipped: }" ;;
      0*) passed "many machines, $check" ;;
      *) failed "many machines, $check: $said" ;;
    esac
  done
}
javascript() { lacks JavaScript make cc node || made wasm-test "${random[@]}"; }
databases() { lacks "SQLite and PostgreSQL" make cc || made databases-test "${random[@]}"; }
gdal() { lacks GDAL make cc c++ || made gdal-test; }
dist() { lacks dist make cc dpkg-deb || made dist-test; }
arm64() {
  lacks "64-bit ARM" make cc aarch64-linux-gnu-gcc qemu-aarch64-static && return
  # programs linked with other functions may do anything, so none is run
  packaging/arm64/shims/compare.sh || {
    failed "arm64: the functions of C are not the kit's"
    return 1
  }
  passed "arm64: the functions of C are the kit's"
  made arm64-test
}
library() {
  lacks library make cc && return
  made lib-test || return 1
  passed "the library in C and in Python"
  if is_there go; then passed "the library in Go"; fi
  made python-test || return 1
  passed "the package for Python"
  made fuzz-library "${random[@]}" || return 1
  lacks "memory of the library" valgrind || return 0
}

# part NAME: runs a part, counts the checks that it reports, one a line, or the part as one check, and reports the
# result: one text, written by itself, so that the lines of two parts do not mix.
part() {
  local name=$1 log=$work/$1.log status passed failed skipped told began=$SECONDS
  "$name" > "$log" 2>&1
  status=$?
  passed=$(grep -c '^ok  ' "$log")
  failed=$(grep -c '^FAIL ' "$log")
  skipped=$(grep -c '^skip ' "$log")
  [ "$status" -eq 0 ] || [ "$failed" -gt 0 ] || failed=1
  [ "$passed" -gt 0 ] || [ "$failed" -gt 0 ] || [ "$skipped" -gt 0 ] || passed=1
  told="$name: $passed passed, $failed failed, $skipped skipped ($((SECONDS - began)) s)"
  if [ "$failed" -gt 0 ]; then
    told=$(cat "$log")$'\n'$told
  elif [ "$skipped" -gt 0 ]; then
    told+=$'\n'$(grep '^skip ' "$log")
  fi
  {
    flock 8
    printf '%s\n' "$told"
  } 8> "$work/lock"
  echo "$passed passed, $failed failed" > "$work/$name.counts"
}

# lane NAME..: runs parts one after the other.
lane() { for name in "$@"; do part "$name"; done; }

# programs_for_arm64: makes the command, and then vector_runner, which the tests alone need, and whose proof is long. Who
# needs one of them too waits for its lock, so that it is made once.
programs_for_arm64() {
  mkdir -p out/arm64
  flock out/arm64/command.lock make -s out/arm64/static/polytwkb
  ! is_there qemu-aarch64-static || flock out/arm64/vector_runner.lock make -s out/arm64/vector_runner
}

install_lacking > "$work/install.log" 2>&1 &
gate
status=$?
wait
if [ $status -eq 0 ]; then
  [ -z "$(lacking)" ] || echo "not there: $(lacking | tr '\n' ' ')(see what is skipped below)"
  cases=${CASES:-20000} seed=$(date -u +%Y%m%d)
  random=(CASES="$cases" SEED="$seed")
  echo "fuzz: seed $seed"
  make -s bin/refuse.so > /dev/null 2>&1
  lane smoke completions lint &
  lane fuzz &
  lane hostile &
  # Of what several parts would build at the same time, first what needs nothing of the others.
  if is_there aarch64-linux-gnu-gcc; then programs_for_arm64 > "$work/arm64_programs.log" 2>&1 & fi
  make -s lib static wasm databases gdal > "$work/build.log" 2>&1 || tail -n 20 "$work/build.log"
  lane documents machines library &
  lane javascript databases gdal &
  if is_there aarch64-linux-gnu-gcc; then
    # begins with what was checked for the library of this processor
    mkdir -p out/arm64
    flock out/arm64/command.lock make -s arm64 > "$work/arm64_build.log" 2>&1 || tail -n 20 "$work/arm64_build.log"
  fi
  lane arm64 &
  lane dist &
  wait
  for name in $parts; do [ -e "$work/$name.counts" ] || echo "0 passed, 1 failed" > "$work/$name.counts"; done
else
  echo "the gate failed, so the other parts were not run"
fi
awk '{ passed += $1; failed += $3 } END { print passed + 0 " passed, " failed + 0 " failed"; exit failed > 0 }' \
  "$work"/*.counts
