#!/usr/bin/env bash
# Installs the files of dist/ into empty roots, and packs, shows and unpacks there by program and by library: one
# line for each check, status 1 if one failed. As root it also has apt-get install and remove the package on this
# machine, unless a polytwkb is installed or SYSTEM=no.
# shellcheck source=scripts/checks.bash
source "$(dirname "$0")/checks.bash"
# dpkg and chroot need programs that are not on the path of other users in Debian
PATH=$PATH:/usr/local/sbin:/usr/sbin:/sbin
umask 022
export LC_ALL=C DEBIAN_FRONTEND=noninteractive PIP_DISABLE_PIP_VERSION_CHECK=1
unset PYTHONPATH POLYTWKB_LIBRARY
# the files for this machine
machine=x86_64 debian=amd64
archive=$(echo dist/polytwkb-*-"$machine"-linux.tar.gz)
package=$(echo dist/polytwkb_*_"$debian".deb)
wheel=$(echo dist/polytwkb-*"$machine".whl)
installed=
# shellcheck disable=SC2086 # words
trap '[ -z "$installed" ] || dpkg --purge $installed > /dev/null 2>&1; rm -rf "$work"' EXIT

# ---- roots with the C library and nothing else

# inside ROOT PROGRAM WORD..: runs the program of the root, in the root if this user can enter it.
enter=
for way in chroot "unshare -r chroot"; do
  [ -n "$enter" ] || ! $way / true 2> /dev/null || enter=$way
done
inside() { if [ -n "$enter" ]; then $enter "$@"; else "$1$2" "${@:3}"; fi; }
libraries_of() { ldd "$1" | grep -o '/[^ ]*'; }
empty_root() {
  local file
  mkdir -p "$1/tmp"
  libraries_of bin/polytwkb | while read -r file; do install -D "$(realpath "$file")" "$1$file"; done
}

# ---- uses of the installed files

cat > "$work/stops.csv" << 'END'
depth,kind,id,precision,polyline
0,multipoint,,0,
1,point,7,,AC
1,point,8,,GE
END
# worked by hand in docs/USING.md
printf '\004\007\013\004\002\002\006\002\016\020\004\002\002\006' > "$work/stops.twkb"
echo "0 0 multipoint 0 07 14 2" > "$work/stops.txt"

# converts COMMAND..: runs the three commands on the example, and a round trip on a larger one.
converts() {
  # shellcheck disable=SC2094 # read twice
  "$@" pack < "$work/stops.csv" | cmp - "$work/stops.twkb" &&
    "$@" show < "$work/stops.twkb" | cmp - "$work/stops.txt" &&
    "$@" unpack < "$work/stops.twkb" | cmp - "$work/stops.csv" &&
    "$@" pack < examples/collection.csv | "$@" unpack | cmp - examples/collection.csv &&
    [[ $("$@" --version) == polytwkb\ * ]]
}

# flags ROOT PREFIX LIBDIR: the flags for the compiler, from pkg-config if it is installed. An archive may be unpacked
# anywhere, so its file names the folders as they are.
flags() {
  local system=(PKG_CONFIG_ALLOW_SYSTEM_CFLAGS=1 PKG_CONFIG_ALLOW_SYSTEM_LIBS=1 PKG_CONFIG_LIBDIR="$1$3/pkgconfig")
  [ "$2" != /usr ] || system+=("PKG_CONFIG_SYSROOT_DIR=$1")
  is_there pkg-config || {
    echo "-I$1$2/include -L$1$3 -lpolytwkb"
    return
  }
  env "${system[@]}" pkg-config --cflags --libs polytwkb
}

# calls ROOT PREFIX LIBDIR: runs the example in C over the shared and the static library, in the root, and that in
# Python over the shared one.
calls() {
  local words
  read -ra words <<< "$(flags "$@")"
  cc -std=c11 -o "$1/tmp/shared" examples/c/convert.c "${words[@]}" &&
    cc -std=c11 -o "$1/tmp/static" examples/c/convert.c "${words[@]/#-lpolytwkb/-l:libpolytwkb.a}" &&
    LD_LIBRARY_PATH="$([ -n "$enter" ] || echo "$1")$3" inside "$1" /tmp/shared &&
    inside "$1" /tmp/static &&
    python3 -B examples/python/convert.py "$1$3/libpolytwkb.so"
}

# without TEXT COMMAND..: runs a command, which must not print the text; otherwise all that it prints is shown.
without() {
  "${@:2}" > "$work/output" 2>&1 && ! grep "$1" "$work/output" && return
  cat "$work/output"
  return 1
}

# stand_alone DOCUMENTS BIN: the recipes that need nothing but Python, from there; no link of a page leads to nothing.
stand_alone() {
  local recipe
  for recipe in cut_stream stops geojson columns twkb_info; do
    without '^skipped' env PATH="$2:$PATH" "$1/recipes/$recipe.sh" || return 1
  done
  scripts/pages.py "$1"
}

used() { # NAME ROOT PREFIX LIBDIR PROGRAM
  report "$1: packs, shows and unpacks" converts inside "$2" "$3/bin/polytwkb"
  report "$1: so do programs in C and Python over its libraries" calls "$2" "$3" "$4"
  report "$1: the program is the one that was built" cmp "$5" "$2$3/bin/polytwkb"
  report "$1: the manual page" grep -q polytwkb <(zcat -f "$2$3"/share/man/man1/polytwkb.1*)
  report "$1: pages and recipes" stand_alone "$2$3/share/doc/polytwkb" "$2$3/bin"
}

# ---- the checks

sums() { (cd dist && sha256sum -c SHA256SUMS); }
made_again() {
  scripts/dist.sh "$work/again" && { [ ! -e out/arm64/polytwkb ] || scripts/dist.sh "$work/again" arm64; } &&
    cmp dist/SHA256SUMS "$work/again/SHA256SUMS"
}
# the address of the sources in each package, the archive and the wheel, if there is one
addresses() {
  local file metadata='import sys, zipfile; file = zipfile.ZipFile(sys.argv[1])
for name in file.namelist(): print(file.read(name).decode() if name.endswith("/METADATA") else "")'
  for file in "$1"/*_"$debian".deb; do dpkg-deb -f "$file" Homepage; done
  tar -xzOf "$1"/polytwkb-*-"$machine"-linux.tar.gz --wildcards '*/README' | sed -n 's/^Sources: //p'
  python3 -c "$metadata" "$1"/*"$machine".whl | sed -n 's/^Project-URL: Source, //p'
}
addressed() {
  local address=https://example.org/polytwkb files
  HOMEPAGE=$address scripts/dist.sh "$work/addressed" || return 1
  files=("$work"/addressed/*.deb archive wheel)
  diff <(addresses "$work/addressed") <(yes $address | head -n ${#files[@]}) || return 1
  [ -n "${HOMEPAGE:-}" ] || [ -z "$(addresses dist)" ]
}
report "the sums" sums
report "made again, the same bytes" made_again
report "the address of the sources" addressed
[ -n "$enter" ] || skip "roots: this user can't enter one, so what is in them is run from outside"
is_there pkg-config || skip "pkg-config is not there"

unpacked() { empty_root "$1" && mkdir -p "$1/usr/local" && tar -xzf "$archive" -C "$1/usr/local" --strip-components=1; }
# the commands that its README shows: a first one with what it prints, and those that install for all and take away
as_shown() {
  local folder line
  mkdir "$work/shown" && tar -xzf "$archive" -C "$work/shown" && folder=$(echo "$work"/shown/*) || return 1
  line=$(grep '^  printf' "$folder/README")
  diff <(cd "$folder" && eval "$line") <(grep -A 1 '^  printf' "$folder/README" | tail -n 1 | sed 's/^ *//')
}
taken_away() {
  local folder line place=$work/local
  folder=$(echo "$work"/shown/*)
  # what Debian has there, and a file of another
  mkdir -p "$place"/{bin,etc,include,lib,share/man/man1} && touch "$place"/{share/man/man1/other.1,etc/ld.so.conf}
  (cd "$place" && find . | sort) > "$work/before"
  for line in '^  cp -r' '^  find bin'; do
    line=$(grep "$line" "$folder/README" | sed "s|/usr/local|$place|g; s|ldconfig|ldconfig -r $place -X|")
    (cd "$folder" && eval "$line") || true
    [ -e "$place/bin/polytwkb" ] || [[ $line == *find* ]] || return 1
  done
  rm -f "$place/etc/ld.so.cache"
  (cd "$place" && find . | sort) | diff "$work/before" -
}
report "archive: what its README shows" as_shown
report "archive: is installed and taken away as its README shows" taken_away
report "archive: is unpacked" unpacked "$work/archive"
used "archive" "$work/archive" /usr/local /usr/local/lib out/static/polytwkb
# a root with the command and nothing else, no C library and no /dev
alone() {
  install -D "$work/archive/usr/local/bin/polytwkb" "$work/alone/polytwkb" && converts inside "$work/alone" /polytwkb
}
report "archive: the command runs where nothing else is" alone

# in_root ROOT WORD..: dpkg in a root, by fakeroot if this user needs it.
in_root() {
  local fakeroot=()
  [ "$(id -u)" -eq 0 ] || ! is_there fakeroot || fakeroot=(fakeroot)
  "${fakeroot[@]}" dpkg --root="$1" --log=/dev/null --force-not-root "${@:2}"
}
by_dpkg() { # ROOT [PACKAGE]
  empty_root "$1" && mkdir -p "$1"/var/lib/dpkg/{info,updates} && touch "$1/var/lib/dpkg/status" &&
    in_root "$1" --path-include='*' --force-depends --install "${2:-$package}"
}
removed() { in_root "$1" --purge "${2:-polytwkb}" && [ -z "$(find "$1/usr" -name '*polytwkb*')" ]; } # ROOT [PACKAGE]
# no fault, and no override by an old name
lints() { without renamed-tag lintian --pedantic --fail-on error,warning "$1"; }
report "package: is installed" by_dpkg "$work/package"
used "package" "$work/package" /usr /usr/lib/x86_64-linux-gnu bin/polytwkb
report "package: is removed" removed "$work/package"
needing lintian "package: lintian" lints "$package"

# ---- the extensions of databases

sqlite_package=$(echo dist/polytwkb-sqlite_*_"$debian".deb)
postgresql_package=$(echo dist/postgresql-*-polytwkb_*_"$debian".deb)
major=${postgresql_package#dist/postgresql-}
major=${major%%-*}

gdal_package=$(echo dist/polytwkb-gdal_*_"$debian".deb)
in_gdal() {
  printf '\x01\x02\x02\x04\x02' > "$work/point.twkb"
  GDAL_DRIVER_PATH=$1/usr/lib/$machine-linux-gnu/gdalplugins ogrinfo -q -al "$work/point.twkb" | grep 'POINT (2 1)'
}
in_sqlite() {
  local select="SELECT twkb_fault(x'01020204'), * FROM twkb_rows(twkb_pack('point', 0, 'AC'))"
  sqlite3 -cmd ".load $1/usr/lib/$machine-linux-gnu/mod_polytwkb" :memory: "$select" |
    diff - <(echo 'byte 4: truncated|0|point||0|AC')
}
# extension NAME PACKAGE PROGRAM: installs the package of an extension, if the program of its database is there.
extension() {
  if [ ! -e "$2" ] || ! is_there "$3"; then
    skip "$1: $3 is not there, or no package is made"
    return
  fi
  report "$1: is installed" by_dpkg "$work/$1" "$2"
  [ "$1" != SQLite ] || report "$1: is used" in_sqlite "$work/$1"
  [ "$1" != GDAL ] || report "$1: is used" in_gdal "$work/$1"
  report "$1: is removed" removed "$work/$1" "$(dpkg-deb -f "$2" Package)"
  needing lintian "$1: lintian" lints "$2"
}
extension SQLite "$sqlite_package" sqlite3
extension GDAL "$gdal_package" ogrinfo
# apt-get, below, has a server use this one
extension PostgreSQL "$postgresql_package" "/usr/lib/postgresql/$major/bin/postgres"

# Installs the package into a fresh environment, by the line that docs/USING.md and python/README.md show, and uses it
# there outside the repository.
by_pip() {
  local line
  line=$(grep -o 'python3 -m venv env[^`]*' docs/USING.md) && grep -xF "    $line" python/README.md || return 1
  mkdir "$1" && cp "$wheel" "$1" && (cd "$1" && eval "$line")
}
# The same from the sources, over the library that is built.
by_sources() { mkdir "$1" && python3 -m venv "$1/env" && "$1/env/bin/pip" install -q --no-index .; }
in_python() {
  (cd "$1" && env/bin/python - "$work/stops.csv" "$work/stops.twkb") << 'END'
import sys, polytwkb
table, stream = (open(name, "rb").read() for name in sys.argv[1:])
assert polytwkb.__file__.startswith(sys.prefix)
assert polytwkb.pack(table) == stream and polytwkb.unpack(stream).encode() == table
assert polytwkb.encode([(2, 1)]) == "AC" and polytwkb.decode("AC") == [(2, 1)]
END
}
# COMMAND..: what it says of a refused table and of a cut stream, and its status, are those of the program.
refuses() {
  local word
  for word in pack unpack show; do
    cmp <(
      "$@" "$word" < "$work/cut" 2>&1
      echo $?
    ) <(
      bin/polytwkb "$word" < "$work/cut" 2>&1
      echo $?
    ) || return 1
  done
}
head -c 10 "$work/stops.twkb" > "$work/cut"
if python3 -c 'import ensurepip, venv' 2> /dev/null; then
  report "wheel: is installed by pip" by_pip "$work/wheel"
  report "wheel: it packs, unpacks and encodes" in_python "$work/wheel"
  packs="wheel: its command packs, shows and unpacks, as"
  report "$packs polytwkb" converts "$work/wheel/env/bin/polytwkb"
  report "$packs python -m polytwkb" converts "$work/wheel/env/bin/python" -m polytwkb
  report "wheel: its command refuses as the program does" refuses "$work/wheel/env/bin/polytwkb"
  report "sources: are installed by pip" by_sources "$work/sources"
  report "sources: the package packs, unpacks and encodes" in_python "$work/sources"
  report "wheel: is removed" "$work/wheel/env/bin/pip" uninstall -q -y polytwkb
else
  skip "wheel: venv of python3 is not there"
fi

# Installs the archive of npm into an empty folder, and uses the package there as its README shows.
by_npm() {
  local offline=(--offline --no-audit --no-fund --cache "$work/npm")
  mkdir "$1" && (cd "$1" && npm install "${offline[@]}" "$OLDPWD"/dist/polytwkb-*.tgz)
}
in_node() {
  cp js/tests/readme.js "$1/readme.mjs"
  (cd "$1" && node --input-type=module - "$work/stops.csv" "$work/stops.twkb") << 'END'
import assert from 'node:assert/strict';
import { readFileSync } from 'node:fs';
import { load, pack, unpack } from 'polytwkb';
import { faultsOf } from './readme.mjs';
await load();
const [table, stream] = process.argv.slice(2).map(name => readFileSync(name));
assert.deepEqual(Buffer.from(pack(table)), stream);
assert.equal(unpack(stream), table.toString());
const readme = readFileSync('node_modules/polytwkb/README.md', 'utf8');
assert.deepEqual(await faultsOf(readme, import.meta.resolve('polytwkb')), []);
END
}
# The files are those that package.json names.
in_archive() {
  (cd "$1/node_modules/polytwkb" && diff <(find . -mindepth 1 -maxdepth 1 -printf '%f\n' | sort) \
    <(node -p '["package.json", ...require("./package.json").files].join("\n")' | sort))
}
# A program of CommonJS has the package, or reads what to write if its Node loads no modules so.
in_commonjs() {
  local said option=--no-experimental-require-module
  node $option -e 0 2> /dev/null || option=
  # shellcheck disable=SC2086 # no word, or one
  said=$(cd "$1" && node $option -e 'try { require("polytwkb") } catch (fault) { console.log(fault.message) }') &&
    [ "$said" = "polytwkb is an ES module: use import, or await import('polytwkb')" ] &&
    { [ -z $option ] || [ "$(cd "$1" && node -p 'typeof require("polytwkb").load' 2> /dev/null)" = function ]; }
}
# Bundles as esbuild makes them without a flag, which are for browsers, and of other forms.
in_bundles() {
  local form
  cp "$1/node_modules/polytwkb/polytwkb.wasm" "$1"
  cat > "$1/app.mjs" << 'END'
import {load, pack, unpack} from 'polytwkb';
const table = 'depth,kind,id,precision,polyline\n0,point,,0,AC\n';
load('polytwkb.wasm').then(() => console.log(unpack(pack(table)) === table));
END
  echo 'try { require("polytwkb"); } catch (fault) { console.log(fault.message); }' > "$1/app.cjs"
  for form in '' --minify --format=esm --platform=node; do
    # shellcheck disable=SC2086 # no word, or one
    (cd "$1" && esbuild app.mjs --bundle $form --log-level=error --outfile="bundle$form.mjs" &&
      [ "$(node "bundle$form.mjs")" = true ]) || return 1
  done
  (cd "$1" && esbuild app.cjs --bundle --log-level=error --outfile=required.cjs && node required.cjs)
}
if is_there node && is_there npm; then
  report "npm: is installed into an empty folder" by_npm "$work/node"
  report "npm: it has the files that package.json names" in_archive "$work/node"
  report "npm: it packs and unpacks, and does what its README shows" in_node "$work/node"
  report "npm: its command packs, shows and unpacks" converts "$work/node/node_modules/.bin/polytwkb"
  report "npm: its command refuses as the program does" refuses "$work/node/node_modules/.bin/polytwkb"
  report "npm: a program that requires it" in_commonjs "$work/node"
  needing esbuild "npm: bundles by esbuild without a flag" in_bundles "$work/node"
else
  skip "npm: node or npm is not there"
fi

# ---- this machine

apt() { apt-get -y -q -o DPkg::Lock::Timeout=300 "$@"; }
system_calls() {
  local words
  read -ra words <<< "$(pkg-config --cflags --libs polytwkb)"
  cc -std=c11 -o "$work/system" examples/c/convert.c "${words[@]}" && "$work/system"
}
recipe_of_server() { without '^skipped' env NO_OWN_EXTENSION=yes BLOBS=10000 examples/recipes/postgres_extension.sh; }
# by_apt DATABASE PACKAGE USE COMMAND..: installs the package of an extension, uses it and removes it.
by_apt() {
  report "apt-get: installs the extension of $1" apt install "./$2"
  report "apt-get: $3" "${@:4}"
  report "apt-get: removes it" apt purge "$(dpkg-deb -f "$2" Package)"
}
if [ "${SYSTEM:-yes}" = no ]; then
  skip "apt-get: not tried, as SYSTEM=no asks"
elif [ "$(id -u)" -ne 0 ] || ! apt-get -qq check > /dev/null 2>&1; then
  skip "apt-get: needs root, and to work here"
elif dpkg-query -W polytwkb > /dev/null 2>&1 || [ -e /usr/bin/polytwkb ]; then
  skip "apt-get: this machine has a polytwkb"
else
  installed="polytwkb polytwkb-sqlite postgresql-$major-polytwkb"
  report "apt-get: installs" apt install "./$package"
  report "apt-get: it packs, shows and unpacks" converts /usr/bin/polytwkb
  report "apt-get: pages and recipes" stand_alone /usr/share/doc/polytwkb /usr/bin
  is_there pkg-config && report "apt-get: so does a program in C" system_calls
  report "apt-get: removes" apt purge polytwkb
  if [ -e "$sqlite_package" ] && is_there sqlite3; then
    by_apt SQLite "$sqlite_package" "a shell loads it" \
      sqlite3 -bail -cmd '.load mod_polytwkb' :memory: 'SELECT twkb_fault(NULL)'
  fi
  if [ -e "$postgresql_package" ] && dpkg-query -W "postgresql-$major" > /dev/null 2>&1; then
    by_apt PostgreSQL "$postgresql_package" "a server of this machine uses it" recipe_of_server
  fi
  installed=
fi
passed_all
