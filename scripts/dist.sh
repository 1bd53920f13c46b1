#!/usr/bin/env bash
# Packs the files of `make install` into an archive and a package for Debian, the package for Python into a wheel, and
# that for JavaScript into an archive of npm, with their sums, for users without the kit. The extensions of databases that
# `make databases` and `make gdal` built become packages for Debian, of this machine's processor alone:
#
#   scripts/dist.sh FOLDER            of this machine's processor
#   scripts/dist.sh FOLDER arm64      of what `make arm64` built
#
# The archive has the program with the C library in it, which runs on any Linux of its processor; the package has
# the one that asks for the system's.
#
# HOMEPAGE, if it is set, is the address of the sources, which each of them then names.
#
# The same build gives the same bytes: names are sorted, and each time is the first of the day of the version in
# CHANGELOG.md, in UTC.
set -euo pipefail
folder=$(realpath -m "$1")
cd "$(dirname "$0")/.."
umask 022
export LC_ALL=C
unset MAKEFLAGS MAKELEVEL
version=$(sed -n 's/^pub const VERSION: &str = "\(.*\)";/\1/p' crates/twkb_convert/src/version.rt)
# the program, the folder of the libraries and of the static program
program=bin/polytwkb built=out
[ "${2:-}" != arm64 ] || { program=out/arm64/polytwkb built=out/arm64; }
# the processor that they were built for: its name for Linux, for Debian and for a reader
case $(readelf -h $program | sed -n 's/^ *Machine: *//p') in
  *X86-64) machine=x86_64 debian=amd64 processor=x86-64 ;;
  AArch64) machine=aarch64 debian=arm64 processor="64-bit ARM" ;;
  *)
    echo "dist.sh: $program is of an unknown processor" >&2
    exit 1
    ;;
esac
day=$(sed -n "s/^## .*$version (\(.*\))$/\1/p" CHANGELOG.md | head -n 1)
# of a version that is not released yet, the day of the last commit
[ -n "$day" ] || day=$(git log -1 --format=%cs)
SOURCE_DATE_EPOCH=${SOURCE_DATE_EPOCH:-$(date -u -d "$day" +%s)}
export SOURCE_DATE_EPOCH
# newest FILE..: the newest version of the C library whose symbols these files use
newest() { grep -aoh 'GLIBC_[0-9.]*' "$@" | sort -Vu | tail -n 1 | cut -d _ -f 2; }
libc=$(newest $program $built/libpolytwkb.so)
library_libc=$(newest $built/libpolytwkb.so)
name=polytwkb-$version-$machine-linux
work=$(mktemp -d)
trap 'rm -rf "$work"' EXIT

# a line that names the address of the sources is left out if there is none
address=/@HOMEPAGE@/d
[ -z "${HOMEPAGE:-}" ] || address="s|@HOMEPAGE@|$HOMEPAGE|"
filled() {
  sed -e "s|@VERSION@|$version|" -e "s|@MACHINE@|$machine|" -e "s|@DEBIAN@|$debian|" -e "s|@PROCESSOR@|$processor|" \
    -e "s|@LIBC@|$libc|" -e "s|@LIBRARY_LIBC@|$library_libc|" -e "s|@SIZE@|${size:-}|" -e "s|@MAJOR@|${major:-}|" -e "$address" "$1"
}
packed() { # FOLDER NAME FILE: an archive, the same for the same files
  tar -c -C "$1" --sort=name --format=gnu --mtime="@$SOURCE_DATE_EPOCH" --owner=0 --group=0 --numeric-owner "$2" |
    gzip -9n > "$3"
}
dated() { find "$1" -exec touch -h -d "@$SOURCE_DATE_EPOCH" {} +; }

archive() {
  local tree=$work/$name
  make -s install PROGRAM=$built/static/polytwkb LIBRARIES=$built DESTDIR="$work" PREFIX="/$name"
  # it may be unpacked anywhere
  sed -i -e "s|^prefix=.*|prefix=\${pcfiledir}/../..|" -e "s|=/$name/|=\${prefix}/|" "$tree/lib/pkgconfig/polytwkb.pc"
  filled packaging/README.in > "$tree/README"
  packed "$work" "$name" "$folder/$name.tar.gz"
}

# the files that package.json names, as npm would pack them; the licence is that of the sources
npm_archive() {
  local tree=$work/npm/package file
  local named='import json; print(*json.load(open("js/package.json"))["files"], sep="\n")'
  mkdir -p "$tree"
  for file in package.json $(python3 -c "$named"); do
    if [ -e "js/$file" ]; then cp -r "js/$file" "$tree"; else cp "$file" "$tree"; fi
  done
  packed "$work/npm" package "$folder/polytwkb-$version.tgz"
}

changelog() { # PACKAGE
  printf '%s (%s) unstable; urgency=medium\n\n  * Changes are listed in the CHANGELOG.md of the sources.\n\n' "$1" "$version"
  printf ' -- %s  %s\n' "$(sed -n 's/^Maintainer: //p' packaging/control.in)" "$(date -u -R -d "@$SOURCE_DATE_EPOCH")"
}

# the line that the linker needs for the shared library, if its name has a version
shlibs() {
  local soname
  soname=$(readelf -d $built/libpolytwkb.so | sed -n 's/.*Library soname: \[\(.*\)\]$/\1/p')
  [[ $soname != *.so.* ]] || echo "${soname%%.so.*} ${soname#*.so.} polytwkb (>= $version)"
}

# debian_package TREE NAME CONTROL: packs a tree, with its control file, a list of changes and sums.
debian_package() {
  local tree=$1 name=$2 control=$3 size
  local documents=$tree/usr/share/doc/$name
  changelog "$name" | gzip -9n | install -D -m 644 /dev/stdin "$documents/changelog.gz"
  size=$(find "$tree" -path "$tree/DEBIAN" -prune -o -type f -printf '%s\n' | awk '{ size += int(($1 + 1023) / 1024) } END { print size }')
  mkdir -p "$tree/DEBIAN"
  filled "$control" > "$tree/DEBIAN/control"
  (cd "$tree" && find usr -type f -print0 | sort -z | xargs -0 md5sum) > "$tree/DEBIAN/md5sums"
  dated "$tree"
  dpkg-deb --root-owner-group -Zxz --build "$tree" "$folder/${name}_${version}_$debian.deb" > /dev/null
}

package() {
  local tree=$work/package
  local documents=$tree/usr/share/doc/polytwkb
  make -s install PROGRAM=$program LIBRARIES=$built DESTDIR="$tree" PREFIX=/usr LIBDIR="/usr/lib/$machine-linux-gnu" ZSHDIR=/usr/share/zsh/vendor-completions
  find "$tree/usr/lib" -type f -exec chmod 644 {} +
  gzip -9n "$tree/usr/share/man/man1/polytwkb.1"
  mv "$documents/LICENSE" "$documents/copyright"
  install -D -m 644 packaging/lintian-overrides "$tree/usr/share/lintian/overrides/polytwkb"
  mkdir "$tree/DEBIAN"
  shlibs > "$tree/DEBIAN/shlibs"
  [ -s "$tree/DEBIAN/shlibs" ] || rm "$tree/DEBIAN/shlibs"
  echo "activate-noawait ldconfig" > "$tree/DEBIAN/triggers"
  debian_package "$tree" polytwkb packaging/control.in
}

# extension FOLDER PACKAGE CONTROL README LIBRARY [FILE..]: the package of an extension, whose library goes below FOLDER, and
# whose other files go where CREATE EXTENSION looks for them. The library is stripped.
extension() {
  local place=$1 name=$2 control=$3 page=$4 library=$5 tree=$work/$2
  shift 5
  libc=$(newest "$library")
  install -D -m 644 "$library" "$tree/$place/$(basename "$library")"
  strip --strip-unneeded "$tree/$place/$(basename "$library")"
  [ $# -eq 0 ] || install -D -m 644 -t "$tree/usr/share/postgresql/$major/extension" "$@"
  install -D -m 644 LICENSE "$tree/usr/share/doc/$name/copyright"
  sed -E 's!\[([^]]*)\]\(\.\./[^)]*\)!\1!g' "$page" | install -D -m 644 /dev/stdin "$tree/usr/share/doc/$name/README.md"
  debian_package "$tree" "$name" "$control"
}

extensions() {
  local major='' made
  install -D -m 644 packaging/sqlite.lintian-overrides "$work/polytwkb-sqlite/usr/share/lintian/overrides/polytwkb-sqlite"
  [ ! -e out/mod_polytwkb.so ] ||
    extension usr/lib/$machine-linux-gnu polytwkb-sqlite packaging/sqlite.control.in extensions/sqlite/README.md out/mod_polytwkb.so
  for made in out/postgresql/*; do
    major=${made##*/}
    [ ! -e "$made/polytwkb.so" ] ||
      extension "usr/lib/postgresql/$major/lib" "postgresql-$major-polytwkb" packaging/postgresql.control.in extensions/postgresql/README.md \
        "$made"/polytwkb{.so,.control,--*.sql}
  done
  # GDAL looks into the folder of its own version, if there is one, and then no longer into this one
  for made in out/gdal/*/ogr_TWKB.so; do
    [ -e "$made" ] || continue
    major=$(readelf -d "$made" | sed -n 's/.*\[libgdal\.so\.\([0-9]*\)\]$/\1/p')
    extension "usr/lib/$machine-linux-gnu/gdalplugins" polytwkb-gdal packaging/gdal.control.in extensions/gdal/README.md "$made"
  done
}

mkdir -p "$folder"
rm -f "$folder"/polytwkb-*-"$machine"-linux.tar.gz "$folder"/polytwkb_*_"$debian".deb "$folder"/*-polytwkb_*_"$debian".deb "$folder"/polytwkb-{sqlite,gdal}_*_"$debian".deb "$folder"/polytwkb-*_"$machine".whl "$folder/SHA256SUMS"
archive
package
scripts/wheel.py "$folder" $built/libpolytwkb.so > /dev/null
# one for all processors, and those that are built for this one alone
[ "${2:-}" = arm64 ] || {
  npm_archive
  extensions
}
(cd "$folder" && find . -type f | sed 's|^\./||' | sort | xargs sha256sum > "$work/sums" && mv "$work/sums" SHA256SUMS)
cat "$folder/SHA256SUMS"
