#!/usr/bin/env bash
# The conversions called from C, with guards round each buffer, and a column of polylines to blobs and back from Python.
source "$(dirname "$0")/common.bash"
need cc python3
[ -e "$here/../c/convert.c" ] || {
  echo "skipped: needs the examples of the sources"
  exit 0
}

# The library of the repository, or an installed one.
built=$here/../../out
if [ -e "$built/libpolytwkb.so" ]; then
  flags=("-I$here/../../include" "$built/libpolytwkb.a")
  shared=$built/libpolytwkb.so
elif pkg-config --exists polytwkb 2> /dev/null; then
  read -r -a flags < <(pkg-config --cflags --libs polytwkb)
  shared=$(pkg-config --variable=libdir polytwkb)/libpolytwkb.so
else
  echo "skipped: needs make lib, or an installed library"
  exit 0
fi
cc -std=c11 -O1 -o convert "$here/../c/convert.c" "${flags[@]}"
./convert
python3 -B "$here/../python/convert.py" "$shared"
