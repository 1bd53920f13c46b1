#!/usr/bin/env bash
# Lists of (latitude, longitude) in Python to blobs and back, by the package polyline.
source "$(dirname "$0")/common.bash"

for python in python3 /usr/bin/python3; do
  if "$python" -c 'import polyline' 2> /dev/null; then
    "$python" -B "$here/python_polyline.py"
    exit
  fi
done
echo "skipped: needs python3-polyline"
