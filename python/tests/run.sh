#!/usr/bin/env bash
# Tests of the package over a built library, and with numpy, Shapely and GeoPandas by another Python, if python3 has no numpy:
#
#   python/tests/run.sh LIBRARY
set -euo pipefail
POLYTWKB_LIBRARY=$(realpath "$1")
cd "$(dirname "$0")"
export POLYTWKB_LIBRARY PYTHONPATH=..

has_numpy() { "$1" -c 'import numpy' 2> /dev/null; }

if has_numpy python3 || ! has_numpy /usr/bin/python3; then
  python=python3
  python3 -B -m unittest -q
else
  python=/usr/bin/python3
  ROUNDINGS=${ROUNDINGS:-100000} python3 -B -m unittest -q
  "$python" -B -W ignore -m unittest -q test_rounding test_arrays test_degrees test_writing test_neighbours \
    test_geometries test_packing test_ragged test_walk test_hostile test_columns test_wkb test_wkb_others test_boxes
fi
# Columns once more on the wheel, as it is handed out.
work=$(mktemp -d)
trap 'rm -rf "$work"' EXIT
python3 -m zipfile -e "$(python3 ../../scripts/wheel.py "$work" "$POLYTWKB_LIBRARY")" "$work/site"
env -u POLYTWKB_LIBRARY PYTHONPATH="$work/site" "$python" -B -W ignore -m unittest -q test_columns
# The sources in place, as `pip install -e .` leaves them.
if python3 -c 'import ensurepip, venv' 2> /dev/null; then
  python3 -m venv "$work/env"
  "$work/env/bin/pip" install --quiet --disable-pip-version-check --no-index --no-build-isolation --editable ../..
  env -u POLYTWKB_LIBRARY -u PYTHONPATH "$work/env/bin/polytwkb" --version
else
  echo "skip  the package in place: python3-venv is not there"
fi
for module in numpy pandas shapely geopandas dask osgeo; do
  "$python" -W ignore -c "import $module" 2> /dev/null || echo "skip  the package with $module: python3-$module is not there"
done
