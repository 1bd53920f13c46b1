#!/usr/bin/env bash
# Converts a table of MEGABYTES (200), and its stream, on a scheduler of Dask and two workers on the
# loopback, and compares with one run: bytes, also if a worker is killed, and status and text of inputs
# that are refused. check_dask.sh [MEGABYTES]
source "$(dirname "$0")/machines.bash"
source "$here/dask.bash"
check_all start_dask "${1:-200}"
