#!/usr/bin/env bash
# Proves and builds the program of main.rt.in, which is no crate of the repository, in a copy that is removed:
#
#   build.sh PROGRAM       where the built program is put
set -euo pipefail
# shellcheck source=scripts/proofs.bash
source "$(dirname "$0")/../../../scripts/proofs.bash"
program=$(realpath -m "$1")
work=$(mktemp -d)
trap 'cleared "$work"' EXIT
uses="twkb_io twkb_geom twkb_blob twkb_table twkb_convert"
# shellcheck disable=SC2086 # names of crates
libraries "$work/copy" $uses
mkdir -p "$work/copy/crates/growths/src"
cp "$repository/tests/hostile/growths/main.rt.in" "$work/copy/crates/growths/src/main.rt"
echo "growths: $uses" >> "$work/copy/crates.txt"
# without a word the program ends with status 2, which says that it was built
status=0
over "$work/copy" growths run < /dev/null || status=$?
if [ "$status" -ne 2 ] || [ ! -x "$work/copy/crates/growths/out/growths" ]; then
  cat "$work/copy.log"
  exit 1
fi
install -D "$work/copy/crates/growths/out/growths" "$program"
