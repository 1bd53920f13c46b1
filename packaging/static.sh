#!/usr/bin/env bash
# Proves and compiles the program as for `make build`, and links it with the C library in it:
#
#   packaging/static.sh FILE
#
# The system's linker takes the C library's archive, so what is linked is trusted as the shared one is.
set -euo pipefail
# shellcheck source=scripts/proofs.bash
source "$(dirname "$0")/../scripts/proofs.bash"
file=$(realpath -m "$1")
kit=$(dirname "$(rt doc)")
work=$(mktemp -d)
trap 'cleared "$work"' EXIT

# What the gate linked the program of, if it has just built it; else it is built as there, and `object` names it.
object=${PROVED:-/nowhere}/crates/polytwkb/out/polytwkb.o
built() {
  local status=0
  # shellcheck disable=SC2046 # names of crates
  libraries "$work/copy" $(uses polytwkb)
  add_crate "$work/copy" polytwkb
  # without a word the program ends with status 2, which says that it was built
  over "$work/copy" polytwkb run < /dev/null || status=$?
  object=$work/copy/crates/polytwkb/out/polytwkb.o
  { [ "$status" -eq 2 ] && [ -s "$object" ]; } || {
    cat "$work/copy.log"
    exit 1
  }
}

[ -s "$object" ] || built
mkdir -p "$(dirname "$file")"
cc -static-pie -o "$file" "$object" "$kit/c/libos_c.a" "$kit/c/liblibc_c.a"
echo "$1 is built"
