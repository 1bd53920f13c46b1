#!/usr/bin/env bash
# Proves a crate and those below it, reporting progress, and writes its program, its static library or, of a crate
# of tests, the program of its tests to a file:
#
#   scripts/build.sh CRATE FILE [MODULE]
#
# With MODULE also the LLVM module of the library, which packaging/wasm needs.
set -euo pipefail
# shellcheck source=scripts/proofs.bash
source "$(dirname "$0")/proofs.bash"
crate=$1
file=$(realpath -m "$2")
work=$(mktemp -d)
trap 'cleared "$work"' EXIT

if grep -q "^$crate staticlib:" "$repository/crates.txt"; then
  # shellcheck disable=SC2046 # names of crates
  libraries "$work/copy" $(uses "$crate")
  add_crate "$work/copy" "$crate"
  if [ -n "${3:-}" ]; then
    "$repository/packaging/wasm/keep_module.sh" "$work/toolchain" "$3"
    export KIT_TOOLCHAIN=$work/toolchain
  fi
  over "$work/copy" "$crate" lib
  install -D -m 644 "$work/copy/crates/$crate/out/lib$crate.a" "$file"
else
  copy_crates "$work/copy" "$crate"
  prove "$work/copy"
  [ -e "$repository/crates/$crate/src/main.rt" ] || built=${crate}_tests
  install -D "$work/copy/crates/$crate/out/${built:-$crate}" "$file"
fi
echo "$2 is built"
