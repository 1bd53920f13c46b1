#!/usr/bin/env bash
# Proves and builds crates for Linux on 64-bit ARM, over the libraries below them:
#
#   packaging/arm64/build.sh FOLDER CRATE..
#
# A program NAME becomes FOLDER/NAME, with NAME.o, what it is linked of; the static library twkb_c becomes
# FOLDER/libpolytwkb.a. FOLDER also gets shims.a. The libraries below are those for x86-64, which hold no machine
# code. Debian's gcc-aarch64-linux-gnu and libc6-dev-arm64-cross are needed.
set -euo pipefail
# shellcheck source=scripts/proofs.bash
source "$(dirname "$0")/../../scripts/proofs.bash"
folder=$(realpath -m "$1")
cross=aarch64-linux-gnu
kit=$(dirname "$(rt doc)")
work=$(mktemp -d)
below=
trap 'cleared "$work"' EXIT
command -v $cross-gcc > /dev/null || {
  echo "$cross-gcc is not there: apt-get install gcc-$cross libc6-dev-arm64-cross" >&2
  exit 1
}

# What rattle and rattle-link read in a folder of tools: the kit's own clang, and Debian's C library of the target.
tools() {
  local tool file found
  mkdir -p "$1/bin" "$1/lib"
  for tool in clang ld.lld llvm-ar; do ln -s "$kit/toolchain/bin/$tool" "$1/bin/$tool"; done
  for file in Scrt1.o crti.o crtn.o crtbeginS.o crtendS.o libgcc.a libc_nonshared.a libc.so.6 libm.so.6 libgcc_s.so.1 ld-linux-aarch64.so.1; do
    found=$($cross-gcc -print-file-name="$file")
    [ -e "$found" ] || {
      echo "$cross-gcc has no $file" >&2
      return 1
    }
    cp -L "$found" "$1/lib/$file"
  done
}

# The functions of C that the built crates call.
shims() {
  local name
  for name in heap args errno; do
    $cross-gcc -std=c11 -O2 -fPIC -Wall -Wextra -Werror -c "$repository/packaging/arm64/shims/$name.c" -o "$work/$name.o"
  done
  $cross-ar rcsD "$work/shims.a" "$work"/{heap,args,errno}.o
}

# proved CRATE VERB: proves and builds a crate for the target, over the libraries in $work/copy.
proved() {
  add_crate "$work/copy" "$1"
  over "$work/copy" "$1" "$2"
  grep -q "^logic=proved .* target=$KIT_TARGET " "$work/copy.log" || {
    cat "$work/copy.log"
    echo "$1 is not proved for $KIT_TARGET" >&2
    return 1
  }
}

# library CRATE: what the Makefile makes of the static library, with the other compiler.
library() {
  proved "$1" lib
  mkdir -p "$work/objects"
  (cd "$work/objects" && $cross-ar x "$work/copy/crates/$1/out/lib$1.a")
  rm -f "$folder/libpolytwkb.a"
  $cross-ar rcsD "$folder/libpolytwkb.a" "$work"/objects/*.o "$work/heap.o"
}

program() {
  proved "$1" run
  install -m 644 "$work/copy/crates/$1/out/$1.o" "$folder"
  install "$work/copy/crates/$1/out/$1" "$folder"
}

tools "$work/tools"
shims
mkdir -p "$folder"
# whole at once, since other crates may be built beside these
install -m 644 "$work/shims.a" "$folder/shims.a.$$" && mv "$folder/shims.a.$$" "$folder/shims.a"
# the crates that these use
for crate in "${@:2}"; do below+=" $(uses "$crate")"; done
# shellcheck disable=SC2086 # names of crates
libraries "$work/copy" $below
export KIT_TARGET=aarch64-unknown-linux-gnu KIT_TOOLCHAIN=$work/tools KIT_SHIMS=$work/shims.a
for crate in "${@:2}"; do
  if grep -q "^$crate staticlib:" "$repository/crates.txt"; then library "$crate"; else program "$crate"; fi
  echo "$crate is built for 64-bit ARM"
done
