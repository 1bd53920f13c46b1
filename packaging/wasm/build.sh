#!/usr/bin/env bash
# Makes the module of WebAssembly of the LLVM module that the kit's compiler hands to clang for crates/twkb_c:
#
#   packaging/wasm/build.sh MODULE.bc FOLDER [all]
#
# writes FOLDER/polytwkb.wasm, and with all the other forms that tests use: checked.wasm, which traps if an address is
# cut, plain.wasm without SIMD, wide.wasm with a memory of 64 bits, and heap.wasm, which exports the heap too. Needs
# python3 and the kit's clang. The same sources give the same bytes.
set -euo pipefail
here=$(cd "$(dirname "$0")" && pwd)
kit=$(dirname "$(rt doc)")
module=$(realpath "$1")
folder=$(realpath -m "$2")
stack=131072
# the calls of memory in heap.c, and all functions of calls.c, degrees.c and lines.c
exports="buffers kept $(sed -n 's/^u32 \([a-z_]*\)(.*/\1/p' "$here"/{calls,degrees,lines}.c | tr '\n' ' ')"
heap="rattle_alloc rattle_realloc rattle_dealloc"
work=$(mktemp -d)
trap 'rm -rf "$work"' EXIT
export PYTHONDONTWRITEBYTECODE=1

# The kit's clang is its linker too, by another name.
for name in clang wasm-ld; do ln -s "$kit/toolchain/bin/clang" "$work/$name"; done

compiled() { # OBJECT NAME FLAG..: the C of this folder
  local object=$1 name=$2
  shift 2
  "$work/clang" --target=wasm64-unknown-unknown -std=c11 -O2 -Wall -Wextra -Werror -ffreestanding -fno-builtin-memcpy \
    -mbulk-memory -msign-ext -mmutable-globals -mnontrapping-fptoint "$@" -c "$here/$name.c" -o "$object"
}

linked() { # OBJECTS FILE EXPORT..
  local objects=$1 file=$2
  shift 2
  # shellcheck disable=SC2086 # names of files
  "$work/wasm-ld" -mwasm64 --no-entry --stack-first -z stack-size=$stack --fatal-warnings --strip-all \
    "${@/#/--export=}" $objects heap.o calls.o lines.o -o "$file"
}

retargeted() { # OBJECT OPTION..
  local object=$1
  shift
  python3 "$here/retarget.py" "$work/module.ll" "$@" > "$object.ll"
  "$work/clang" --target=wasm64-unknown-unknown -O3 -x ir "$object.ll" -c -o "$object"
}

cd "$work"
"$work/clang" --target=x86_64-unknown-linux-gnu -x ir "$module" -S -emit-llvm -Xclang -disable-llvm-passes -o module.ll
compiled heap.o heap
compiled calls.o calls
compiled lines.o lines
compiled degrees.o degrees -msimd128
retargeted library.o
# shellcheck disable=SC2086 # names of functions
linked "library.o degrees.o" wide.wasm $exports
python3 "$here/circles.py" module.ll
python3 "$here/stack.py" wide.wasm $stack
python3 "$here/lower.py" wide.wasm polytwkb.wasm
made=(polytwkb.wasm)
if [ "${3:-}" = all ]; then
  python3 "$here/lower.py" wide.wasm checked.wasm --check
  # shellcheck disable=SC2086
  linked "library.o degrees.o" heap64.wasm $exports $heap
  python3 "$here/lower.py" heap64.wasm heap.wasm
  compiled plain_degrees.o degrees
  retargeted plain.o --no-simd
  # shellcheck disable=SC2086
  linked "plain.o plain_degrees.o" plain64.wasm $exports
  python3 "$here/lower.py" plain64.wasm plain.wasm
  made+=(checked.wasm heap.wasm plain.wasm wide.wasm)
fi
mkdir -p "$folder"
cp "${made[@]}" "$folder"
