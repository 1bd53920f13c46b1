#!/usr/bin/env bash
# The library for browsers and Node, and the package that calls it: one line for each check, status 1 if one failed.
#
#   scripts/wasm_test.sh [CASES [SEED]]
#
# compares CASES random calls with the native library (20,000). Needs js/polytwkb.wasm, out/libpolytwkb.bc and
# out/libpolytwkb.so, which `make wasm-test` makes, and node 20.
# shellcheck source=scripts/checks.bash
source "$(dirname "$0")/checks.bash"
cases=${1:-20000}
seed=${2:-$(date -u +%Y%m%d)}
export PYTHONDONTWRITEBYTECODE=1 REPO=$PWD

# Each test of Node's runner as a line.
node_tests() {
  node --test --test-reporter=tap js/tests/*.test.mjs > "$work/tap"
  sed -n -e 's/^ok [0-9]* - /ok    JavaScript: /p' -e 's/^not ok [0-9]* - /FAIL  JavaScript: /p' "$work/tap"
  if ! grep -q '^# fail 0$' "$work/tap" || ! grep -q '^ok ' "$work/tap"; then
    touch "$work/failed"
    grep -v '^ok' "$work/tap" | head -n 200
  fi
}

made_again() {
  packaging/wasm/build.sh out/libpolytwkb.bc "$work" all && cmp js/polytwkb.wasm "$work/polytwkb.wasm" &&
    echo "$(wc -c < js/polytwkb.wasm) bytes, $(gzip -9 < js/polytwkb.wasm | wc -c) compressed"
}
valid() { wasm-validate "$work/polytwkb.wasm" && wasm-validate "$work/plain.wasm"; }
fuzz() {
  # older versions need a flag for a memory of 64 bits, which newer ones refuse
  local wide=--experimental-wasm-memory64
  node $wide -e 0 2> /dev/null || wide=
  python3 js/tests/cases.py out/libpolytwkb.so "$cases" "$seed" > "$work/cases" &&
    node $wide js/tests/differential.mjs "$work/cases" "$work"/{polytwkb,checked,plain,wide}.wasm
}

# Each check of the page and the package in a browser as a line.
in_browser() {
  is_there "$1" || {
    skip "the page in $1: it is not there"
    return
  }
  head -c 4000000 "$work/cases" > "$work/first_cases"
  node js/tests/browser.mjs "$work/first_cases" "$work" "$1" || touch "$work/failed"
}
# The package as a program has it, and a bundle of that program, which finds the module beside it.
bundled() {
  esbuild js/tests/bundled.mjs --bundle --format=esm --outdir="$work/bundle" --loader:.wasm=file \
    --asset-names='[name]' --alias:polytwkb="$PWD/js/polytwkb.js" --alias:polytwkb-module="$PWD/js/polytwkb.wasm" &&
    node "$work/bundle/bundled.js"
}
# The oldest engines that README and declarations name know the syntax: esbuild has nothing to rewrite for them. That they
# know the calls is shown by the types of ES2020, over which `make lint` checks the sources.
engines() {
  local target
  for target in esnext chrome91,firefox89,safari16.4,node20; do
    esbuild js/polytwkb.js --bundle --format=esm --platform=neutral --log-level=error \
      --target="$target" --outfile="$work/engines/$target.js" || return 1
  done
  cmp "$work/engines/"*.js && grep -q 'Node from 20, Chromium and Edge from 91, Firefox from 89 and Safari from 16.4' js/README.md &&
    grep -q 'Chromium and Edge 91, Firefox 89, Safari 16.4, Node 20' js/polytwkb.d.ts
}
typed() { tsc --noEmit --strict --target es2022 --module es2022 --moduleResolution node --lib es2022,dom js/tests/types.ts; }

if ! is_there node || [ "$(node -p 'process.versions.node.split(".")[0]')" -lt 20 ]; then
  skip "JavaScript: node 20 is not there"
  exit 0
fi
told "module: made again, the same bytes" made_again
told "module: the steps that make it" packaging/wasm/steps_test.py
needing wasm-validate "module: wabt takes it" valid
node_tests
told "module and package: random calls as the native library, seed $seed" fuzz
told "memory: the heap beside a model" node js/tests/heap.mjs "$work/heap.wasm"
told "memory: the same with 20 pages" node --wasm-max-mem-pages=20 js/tests/heap.mjs "$work/heap.wasm"
told "memory: each growth refused" node js/tests/growth.mjs js/polytwkb.wasm
told "memory: the package with little" node --wasm-max-mem-pages=3 js/tests/little.mjs "$work/cases"
told "memory: 300 MB" node js/tests/large.mjs 300
told "memory: a stream of 64 MB in pieces" node --expose-gc js/tests/endless.mjs 64
scripts/npx_test.sh || touch "$work/failed"
needing esbuild "bundle: by esbuild" bundled
needing esbuild "engines: the syntax that the package asks for" engines
needing tsc "types: by tsc" typed
in_browser chromium
in_browser firefox-esr
passed_all
