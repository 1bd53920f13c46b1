#!/usr/bin/env bash
# The short round: one proof of each crate, the stored run of the command, the tests and `vector_runner` run without a
# proof, and the smoke test of the program. Mutants and the proofs of test crates are left to `make test`.
# The proofs are those of `rt ci`, over a copy without mutants. If the kit keeps what has passed, neither
# round proves again what the other has proved on this machine.
set -euo pipefail
cd "$(dirname "$0")/.."
# shellcheck source=scripts/proofs.bash
source scripts/proofs.bash

work=$(mktemp -d)
trap 'cleared "$work"' EXIT
mapfile -t tests < <(grep -rl --include='*.rt' '#\[test\]' crates/*/src | cut -d/ -f2 | sort -u)
mapfile -t proved < <(grep '^[a-z]' crates.txt | names_of | grep -vxF "$(printf '%s\n' "${tests[@]}" vector_runner)")

run_vectors() {
  (cd crates/vector_runner && rt try < stdin > "$work/vectors.out") && diff -u crates/vector_runner/stdout "$work/vectors.out" && echo "tests: vectors as stored"
}

# run_tests: runs the tests on processors that the proofs leave free.
run_tests() {
  local name
  renice -n 19 "$BASHPID" > /dev/null
  for name in "${tests[@]}"; do
    (cd "crates/$name" && rt try --test) || return 1
  done
  run_vectors
}

run_tests > "$work/tests.log" 2>&1 &
tests_run=$!
copy_crates "$work/copy" "${proved[@]}"
prove "$work/copy" || {
  echo "check: a proof or a stored run failed"
  exit 1
}
grep '^rt: ok' "$work/copy.log"
wait $tests_run || {
  cat "$work/tests.log"
  echo "check: a test failed"
  exit 1
}
grep '^tests: ' "$work/tests.log"
python3 tests/vectors/make.py --check
install -D "$work/copy/crates/polytwkb/out/polytwkb" bin/polytwkb
MEGABYTES=${MEGABYTES:-20} scripts/smoke.sh
echo "check: passed"
