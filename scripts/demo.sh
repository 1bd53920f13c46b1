#!/usr/bin/env bash
# The main job on an example: builds the command, and then runs the first block of commands of README.md with it,
# each line shown before what it prints.
set -euo pipefail
cd "$(dirname "$0")/.."
if [ ! -x bin/polytwkb ]; then
  # shellcheck source=scripts/kit.bash
  source scripts/kit.bash
  echo "Building bin/polytwkb: every function is proved first, which takes 13 minutes on 4 cores; this machine has $(nproc)."
fi
if command -v make > /dev/null; then make --silent build; else scripts/build.sh polytwkb bin/polytwkb; fi

folder=$(mktemp -d)
trap 'rm -rf "$folder"' EXIT
awk '/^```sh$/ { inside = 1; next } /^```$/ && inside { exit } inside' README.md > "$folder/lines.sh"
PATH=$PWD/bin:$PATH
cd "$folder"
bash -ev -o pipefail lines.sh 2>&1
