#!/usr/bin/env bash
# Runs the recipes as those of an archive, from share/doc with bin/ above it, and as files that are not executable; and
# the check of parts with an installed program, from a copy of examples without bin/ beside it. Both are called from
# another folder.
set -euo pipefail
repository=$(cd "$(dirname "$0")/../.." && pwd)
program=$(PATH=$repository/bin:$PATH command -v polytwkb) || {
  echo "skipped: needs polytwkb"
  exit 0
}
folder=$(mktemp -d)
trap 'rm -rf "$folder"' EXIT
mkdir -p "$folder/archive/bin" "$folder/archive/share/doc/polytwkb" "$folder/copy" "$folder/elsewhere"
cp "$program" "$folder/archive/bin/polytwkb"
cp -r "$repository/examples/recipes" "$folder/archive/share/doc/polytwkb"
cp -r "$repository/examples" "$repository/docs" "$folder/copy"
chmod 755 "$folder"
recipes=../archive/share/doc/polytwkb/recipes
cd "$folder/elsewhere"
rm -rf $recipes/__pycache__
chmod 644 $recipes/*

# A call that found no program is made again: the test of the Debian package, beside this one, installs and removes /usr/bin/polytwkb.
called() {
  "$@" > out.txt 2>&1 || { grep -q '/usr/bin/polytwkb: No such file' out.txt && "$@" > out.txt 2>&1; }
}

runs() {
  if ! called "$@" || grep 'needs polytwkb' out.txt; then
    tail -n 5 out.txt
    echo "not with an installed program: $*"
    exit 1
  fi
}
for recipe in "$recipes"/*.sh; do runs bash "$recipe"; done
if [ -e "$recipes/__pycache__" ]; then
  echo "the recipes write beside themselves"
  exit 1
fi
PATH=$folder/archive/bin:$PATH runs ../copy/examples/scale/check.sh
echo "with an installed program: the same"
