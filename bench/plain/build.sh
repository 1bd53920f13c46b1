#!/usr/bin/env bash
# Builds the plain program and the maker of tables, optimised as a release is, in a copy below bench/out/plain or the folder that is
# named: with `csv` of Debian (librust-csv-dev) where it is there, else with `csv` of cargo's registry, else with a loop of ours in
# its place. `plain records` tells which.
set -euo pipefail
here=$(cd "$(dirname "$0")" && pwd)
copy=${1-"$here/../out/plain"}/source
rm -rf "$copy"
mkdir -p "$copy"
cp -a "$here/Cargo.toml" "$here/src" "$copy"
cd "$copy"
debian=/usr/share/cargo/registry
# The processor that `rt` builds for.
if [ "$(uname -m)" = x86_64 ]; then
  export RUSTFLAGS="-C target-cpu=x86-64-v2"
fi
build() {
  cargo build --quiet --release --target-dir .. "$@"
}
cp Cargo.toml alone.toml
echo 'csv = "1"' >> Cargo.toml
if compgen -G "$debian/csv-1.*" > /dev/null; then
  build --offline --features by-csv --config 'source.crates-io.replace-with = "debian"' \
    --config "source.debian.directory = \"$debian\""
elif ! build --features by-csv 2> /dev/null; then
  mv alone.toml Cargo.toml
  rm -f Cargo.lock
  build --offline
fi
