#!/usr/bin/env bash
# Measures the three commands beside the plain Rust program of bench/plain (needs `cargo`; `csv` of Debian's librust-csv-dev, or of
# cargo's registry, and a loop of ours in its place where neither is there). Not part of the tests.
#
#   beside_plain.sh [--megabytes 40] [--points 10000000] [--rounds 9] [--cases CASE ..] [--docs] [--busy]
#           seven tables: user and system time, best of the rounds, both programs in turn; peak memory; the time over that for half as
#           much; and the sizes of table and stream. Both write the same bytes, which is checked by hash. --docs puts tables, picture
#           and lines of text into the pages. About 10 minutes. Each run waits for a processor that no neighbour slows, up to 10 seconds
#           or as many as PATIENCE in the environment says. If the median time of a program is over a tenth above its best all the
#           same, in three tries, the machine is busy: no ratios are given, no page is written, and the status is 1, unless --busy is
#           given.
#   beside_plain.sh instructions [CASE ..]
#           instructions a row and a point by `valgrind --tool=callgrind` on small tables, and the functions that hold most
#
# Writes to bench/out/, which is not kept.
set -euo pipefail
cd "$(dirname "$0")/.."
make --quiet build
bench/plain/build.sh bench/out/plain
mkdir -p bench/out
programs=(bin/polytwkb bench/out/plain/release/plain bench/out/plain/release/make_table bench/out)
if [ "${1-}" = instructions ]; then
  exec python3 bench/instructions.py "${programs[@]}" "${@:2}"
fi
exec python3 bench/users.py "${programs[@]}" "$@"
