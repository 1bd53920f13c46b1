#!/usr/bin/env bash
# Times a table of MEGABYTES (200), and its stream, in parts on 1, 2 and 4 workers on the loopback, beside
# one run. Wall seconds, best of three, and in brackets the processor seconds of the client in that run,
# below which no number of workers brings it. The first line says how busy the machine was; those after it
# are of the table in docs/PERF.md. times_machines.sh [MEGABYTES]
source "$(dirname "$0")/machines.bash"
TIMEFORMAT='%R %U %S'

# best COMMAND..: the least of three wall times, and the processor time of what this shell waits for.
best() {
  local round
  for round in 1 2 3; do { time "$@" > "said.$round" 2>&1; } 2>&1; done | sort -n |
    awk 'NR == 1 { printf "%.2f (%.2f)", $1, $2 + $3 }'
}
one() { polytwkb "$1" < "$2" > "$3"; }

# row NAME CONVERT: a line of the table, by CONVERT COMMAND INPUT OUTPUT BYTES.
row() {
  local pack unpack
  pack=$(best "$2" pack table.csv parts.twkb 4000000)
  cmp parts.twkb whole.twkb
  unpack=$(best "$2" unpack whole.twkb parts.csv 4000000)
  cmp parts.csv table.csv
  echo "| $1 | $pack | $unpack |"
}

busy=$(top -b -n 2 -d 1 | awk '/^top/ { round++ } round == 2 && /^ *[0-9]/ && $9 > 20 { print $12 }')
make_tables "${1:-200}"
echo "$(stat -c %s table.csv) bytes, $(stat -c %s whole.twkb) packed, on $(nproc) cores;" \
  "busy before: ${busy:-nothing}"
row "one run" one
(
  source "$here/dask.bash"
  trap finish EXIT
  for number in 1 2 4; do
    start_dask $number
    row "Dask, workers: $number" in_parts
    finish
  done
)
(
  source "$here/ssh.bash"
  trap finish EXIT
  for number in 1 2 4; do
    start_hosts $number
    row "ssh, hosts: $number" in_parts
    finish
  done
)
