# What the checks and the times on many machines share, all on the loopback: tables, inputs that are
# refused, a worker that is lost. Sourced by scripts that then say how `in_parts COMMAND INPUT OUTPUT
# BYTES` converts, and how many `conversions` of parts there were.
source "$(dirname "${BASH_SOURCE[0]}")/scratch.bash" polytwkb python3 pgrep
PATH=$PATH:/usr/sbin
export PYTHONDONTWRITEBYTECODE=1
workers=() count=0

fail() {
  echo "$*"
  exit 1
}

# lose PROCESS: ends it at once with all that it started, as if its machine were gone.
lose() {
  local child
  kill -STOP "$1" 2> /dev/null || return 0
  for child in $(pgrep -P "$1"); do lose "$child"; done
  kill -KILL "$1" 2> /dev/null || true
}
# finish: ends what this shell has begun and still runs.
finish() {
  local process shell=$BASHPID
  for process in $(pgrep -P "$shell"); do lose "$process"; done
}
trap 'finish; rm -rf "$folder"' EXIT

# begin COMMAND..: runs it until `finish`; `begun` is its process, of which this is number `count`.
begin() {
  count=$((count + 1))
  "$@" > "$folder/$count.log" 2>&1 < /dev/null &
  begun=$!
  disown
}

# make_tables MEGABYTES: few.csv, and table.csv of so many megabytes or some more, which has the rows of
# few.csv again and again, each time after a number. few.twkb and whole.twkb are their streams.
make_tables() {
  local number times
  python3 "$here/make_table.py" 20000 > few.csv
  tail -n +2 few.csv > rows.csv
  times=$(($1 * 1000000 / $(stat -c %s rows.csv) + 1))
  head -n 1 few.csv > table.csv
  for ((number = 0; number < times; number++)); do
    printf '0,multipoint,,0,\n1,point,%d,,??\n' "$number"
    cat rows.csv
  done >> table.csv
  polytwkb pack < few.csv > few.twkb
  polytwkb pack < table.csv > whole.twkb
}

# check_same: the table and its stream, and a stream without sizes, as in one run.
check_same() {
  in_parts pack table.csv parts.twkb 4000000
  cmp parts.twkb whole.twkb
  in_parts unpack whole.twkb parts.csv 4000000
  cmp parts.csv table.csv
  polytwkb pack --style plain < few.csv > few_plain.twkb
  in_parts unpack few_plain.twkb parts.csv 300000
  cmp parts.csv few.csv
  rm parts.twkb parts.csv
  echo "packed and unpacked: the same $(stat -c %s whole.twkb) and $(stat -c %s table.csv) bytes"
}

# check_lost COMMAND INPUT WHOLE FORM: the last of the workers is lost when a quarter of some 50 parts is
# done. The output is the same, and not made by one run over the whole: the command is not there for that.
check_lost() {
  local job due before bytes parts
  bytes=$(($(stat -c %s "$2") / 50)) due=$(stat -c %s "$3") before=$(conversions)
  parts=$("$here/cuts.py" "$4" "$2" "$bytes" | wc -l)
  mkdir -p refusing
  printf '#!/bin/sh\nexit 99\n' > refusing/polytwkb
  chmod +x refusing/polytwkb
  (PATH=$folder/refusing:$PATH in_parts "$1" "$2" lost.out "$bytes") 2> lost.txt &
  job=$!
  until [ "$(stat -c %s lost.out.part 2> /dev/null || echo 0)" -gt $((due / 4)) ]; do
    kill -0 "$job" 2> /dev/null || fail "$1: ended before a worker was lost: $(cat lost.txt)"
    sleep 0.02
  done
  lose "${workers[-1]}"
  [ -e lost.out.part ] || fail "$1: done before the worker was lost"
  wait "$job" || fail "$1: status $? where a worker was lost: $(cat lost.txt)"
  cmp lost.out "$3"
  rm lost.out
  echo "$1, a worker of ${#workers[@]} killed: the same bytes;" \
    "$parts parts, $(($(conversions) - before)) conversions"
}

# check_refused COMMAND INPUT: status and text are those of one run, and nothing is written.
check_refused() {
  local one=0 parts=0
  polytwkb "$1" < "$2" > /dev/null 2> one.txt || one=$?
  in_parts "$1" "$2" refused.out 300000 2> parts.txt || parts=$?
  { [ "$one" = 1 ] && [ "$parts" = 1 ]; } || fail "$1 $2: status $parts, and $one of one run"
  cmp parts.txt one.txt || fail "$1 $2: $(cat parts.txt)"
  [ -z "$(compgen -G 'refused.out*')" ] || fail "$1 $2: an output is left"
}

# check_all_refused: tables and streams that are refused in the middle, or from the start.
check_all_refused() {
  local middle offset byte file
  mkdir refused
  middle=$(($(wc -l < few.csv) / 2))
  sed "$middle s/^[0-9]*/17/" few.csv > refused/depth.csv
  sed -e '1000~7 s/$/\n/' -e "$middle s/[^,]*$/A/" few.csv | sed 's/$/\r/' > refused/blank_lines.csv
  {
    head -n "$middle" few.csv
    printf '0,"point'
    seq 400000 | sed 's/.*/0,/'
    echo '",,0,AC'
    cat rows.csv
  } > refused/line_ends_in_quotes.csv
  {
    head -n "$middle" few.csv
    printf '0,point,,0,"'
    cat rows.csv
  } > refused/open_quote.csv
  cp rows.csv refused/no_header.csv
  : > refused/empty.csv
  head -c -1 few.twkb > refused/cut.twkb
  offset=$(polytwkb show < few.twkb |
    awk '$1 == 0 && $3 == "linestring" && $6 > 300 { offset = $2 } END { print offset }')
  for byte in 0 2; do # the type, and the first byte of the size
    cp few.twkb "refused/byte_$byte.twkb"
    printf '\177' | dd of="refused/byte_$byte.twkb" bs=1 seek=$((offset + byte)) conv=notrunc status=none
  done
  for file in refused/*.csv; do check_refused pack "$file"; done
  for file in refused/*.twkb; do check_refused unpack "$file"; done
  echo "refused as in one run: $(find refused -type f | wc -l) inputs"
}

# check_all START MEGABYTES: all of these, over two workers that START starts, and two new ones when one was lost.
check_all() {
  "$1" 2
  make_tables "$2"
  check_same
  check_all_refused
  check_lost pack table.csv whole.twkb table
  "$1" 2
  check_lost unpack whole.twkb table.csv stream
}
