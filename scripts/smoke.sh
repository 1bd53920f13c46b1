#!/usr/bin/env bash
# The built program with real files and pipes: one line for each check; status 1 if one failed. MEGABYTES is the size of
# the large table, 200 by default, and GIGABYTES that of a table in a file, which is left out by default. PROGRAM is
# another program, and NODE is set if that is the command through Node, which opens standard streams that are closed,
# needs more memory, and cannot be copied alone.
# shellcheck source=scripts/checks.bash
source "$(dirname "$0")/checks.bash"

program=${PROGRAM:-$PWD/bin/polytwkb}
megabytes=${MEGABYTES:-200}
peak_allowed=${NODE:+131072} # kB
peak_allowed=${peak_allowed:-16384}
header=depth,kind,id,precision,polyline
for tool in "$program" cmp od perl script timeout; do
  is_there "$tool" || {
    echo "smoke: $tool is not there" >&2
    exit 1
  }
done
# the commands, and those of them that read a stream
mapfile -t commands < <("$program" -h | sed -n '/^Commands:/,/^$/s/^  \([a-z]*\) .*/\1/p')
mapfile -t readers < <(printf '%s\n' "${commands[@]}" | grep -vx pack)

# ends STATUS OUT ERR NAME COMMAND..: checks the command's status, and what it prints to each device: a file with this
# path, this line or nothing, or `some` or `any` text.
ends() {
  local status=$1 out=$2 err=$3 name=$4 answer
  shift 4
  "$@" > "$work/out" 2> "$work/err"
  answer=$?
  if [ "$answer" -ne "$status" ]; then
    failed "$name: status $answer in place of $status; standard error is $(shown "$work/err")"
  elif ! is_printed "$out" "$work/out"; then
    failed "$name: standard output is $(shown "$work/out")"
  elif ! is_printed "$err" "$work/err"; then
    failed "$name: standard error is $(shown "$work/err")"
  else
    passed "$name"
  fi
}
shown() { head -c 200 "$1" | cat -v | tr '\n' '/'; }
is_printed() {
  case $1 in
    any) ;;
    some) [ -s "$2" ] ;;
    /*) cmp -s "$1" "$2" ;;
    *) printf '%s' "${1:+$1$'\n'}" | cmp -s - "$2" ;;
  esac
}

# A refused input and a failing device, of which standard error has this line, and a run that prints a file.
refused() { ends 1 any "$@"; }
fails() { ends 3 any "$@"; }
same() { ends 0 "$1" any "${@:2}"; }

# repeated COUNT FILE: prints the file COUNT times.
repeated() {
  local turn
  for ((turn = 0; turn < $1; turn++)); do cat "$2"; done
}

# ---- inputs of the checks

printf '%s\n0,point,,0,AC\n' "$header" > "$work/point.csv"
printf '\001\002\002\004\002' > "$work/point.twkb"

# some 1 MB of rows, each a point somewhere on the earth
perl -e '
  srand 1;
  while (($size += length $row) < 1000000) {
    $row = "0,point,,5," . spelled(int rand 18000000) . spelled(int rand 36000000) . "\n";
    print $row;
  }
  # a coordinate whose sign is the last bit of this number, five bits a character
  sub spelled { my $rest = $_[0] >> 5; return chr(($_[0] & 31) + ($rest ? 95 : 63)) . ($rest ? spelled($rest) : "") }
' > "$work/rows"
{
  echo "$header"
  cat "$work/rows"
} > "$work/rows.csv"
"$program" pack < "$work/rows.csv" > "$work/rows.twkb"

# ---- round trips

collection=$PWD/examples/collection.csv
through() { "$program" pack "${@:2}" < "$1" | "$program" unpack; }
back() { "$program" unpack < "$1" | "$program" pack; }

same "$collection" "examples/collection.csv is packed and unpacked" through "$collection"
same "$collection" "so it is with --style plain" through "$collection" --style plain
same "$work/point.twkb" "a blob is unpacked and packed" back "$work/point.twkb"
same "$work/rows.csv" "1 MB of points is packed and unpacked" through "$work/rows.csv"

# For every blob of other tools: show, pack and unpack give the results that were worked out without our code.
slashed() { tr '\n' '/'; }
hex() { od -An -v -tx1 | tr -d ' \n'; }
from_hex() { perl -ne 'chomp; print pack "H*", $_'; }
blobs_of_others() {
  local blob
  # each blob, and below it four results, each after two counts
  grep -A 4 '^blob ' crates/vector_runner/stdout | sed -E 's/^(  [a-z]+) [0-9]+ [0-9]+ /\1 /' > "$work/worked_out"
  sed -n 's/^blob //p' "$work/worked_out" | while read -r blob; do
    from_hex <<< "$blob" > "$work/blob"
    "$program" unpack < "$work/blob" > "$work/table"
    printf 'blob %s\n  show %s\n' "$blob" "$("$program" show < "$work/blob" | slashed)"
    printf '  unpack %s\n' "$(slashed < "$work/table")"
    printf '  full %s\n' "$("$program" pack < "$work/table" | hex)"
    printf '  plain %s\n' "$("$program" pack --style plain < "$work/table" | hex)"
    through "$work/table" | cmp - "$work/table"
  done | diff "$work/worked_out" - && [ -s "$work/worked_out" ]
}
[ -n "${NODE:-}" ] ||
  ends 0 "" "" "the blobs of crates/vector_runner are shown, unpacked and packed" blobs_of_others

# ---- devices that fail

write_fault="polytwkb: write failed"
read_fault="polytwkb: read failed"
# a line of the shell, whose status is that of the program in it
line() { bash -o pipefail -c "$1"; }

for command in "${commands[@]}"; do
  small=$work/point.twkb large=$work/rows.twkb
  if [ "$command" = pack ]; then small=$work/point.csv large=$work/rows.csv; fi
  run="'$program' $command"
  fails "$write_fault" "$command to a full disk, a few bytes" line "$run < '$small' > /dev/full"
  fails "$write_fault" "$command to a full disk, many bytes" line "$run < '$large' > /dev/full"
  fails "$write_fault" "$command to a closed pipe" line "$run < '$large' | head -c 1 > /dev/null"
  fails "$read_fault" "$command from a directory" line "$run < ."
  [ -n "${NODE:-}" ] && continue
  fails "$read_fault" "$command without an input" line "$run <&-"
  fails "$write_fault" "$command without an output" line "$run < '$small' >&-"
done
fails "$write_fault" "unpack --geojson to a full disk" \
  line "'$program' unpack --geojson < '$work/point.twkb' > /dev/full"
refused "" "standard error on a full disk changes no status" line "'$program' pack < /dev/null 2> /dev/full"
ends 0 "" "" "help to a full disk has status 0" line "'$program' --help > /dev/full"

# from_open_pipe COMMAND FILE: gives a command the bytes of a file, from a pipe that stays open after them.
from_open_pipe() {
  local answer
  rm -f "$work/pipe"
  mkfifo "$work/pipe"
  exec 4<> "$work/pipe"
  cat "$2" >&4
  timeout 20 "$program" "$1" < "$work/pipe" 4>&-
  answer=$?
  exec 4>&-
  return "$answer"
}
printf '%s\n0,point,,0,AC\n0,pont,,0,\n' "$header" > "$work/refused.csv"
printf '\001\010\001' > "$work/refused.twkb"
refused "polytwkb: record 3: unknown kind" "pack from a pipe that stays open ends at a refused row" \
  from_open_pipe pack "$work/refused.csv"
for command in "${readers[@]}"; do
  refused "polytwkb: byte 2: extra dimensions" "$command from a pipe that stays open ends at a refused byte" \
    from_open_pipe "$command" "$work/refused.twkb"
done

# ---- inputs without end

for command in "${commands[@]}"; do
  fault="polytwkb: byte 0: unknown type"
  if [ "$command" = pack ]; then fault="polytwkb: record 1: bad header"; fi
  run="timeout 300 '$program' $command"
  refused "$fault" "$command of a text without end" line "yes 2> /dev/null | $run"
  refused "$fault" "$command of a text without end, cut" line "yes 2> /dev/null | head -c 1000000 | $run"
done
table="{ echo $header; yes 0,point,,0,AC 2> /dev/null; }"
fails "$write_fault" "pack of a table without end, its output cut" \
  line "$table | timeout 300 '$program' pack | head -c 1000000 > '$work/front'"
yes 0102020402 | head -n 200000 | from_hex > "$work/expected"
same "$work/expected" "and what was written before is right" cat "$work/front"

# ---- words

ends 2 "" "polytwkb: a word is not UTF-8" "a word that is not UTF-8" "$program" $'\xff'
ends 2 "" "polytwkb: a word is not UTF-8" "an option that is not UTF-8" "$program" pack --style $'\xff'
ends 2 "" "polytwkb: a word is not UTF-8" "a file's name that is not UTF-8" "$program" pack $'\xff'
for words in "" repack help --verbose "pack --verbose" "pack --max-nest" "pack --max-nest 33" "unpack --max-nest -1" \
  "pack --style thin" "unpack --style plain" "pack --geojson" "unpack --geojson=true" "pack --column a" \
  "pack --precision -8" "unpack --column a --geojson" "show --column a" "pack one.csv two.csv" "pack -o" "show -o one -o two" "-o one pack"; do
  read -ra list <<< "$words"
  ends 2 "" some "refused: polytwkb $words" "$program" "${list[@]}" < "$work/point.csv"
done
for words in --help -h -V "${commands[@]/%/ --help}"; do
  read -ra list <<< "$words"
  ends 0 some "" "printed: polytwkb $words" "$program" "${list[@]}" < /dev/null
done
version=$(sed -n 's/^pub const VERSION: &str = "\(.*\)";$/\1/p' crates/twkb_convert/src/version.rt)
ends 0 "polytwkb $version" "" "--version is the version of the source" "$program" --version

# ---- files by their names

# shellcheck source=scripts/smoke_files.bash
source scripts/smoke_files.bash

# ---- a large table: the output is that of its parts, joined, and memory stays flat

turns=$(((megabytes * 1000000 + $(wc -c < "$work/rows") - 1) / $(wc -c < "$work/rows")))
large_table() {
  echo "$header"
  repeated "$turns" "$work/rows"
}
large_stream() { repeated "$turns" "$work/rows.twkb"; }

# measured WORD..: runs the program and leaves its peak memory, in kB, in the file peak.
measured() {
  if [ -x /usr/bin/time ]; then
    /usr/bin/time -q -f %M -o "$work/peak" "$program" "$@"
    return
  fi
  local peak=0 now status
  "$program" "$@" <&0 &
  while now=$(sed -n 's/^VmHWM:[^0-9]*\([0-9]*\) kB$/\1/p' "/proc/$!/status" 2> /dev/null) && [ -n "$now" ]; do
    peak=$now
    sleep 0.05
  done
  wait $!
  status=$?
  echo "$peak" > "$work/peak"
  return $status
}

flat() { # NAME: checks that the measured peak is small enough
  local peak
  peak=$(cat "$work/peak")
  if [ "$peak" -gt 0 ] && [ "$peak" -lt "$peak_allowed" ]; then passed "$1: $peak kB"; else failed "$1: $peak kB"; fi
}

pack_large() { large_table | measured pack | cmp -s - <(large_stream); }
unpack_large() { large_stream | measured unpack | cmp -s - <(large_table); }
ends 0 any "" "pack of a table of $megabytes MB" pack_large
flat "its peak memory"
ends 0 any "" "unpack to a table of $megabytes MB" unpack_large
flat "its peak memory"
"$program" unpack --geojson < "$work/rows.twkb" > "$work/rows.geojson"
geojson_large() { large_stream | measured unpack --geojson | cmp -s - <(repeated "$turns" "$work/rows.geojson"); }
ends 0 any "" "unpack --geojson of the same stream" geojson_large
flat "its peak memory"

# ---- files of some gigabytes, by name, if GIGABYTES is set: their places need more than 32 bits

large_files() { # GIGABYTES: packs a table of that size into a file, and unpacks that file into another one
  local folder turns
  folder=$(mktemp -d -p "$work") && turns=$(($1 * 1000000000 / $(wc -c < "$work/rows") + 1)) || return 1
  large_table > "$folder/table" && measured pack "$folder/table" -o "$folder/stream" &&
    cmp "$folder/stream" <(large_stream) && measured unpack "$folder/stream" -o "$folder/back" &&
    cmp "$folder/back" "$folder/table" && rm -r "$folder"
}
in_files() { # GIGABYTES: the check of these files, if the folder has room for them
  if [ "$(df -P -k "$work" | awk 'END { print $4 }')" -lt $(($1 * 4000000)) ]; then
    skip "a table of $1 GB by files: the folder of temporary files has no room"
    return
  fi
  ends 0 "" "" "pack and unpack of a table of $1 GB by files" large_files "$1"
  flat "its peak memory"
}
[ -z "${GIGABYTES:-}" ] || in_files "$GIGABYTES"

# ---- two long lines, one after the other: memory is that of one

long_lines() { # COUNT: prints a table of so many lines of 4,000,000 points
  echo "$header"
  perl -e 'print "0,linestring,,0,", "AC" x 4000000, "\n" for 1 .. shift' "$1"
}
pack_lines() { long_lines "$1" | measured pack > "$work/lines$1"; }
lines_are_apart() { cat "$work/lines1" "$work/lines1" | cmp - "$work/lines2"; }
ends 0 "" "" "pack of a line of 4,000,000 points" pack_lines 1
one=$(cat "$work/peak")
ends 0 "" "" "pack of two such lines" pack_lines 2
two=$(cat "$work/peak")
ends 0 "" "" "their blobs are that of one line, twice" lines_are_apart
if [ -n "${NODE:-}" ]; then
  skip "the peak memory of two lines beside that of one: Node collects when it likes"
elif [ "$two" -gt 0 ] && [ $((10 * two)) -le $((11 * one)) ]; then
  passed "the peak memory of two lines is that of one: $two and $one kB"
else
  failed "the peak memory of two lines is above that of one: $two and $one kB"
fi

# A long root is judged before the geometry before it is written: the same reason at the same place as ever, and that
# geometry is left out.
long_root() { # KIND TAIL: packs a point and a root of this kind, whose text of 4,000,000 points ends with the tail
  perl -e 'print "$ARGV[0]\n0,point,,0,AC\n0,point,,0,AC\n0,$ARGV[1],,0,", "AC" x 4000000, "$ARGV[2]\n"' \
    "$header" "$1" "${2-}" | "$program" pack | cmp - "$work/point.twkb"
}
ends 1 "" "polytwkb: record 4: polyline at 8000000: bad character" "a long text with a bad last character" \
  long_root linestring "!"
ends 1 "" "polytwkb: record 4: polyline at 8000001: latitude without longitude" "a long text with half a point" \
  long_root linestring "A"
ends 1 "" "polytwkb: record 4: wrong number of points" "a point with a long text" long_root point
ends 1 "" "polytwkb: record 4: polyline not allowed" "a polygon with a long text" long_root polygon

# ---- a terminal

# typed FILE COMMAND: types a file, an end of input and a word; the command takes all but the word.
typed() {
  local taken="'$program' $2 > '$work/taken' && read -r word && [ \"\$word\" = 'typed after' ]"
  printf '\004typed after\n' | cat "$1" - | SHELL=/bin/sh timeout 300 script -qec "$taken" /dev/null > "$work/screen" &&
    cat "$work/taken"
}
echo "$header" > "$work/expected"
: > "$work/empty"
same "$work/point.twkb" "pack on a terminal: one end is enough, and what is typed after it stays" \
  typed "$work/point.csv" pack
same "$work/expected" "unpack on a terminal: the same" typed "$work/empty" unpack
same "$work/empty" "show on a terminal: the same" typed "$work/empty" show

passed_all
