#!/usr/bin/env bash
# Converts a generated table whole and in parts, and compares: bytes, and of tables that are refused status and text.
# check.sh [GEOMETRIES [JOBS]]
source "$(dirname "$0")/scratch.bash" polytwkb parallel python3
jobs=${2:-2}

# The line that docs/USING.md shows, for a pipe: it packs table.csv into all.twkb.
page=$here/../../docs/USING.md
[ -e "$page" ] || page=$here/../docs/USING.md # of an installation
line=$(sed -n 's/^    \(parallel .*\)--block 10M/\1--block 100k/p' "$page")

python3 "$here/make_table.py" "${1:-5000}" > table.csv
for style in full plain; do
  polytwkb pack --style $style < table.csv > whole.twkb
  "$here/pack_in_parts.sh" table.csv parts.twkb "$jobs" 100k -- --style $style
  cmp whole.twkb parts.twkb
  bash -c "${line/polytwkb pack/polytwkb pack --style $style}"
  cmp whole.twkb all.twkb
  tail -n +2 table.csv | "$here/pack_part.sh" --style $style | base64 -d | cmp - whole.twkb
  echo "packed in parts, $style: the same $(wc -c < whole.twkb) bytes"
  polytwkb unpack < whole.twkb > whole.csv
  "$here/unpack_in_parts.sh" whole.twkb parts.csv "$jobs" 50k
  cmp whole.csv parts.csv
  cmp table.csv parts.csv
  echo "unpacked in parts, $style: the same $(wc -c < whole.csv) bytes"
done

fail() {
  echo "$*"
  exit 1
}

# as_pack TABLE [OPTION ..]: the script's status, its text and its stream are those of 'polytwkb pack', and a refused table has no stream.
as_pack() {
  local whole=0 parts=0
  rm -f whole.twkb parts.twkb
  polytwkb pack "${@:2}" < "$1" > whole.twkb 2> whole.txt || whole=$?
  [ $whole = 0 ] || rm whole.twkb
  "$here/pack_in_parts.sh" "$1" parts.twkb "$jobs" 100k -- "${@:2}" 2> parts.txt || parts=$?
  [ "$parts" = "$whole" ] || fail "pack_in_parts.sh $*: status $parts, and $whole of pack"
  cmp parts.txt whole.txt || fail "pack_in_parts.sh $*: $(cat parts.txt)"
  if [ -e whole.twkb ]; then cmp whole.twkb parts.twkb; else [ ! -e parts.twkb ] || fail "pack_in_parts.sh $*: a stream is left"; fi
}

mkdir tables
sed '3000 s/point/pont/' table.csv > tables/refused.csv
head -n 1 table.csv > tables/header.csv
tail -n +2 table.csv > tables/rows.csv
{
  echo
  cat table.csv
} > tables/blank_line.csv
sed 's/$/\r/' table.csv > tables/crlf.csv
tr '\n' '\r' < table.csv > tables/cr.csv
sed '1 s/depth/"depth"/' table.csv > tables/quoted.csv
{
  cat table.csv
  printf '0,point,,5,"\n0,AC"\n'
} > tables/line_end_in_quotes.csv
echo 'no table' > tables/garbage.csv
gzip < table.csv > tables/gzip.csv
: > tables/empty.csv
for file in tables/*.csv tables; do as_pack "$file"; done
as_pack table.csv --max-nest 0
as_pack table.csv --style thin
if "$here/pack_in_parts.sh" missing.csv parts.twkb 2> parts.txt || ! grep -q 'missing.csv: No such file' parts.txt; then
  fail "pack_in_parts.sh missing.csv: $(cat parts.txt)"
fi
echo "refused in parts as in one run, $(find tables -type f | wc -l) tables"

# A stream that is cut, and one with a wrong size: the script's status and its text are those of 'polytwkb unpack'.
polytwkb pack < table.csv > whole.twkb
mkdir streams
head -c -1 whole.twkb > streams/cut.twkb
cp whole.twkb streams/size.twkb
offset=$(polytwkb show < whole.twkb | awk '$1 == 0 && $6 > 150 && $6 < 190 { print $2 }' | sed -n 800p)
printf '\001' | dd of=streams/size.twkb bs=1 seek=$((offset + 2)) conv=notrunc status=none
for file in streams/*; do
  whole=0 parts=0
  rm -f parts.csv
  polytwkb unpack < "$file" > /dev/null 2> whole.txt || whole=$?
  "$here/unpack_in_parts.sh" "$file" parts.csv "$jobs" 50k 2> parts.txt || parts=$?
  { [ "$parts" = "$whole" ] && [ "$whole" = 1 ] && cmp parts.txt whole.txt; } || fail "unpack_in_parts.sh $file: $(cat parts.txt)"
  [ ! -e parts.csv ] || fail "unpack_in_parts.sh $file: a table is left"
done
echo "refused in parts as in one run, $(find streams -type f | wc -l) streams"

# The line leaves no stream of a table with a part that is refused.
rm -f all.twkb
cp tables/refused.csv table.csv
if bash -c "$line" 2> line.txt || [ -e all.twkb ]; then fail "a refused part, and a stream is left: $line"; fi
echo "refused by the line, and no stream is left"
