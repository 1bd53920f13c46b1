#!/usr/bin/env bash
# Packs a table in parts, on many cores or machines: the bytes, the status and the text on standard
# error of 'polytwkb pack < TABLE > STREAM'.
#
#   pack_in_parts.sh TABLE STREAM [JOBS [BYTES]] [-- OPTION ..]
#   HOSTS=one,two pack_in_parts.sh ..
#
# JOBS run at once (all cores if none is given), each on some BYTES of the table (10M). Options after --
# are those of 'polytwkb pack'. STREAM is written if the status is 0, and else left as it was. Needs GNU
# parallel, python3, and polytwkb on the path.
#
# With HOSTS so many jobs run on each of these, by ssh. They have polytwkb on the path, and find the
# table by the same name. If one is lost, the others pack its parts again.
set -euo pipefail
case ${1-} in -h | --help)
  sed -n '2,/^set /{/^#/s/^# \{0,1\}//p}' "$0"
  exit
  ;;
esac
here=$(cd "$(dirname "$0")" && pwd)

own=()
while [ $# -gt 0 ] && [ "$1" != -- ]; do
  own+=("$1")
  shift
done
[ $# -eq 0 ] || shift
table=${own[0]:?a table} stream=${own[1]:?a stream} jobs=${own[2]:-100%} bytes=${own[3]:-10M}
source "$here/parts.bash"
trap 'rm -f "$stream.part"' EXIT

# Packs a part: the table, start and length are given, and options. Only the first has the header's line.
pack_part() {
  set -o pipefail
  {
    [ "$2" = 0 ] || echo depth,kind,id,precision,polyline
    dd if="$1" iflag=skip_bytes,count_bytes skip="$2" count="$3" bs=64K status=none
  } |
    polytwkb pack "${@:4}"
}
export -f pack_part

# If a part is refused, one run over the whole names the record.
each_part table "$table" "$jobs" "$bytes" pack_part "$@" 2> /dev/null > "$stream.part" ||
  polytwkb pack "$@" < "$table" > "$stream.part"
mv "$stream.part" "$stream"
