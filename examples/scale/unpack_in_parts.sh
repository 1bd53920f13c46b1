#!/usr/bin/env bash
# Unpacks a stream in parts, on many cores or machines: the bytes, the status and the text on standard
# error of 'polytwkb unpack < STREAM > TABLE'.
#
#   unpack_in_parts.sh STREAM TABLE [JOBS [BYTES]]
#   HOSTS=one,two unpack_in_parts.sh ..
#
# JOBS run at once (all cores if none is given), each on blobs of some BYTES together (10M). TABLE is
# written if the status is 0, and else left as it was. Needs GNU parallel, python3, and polytwkb on the
# path. HOSTS are as for pack_in_parts.sh.
set -euo pipefail
case ${1-} in -h | --help)
  sed -n '2,/^set /{/^#/s/^# \{0,1\}//p}' "$0"
  exit
  ;;
esac
here=$(cd "$(dirname "$0")" && pwd)
stream=${1:?a stream} table=${2:?a table} jobs=${3:-100%} bytes=${4:-10M}
source "$here/parts.bash"
trap 'rm -f "$table.part"' EXIT

# Unpacks a part: the stream, start and length are given. Only the first keeps the header's line.
unpack_part() {
  set -o pipefail
  dd if="$1" iflag=skip_bytes,count_bytes skip="$2" count="$3" bs=64K status=none |
    polytwkb unpack | if [ "$2" = 0 ]; then cat; else tail -n +2; fi
}
export -f unpack_part

# If a part is refused, one run over the whole names the byte.
each_part stream "$stream" "$jobs" "$bytes" unpack_part 2> /dev/null > "$table.part" ||
  polytwkb unpack < "$stream" > "$table.part"
mv "$table.part" "$table"
