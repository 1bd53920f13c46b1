#!/usr/bin/env bash
# Cuts a stream into one file a blob, and into one line of hexadecimal digits a blob, and joins them again.
source "$(dirname "$0")/common.bash"
need python3

polytwkb pack > my.twkb << 'TABLE'
depth,kind,id,precision,polyline
0,point,,5,yop}Gysml@
0,multipoint,,5,
1,point,101,,yop}Gysml@
1,point,102,,cip}Guill@
0,collection,,0,
1,point,,0,AC
TABLE

mkdir blobs && python3 $RECIPES/cut_stream.py my.twkb blobs
cat blobs/* | cmp - my.twkb
(cd blobs && wc -c -- *) | cmp - <(printf '%s\n' \
  '10 blob-000000000000.twkb' '30 blob-000000000010.twkb' '13 blob-000000000040.twkb' '53 total')
python3 $RECIPES/cut_stream.py my.twkb > my.hex
cat my.hex
