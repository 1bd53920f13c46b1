#!/usr/bin/env bash
# What is in a stream, for people: headers with names, totals, the largest geometry, the box, and a picture.
source "$(dirname "$0")/common.bash"
need python3

cat > my.csv << 'END'
depth,kind,id,precision,polyline
0,linestring,,5,yop}Gysml@lAxTfChSgKhK
0,linestring,,5,
0,collection,,5,
1,point,101,5,cip}Guill@
1,polygon,102,5,
2,ring,,,kup}Gk}kl@oAoA?nAnA?
END
polytwkb pack < my.csv > my.twkb

{
  python3 $RECIPES/twkb_info.py my.twkb
} > my.info
head -n 6 my.info
tail -n +7 my.info | cmp - <(
  cat << 'END'

kind               geometries           bytes        points  precision
collection                  1              56             5  5
linestring                  2              36             4  5
total                       3              92             9
members of collections: 2
largest: geometry 3, a collection of 56 bytes and 5 points, at byte 36
box: x 7.43910 to 7.44781, y 46.94690 to 46.94926
END
)
python3 $RECIPES/twkb_info.py --headers 0 --svg my.svg my.twkb > my.totals
python3 -c 'import sys, xml.dom.minidom as x; print(*(len(x.parse("my.svg").getElementsByTagName(n)) for n in ("path", "circle")))' |
  cmp - <(echo 2 1)

# A stream that is cut: the totals of the blobs before, and the status of 'polytwkb show'.
head -c 40 my.twkb > cut.twkb
if python3 $RECIPES/twkb_info.py --headers 0 cut.twkb 2> fault.txt > cut.totals; then exit 1; fi
grep -h -e '^total' -e truncated cut.totals fault.txt | cmp - <(
  cat << 'END'
total                       2              36             4
polytwkb: byte 39: truncated
END
)
