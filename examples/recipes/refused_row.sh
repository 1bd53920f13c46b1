#!/usr/bin/env bash
# From the byte that is refused to the key of its geometry, and from the record that is refused to the number of one.
source "$(dirname "$0")/common.bash"

# The third of four geometries has a height, as PostGIS writes it without ST_Force2D.
printf '%s\n' 101 102 27 104 > my.keys
{
  printf '0,point,,5,yop}Gysml@\n0,multipoint,,5,\n1,point,,,yop}Gysml@\n1,point,,,cip}Guill@\n' |
    cat <(echo depth,kind,id,precision,polyline) - | polytwkb pack
  printf '\xa1\x08\x01\x9a\xf5\x5a\x9a\x8c\xbd\x04\xb8\x08'
  printf '\xa1\x00\x9a\xf5\x5a\x9a\x8c\xbd\x04'
} > my.twkb

polytwkb unpack < my.twkb > my.csv || true
sed -n "$(($(polytwkb show < my.twkb 2> /dev/null | grep -c '^0 ') + 1)) p" my.keys

# Or the record of a .rest, which has a header.
{
  echo key,name
  sed 's/$/,a name/' my.keys
} > my.rest
sed -n "$(($(polytwkb show < my.twkb 2> /dev/null | grep -c '^0 ') + 2)) p" my.rest

cat > my.csv << 'END'
depth,kind,id,precision,polyline
0,point,,5,yop}Gysml@
0,multipoint,,5,
1,point,,,yop}Gysml@
1,point,,,cip}Guil
END
polytwkb pack < my.csv > my.twkb || true
head -n 5 my.csv | grep -c '^0,'
