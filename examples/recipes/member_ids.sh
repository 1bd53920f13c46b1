#!/usr/bin/env bash
# Routes with whole numbers as keys to one multilinestring, whose members have the keys as ids, and back.
source "$(dirname "$0")/common.bash"
need python3

cat > my.csv << 'END'
route_id,polyline
12,yop}Gysml@lAxTfChSgKhK
-7,cip}Guill@\E~@vD
9007199254740993,
END

python3 $RECIPES/column_to_table.py --ids route_id polyline 5 my.rest < my.csv | polytwkb pack > my.twkb
polytwkb unpack < my.twkb > my.table && python3 $RECIPES/table_to_column.py polyline my.rest < my.table > again.csv

polytwkb show < my.twkb
cmp - my.table << 'END'
depth,kind,id,precision,polyline
0,multilinestring,,5,
1,linestring,12,,yop}Gysml@lAxTfChSgKhK
1,linestring,-7,,cip}Guill@\E~@vD
1,linestring,9007199254740993,,
END
cmp my.csv again.csv

# Each member as a geometry of its own, and its id as a line of a file of keys.
awk -F, -v OFS=, 'NR == 1 { print; next } $1 == 0 { precision = $4; next }
    $1 == 1 { print $3 > "my.keys"; $3 = ""; if ($4 == "") $4 = precision }
    { $1--; print }' my.table | polytwkb pack > members.twkb
polytwkb show < members.twkb | paste my.keys -
