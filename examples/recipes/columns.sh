#!/usr/bin/env bash
# A column of polylines among other columns to a stream, and back into the same columns.
source "$(dirname "$0")/common.bash"
need python3

cat > my.csv << 'END'
geometry,route_id,name
yop}Gysml@lAxTfChSgKhK,12,"Bahnhof, Loryplatz"
cip}Guill@\E~@vD,N3,"at ""night""
and on Sundays"
,14,
END

python3 $RECIPES/column_to_table.py geometry 5 my.rest < my.csv > my.table
polytwkb pack < my.table > my.twkb
polytwkb unpack < my.twkb | python3 $RECIPES/table_to_column.py geometry my.rest > again.csv

cmp - my.table << 'END'
depth,kind,id,precision,polyline
0,linestring,,5,yop}Gysml@lAxTfChSgKhK
0,linestring,,5,cip}Guill@\E~@vD
0,linestring,,5,
END
cmp - my.rest << 'END'
geometry,route_id,name
,12,"Bahnhof, Loryplatz"
,N3,"at ""night""
and on Sundays"
,14,
END
cmp again.csv my.csv

# As a spreadsheet writes it: a mark at the start, semicolons, and a word in place of what is missing.
printf '\xef\xbb\xbfid;line;name\n12;yop}Gysml@lAxTfChSgKhK;Bern, Bahnhof\n14;NULL;\n' > sheet.csv
python3 $RECIPES/column_to_table.py --delimiter ';' --null NULL line 5 sheet.rest < sheet.csv > sheet.table
polytwkb pack < sheet.table | polytwkb unpack |
  python3 $RECIPES/table_to_column.py --delimiter ';' line sheet.rest | tee again.csv
head -c 3 sheet.csv | cat - again.csv | sed 's/;;$/;NULL;/' | cmp - sheet.csv

# Without --null, NULL would be a line of two points near (0, 0), so it is refused, and by pack too.
if python3 $RECIPES/column_to_table.py --delimiter ';' line 5 sheet.rest < sheet.csv 2> fault.txt |
  polytwkb pack > refused.twkb 2> packed.txt; then
  exit 1
fi
cat fault.txt packed.txt
