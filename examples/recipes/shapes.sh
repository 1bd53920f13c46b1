#!/usr/bin/env bash
# Lines of a timetable, given as rows of points in any order, to a stream of linestrings with their keys beside it.
source "$(dirname "$0")/common.bash"
need python3

cat > shapes.txt << 'SHAPES'
shape_id,shape_pt_lat,shape_pt_lon,shape_pt_sequence,shape_dist_traveled
12-out,46.94797,7.44781,1,0
N3,46.94690,7.44107,2,
12-out,46.94886,7.43910,10,
12-out,46.94690,7.44107,9,
N3,46.94675,7.44110,5,
12-out,46.94758,7.44432,2,266.1
N3,46.94643,7.44018,11,
SHAPES

python3 $RECIPES/shapes_to_table.py 5 shapes.keys < shapes.txt > shapes.csv
polytwkb pack < shapes.csv > shapes.twkb

cmp - shapes.csv << 'END'
depth,kind,id,precision,polyline
0,linestring,,5,yop}Gysml@lAxTfChSgKhK
0,linestring,,5,cip}Guill@\E~@vD
END
polytwkb unpack --geojson < shapes.twkb | paste shapes.keys -

# The other columns beside it, and the same file again.
python3 $RECIPES/shapes_to_table.py --rest shapes.rest 5 shapes.keys < shapes.txt | polytwkb pack > shapes.twkb
polytwkb unpack < shapes.twkb | python3 $RECIPES/table_to_shapes.py shapes.rest > again.txt
cmp again.txt shapes.txt

sed 's/,9,/,nine,/' shapes.txt > refused.txt
if python3 $RECIPES/shapes_to_table.py 5 refused.keys < refused.txt > refused.csv; then exit 1; fi
sed 's/,9,/,10,/' shapes.txt > refused.txt
if python3 $RECIPES/shapes_to_table.py 5 refused.keys < refused.txt > refused.csv; then exit 1; fi
