#!/usr/bin/env bash
# Stops with latitude and longitude to a stream of points with their keys beside it, and back to coordinates to look at.
source "$(dirname "$0")/common.bash"
need python3

printf '\xef\xbb\xbf' > stops.txt
cat >> stops.txt << 'STOPS'
stop_id,stop_name,stop_lat,stop_lon
101,"Bern, Bahnhof",46.947966,7.447812
102,Hirschengraben,46.946905,7.44107
8507000:0:3,Loryplatz,46.945,-0.000005
entrance,without a place,,
STOPS

python3 $RECIPES/stops_to_table.py 5 stops.keys < stops.txt > stops.csv
polytwkb pack < stops.csv > stops.twkb
cmp - stops.csv << 'END'
depth,kind,id,precision,polyline
0,point,,5,yop}Gysml@
0,point,,5,eip}Guill@
0,point,,5,g}o}G@
0,point,,5,
END
polytwkb unpack --geojson < stops.twkb | paste stops.keys -

# The other columns beside it, and the same stops again, with as many decimals as the precision.
python3 $RECIPES/stops_to_table.py --rest stops.rest 6 stops.keys < stops.txt | polytwkb pack > stops.twkb
polytwkb unpack < stops.twkb | python3 $RECIPES/table_to_stops.py stops.rest > again.txt
cmp - again.txt << 'END'
stop_id,stop_name,stop_lat,stop_lon
101,"Bern, Bahnhof",46.947966,7.447812
102,Hirschengraben,46.946905,7.441070
8507000:0:3,Loryplatz,46.945000,-0.000005
entrance,without a place,,
END

cat > places.csv << 'PLACES'
name,lon,lat,note
"Bern, Bahnhof",7.447812,46.947966,
PLACES
python3 $RECIPES/stops_to_table.py --columns name lat lon 5 places.keys < places.csv > places.table
head -n 2 stops.csv | cmp - places.table

sed 's/46.946905,/north,/' stops.txt > refused.txt
python3 $RECIPES/stops_to_table.py 5 refused.keys < refused.txt 2> fault.txt |
  { polytwkb pack > refused.twkb; } 2>&1 || cat fault.txt
