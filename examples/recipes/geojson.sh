#!/usr/bin/env bash
# GeoJSON to a stream, and a stream back to GeoJSON, a line for each geometry.
source "$(dirname "$0")/common.bash"
need python3

cat > my.geojson << 'JSON'
{"type": "FeatureCollection", "features": [
  {"type": "Feature", "id": 12, "properties": {"name": "stop"}, "geometry":
    {"type": "Point", "coordinates": [7.4478125, 46.947965]}},
  {"type": "Feature", "properties": {"name": "park"}, "geometry": {"type": "Polygon", "coordinates":
    [[[0, 0], [0.6, 0], [0.6, 0.4], [0, 0.4], [0, 0]], [[0.2, 0.1], [0.2, 0.3], [0.4, 0.3], [0.4, 0.1], [0.2, 0.1]]]}},
  {"type": "Feature", "properties": {"zone": 1.50}, "geometry": {"type": "GeometryCollection", "geometries": [
    {"type": "MultiPoint", "coordinates": [[7.44781, 46.94797], [7.44107, 46.9469]]},
    {"type": "LineString", "coordinates": []}]}}]}
JSON

python3 $RECIPES/geojson_to_table.py 6 < my.geojson | polytwkb pack > my.twkb
polytwkb unpack < my.twkb > my.csv
cmp - my.csv << 'END'
depth,kind,id,precision,polyline
0,point,,6,yfnpxAioqeM
0,polygon,,6,
1,ring,,,???_{rc@_glW??~zrc@~flW?
1,ring,,,_ibE_seK_seK??_seK~reK??~reK
0,collection,,6,
1,multipoint,,6,
2,point,,,cgnpxAcoqeM
2,point,,,gdlpxA{ideM
1,linestring,,6,
END
polytwkb unpack --geojson < my.twkb > again.geojsonl
cmp - again.geojsonl << 'END'
{"type":"Point","coordinates":[7.447813,46.947965]}
{"type":"Polygon","coordinates":[[[0,0],[0.6,0],[0.6,0.4],[0,0.4],[0,0]],[[0.2,0.1],[0.2,0.3],[0.4,0.3],[0.4,0.1],[0.2,0.1]]]}
{"type":"GeometryCollection","geometries":[{"type":"MultiPoint","coordinates":[[7.44781,46.94797],[7.44107,46.9469]]},{"type":"LineString","coordinates":[]}]}
END
python3 $RECIPES/geojson_to_table.py 6 < again.geojsonl | cmp - my.csv

# All else beside the stream, and features again.
python3 $RECIPES/geojson_to_table.py --rest my.rest 6 < my.geojson | polytwkb pack > my.twkb
polytwkb unpack < my.twkb | python3 $RECIPES/table_to_geojson.py --rest my.rest > again.geojsonl
grep '"stop"' again.geojsonl
polytwkb unpack < my.twkb | python3 $RECIPES/table_to_geojson.py --rest my.rest --collection > again.geojson
head -n 2 again.geojson | cmp - <(echo '{"type":"FeatureCollection","features":[' && grep '"stop"' again.geojsonl | sed 's/$/,/')
python3 $RECIPES/geojson_to_table.py 6 < again.geojson | cmp - my.csv

# Polylines alone, a line for each feature: halfway is away from zero, and a geometry of parts has none of its own.
python3 $RECIPES/geojson_to_table.py 5 < my.geojson > my.table &&
  awk -F, '$1 == 0 { print $5 }' my.table > my.polylines
printf 'yop}Gysml@\n\n\n' | cmp - my.polylines

# Lines of GeoJSON, with marks of a text sequence or without, are the same features.
sed '1 s/^/\x1e/' again.geojsonl | python3 $RECIPES/geojson_to_table.py 6 | cmp - my.csv

# What is refused, and by pack too.
refused() {
  if echo "$1" | python3 $RECIPES/geojson_to_table.py 5 2> fault.txt | polytwkb pack > refused.twkb 2> packed.txt; then
    exit 1
  fi
  [ "$(tail -n 1 packed.txt)" = "polytwkb: record 2: not five fields" ]
  cat fault.txt
}
refused '{"type": "Feature", "properties": {}, "geometry": {"type": "Point", "coordinates": [7.4, 46.9, 540]}}'
refused '{"type": "FeatureCollection", "features": [{"type": "Feature", "properties": {}, "geometry": null}]}'
refused '{"type": "LineString", "coordinates": [[7.4, 46.9], [null, null]]}'
refused '{"type": "Topology", "objects": {}}'
refused '[{"type": "Point", "coordinates": [7.4, 46.9]}]'
