#!/usr/bin/env bash
# Files of a GIS to a stream, with their attributes beside it, and back into a file, by ogr2ogr.
source "$(dirname "$0")/common.bash"
need python3 ogr2ogr ogrinfo

cat > lines.geojson << 'JSON'
{"type": "FeatureCollection", "features": [
  {"type": "Feature", "properties": {"name": "Bahnhof", "lines": 12}, "geometry":
    {"type": "LineString", "coordinates": [[7.44781, 46.94797, 540], [7.44432, 46.94758, 537]]}},
  {"type": "Feature", "properties": {"name": "Loryplatz", "lines": 3}, "geometry":
    {"type": "LineString", "coordinates": [[7.44107, 46.9469, 536], [7.4391, 46.94886, 538]]}}]}
JSON
ogr2ogr my.gpkg lines.geojson -nln my_layer -t_srs EPSG:2056
ogr2ogr -f 'ESRI Shapefile' my.shp my.gpkg

ogr2ogr -f GeoJSONSeq -lco COORDINATE_PRECISION=9 -t_srs EPSG:4326 -dim XY /vsistdout/ my.gpkg my_layer > my.geojsonl &&
  python3 $RECIPES/geojson_to_table.py --rest my.rest 6 < my.geojsonl | polytwkb pack > my.twkb
polytwkb unpack < my.twkb | python3 $RECIPES/table_to_geojson.py --rest my.rest > again.geojsonl
ogr2ogr again.gpkg again.geojsonl -nln my_layer

polytwkb unpack < my.twkb
ogrinfo -q again.gpkg my_layer | grep -v '^$' | cmp - <(
  cat << 'END'
Layer name: my_layer
OGRFeature(my_layer):1
  name (String) = Bahnhof
  lines (Integer) = 12
  LINESTRING (7.44781 46.94797,7.44432 46.94758)
OGRFeature(my_layer):2
  name (String) = Loryplatz
  lines (Integer) = 3
  LINESTRING (7.44107 46.9469,7.4391 46.94886)
END
)

# A shapefile gives the same stream.
ogr2ogr -f GeoJSONSeq -lco COORDINATE_PRECISION=9 -t_srs EPSG:4326 -dim XY /vsistdout/ my.shp > shapefile.geojsonl
python3 $RECIPES/geojson_to_table.py 6 < shapefile.geojsonl | polytwkb pack | cmp - my.twkb

# With the decimals that are its default ogr2ogr writes -26.4 here.
echo '{"type": "Point", "coordinates": [131.418338, -26.399999]}' > nines.geojsonl
ogr2ogr -f GeoJSONSeq -lco COORDINATE_PRECISION=9 /vsistdout/ nines.geojsonl |
  python3 $RECIPES/geojson_to_table.py 6 | cmp - <(python3 $RECIPES/geojson_to_table.py 6 < nines.geojsonl)
