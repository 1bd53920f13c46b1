#!/usr/bin/env bash
# Answers of routing engines to streams: OSRM, Valhalla, GraphHopper and Google Routes, in the form that each documents.
source "$(dirname "$0")/common.bash"
need python3 jq

mkdir osrm valhalla graphhopper google
cat > osrm/1.json << 'JSON'
{"code": "Ok", "routes": [{"distance": 889.2, "geometry": "yop}Gysml@lAxTfChSgKhK"},
    {"distance": 650.3}, {"distance": 912.4, "geometry": "cip}Guill@\\E~@vD"}]}
JSON
echo '{"code": "NoRoute", "message": "Impossible route between points"}' > osrm/2.json
cat > valhalla/1.json << 'JSON'
{"trip": {"status": 0, "units": "kilometers", "legs": [{"shape": "cgnpxAcoqeMjWbyEni@bjEoyBbzB"}]}}
JSON
cat > graphhopper/1.json << 'JSON'
{"paths": [{"distance": 889.2, "points_encoded": true, "points_encoded_multiplier": 100000.0,
    "points": "yop}Gysml@lAxTfChSgKhK"}]}
JSON
cat > google/1.json << 'JSON'
{"routes": [{"distanceMeters": 650},
    {"distanceMeters": 889, "polyline": {"encodedPolyline": "yop}Gysml@lAxTfChSgKhK"}}]}
JSON

jq -rn '"depth,kind,id,precision,polyline",
    (inputs | .routes[]?.geometry | values | "0,linestring,,5," + .)' osrm/*.json > osrm.table &&
  polytwkb pack < osrm.table > osrm.twkb
jq -rn '"depth,kind,id,precision,polyline",
    (inputs | .trip.legs[]?.shape | values | "0,linestring,,6," + .)' valhalla/*.json > valhalla.table &&
  polytwkb pack < valhalla.table > valhalla.twkb
jq -rn '"depth,kind,id,precision,polyline",
    (inputs | .paths[]?.points | values | "0,linestring,,5," + .)' graphhopper/*.json > graphhopper.table &&
  polytwkb pack < graphhopper.table > graphhopper.twkb
jq -rn '"depth,kind,id,precision,polyline",
    (inputs | .routes[]?.polyline.encodedPolyline | values | "0,linestring,,5," + .)' google/*.json > google.table &&
  polytwkb pack < google.table > google.twkb

# The files that the blobs come from, a line for each.
jq -r '.routes[]?.geometry | values | input_filename' osrm/*.json > osrm.keys

polytwkb unpack < osrm.twkb | tail -n +2 | paste osrm.keys -
for service in osrm valhalla graphhopper google; do
  polytwkb unpack --geojson < $service.twkb | sed -n 1p
done | uniq -c | sed 's/^ *//'

# Four points with heights are read as six, of which five are 60 km from the route.
echo '{"paths": [{"points": "yop}Gysml@gohBlAxTnPfChS~HgKhK{J"}]}' > graphhopper/1.json
jq -rn '"depth,kind,id,precision,polyline", (inputs | .paths[]?.points | "0,linestring,,5," + .)' graphhopper/*.json |
  polytwkb pack > heights.twkb
polytwkb unpack --geojson < heights.twkb | cmp - <(
  echo '{"type":"LineString","coordinates":[[7.44781,46.94797],[7.44742,47.48817],[7.44462,47.48468],[7.44137,47.484],[7.44333,47.4824],[7.44523,47.48043]]}'
)

# As coordinates instead, of which --xy takes the first two.
cat > answer.json << 'JSON'
{"paths": [{"points_encoded": false, "points": {"type": "LineString", "coordinates":
    [[7.44781, 46.94797, 540.2], [7.44432, 46.94758, 537.4], [7.44107, 46.9469, 535.8], [7.4391, 46.94886, 537.7]]}}]}
JSON
jq -c '.paths[].points' answer.json > answer.geojsonl &&
  python3 $RECIPES/geojson_to_table.py --xy 5 < answer.geojsonl | polytwkb pack > answer.twkb
cmp answer.twkb graphhopper.twkb

# A polyline of HERE, in another alphabet.
polyline=BFoz5xJ67i1B1B7PzIhaxL7Y
if printf '%s\n' depth,kind,id,precision,polyline 0,linestring,,5,$polyline | polytwkb pack 2> fault.txt; then exit 1; fi
[ "$(cat fault.txt)" = "polytwkb: record 2: polyline at 4: bad character" ]
