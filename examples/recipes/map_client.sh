#!/usr/bin/env bash
# A stream read by a map client: the package for JavaScript in node, whole, and as its bytes come up to a cut.
source "$(dirname "$0")/common.bash"
need node

package=$here/../../js
[ -e "$package/polytwkb.wasm" ] || {
  echo "skipped: needs make wasm"
  exit 0
}
polytwkb pack > shapes.twkb << 'END'
depth,kind,id,precision,polyline
0,linestring,,5,yop}Gysml@lAxTfChSgKhK
0,polygon,,0,
1,ring,,,???wBoA??vBnA?
1,ring,,,Sg@g@??g@f@??f@
0,collection,,5,
1,multipoint,1,5,
2,point,101,,yop}Gysml@
2,point,102,,cip}Guill@
1,linestring,2,5,
END

cat > client.mjs << END
import { createReadStream, readFileSync } from 'node:fs';
import { geometries, load, stream } from '$package/polytwkb.js';

await load();
for (const geometry of geometries(readFileSync('shapes.twkb'))) console.log(JSON.stringify(geometry));
let count = 0;
try {
    for await (const blobs of stream(createReadStream('shapes.twkb', { end: 79 }))) count += geometries(blobs).length;
} catch (fault) {
    console.log(\`\${count} geometries, and then \${fault.message}\`);
}
END
node client.mjs > seen.txt

printf 'depth,kind,id,precision,polyline\n0,linestring,,5,yop}Gysml@lAxTfChSgKhK\n0,linestring,,5,AC\n' | polytwkb pack > lines.twkb
cat > layers.mjs << END
import { readFileSync } from 'node:fs';
import { load } from '$package/polytwkb.js';
import { deckPaths, mapLibreSource } from '$package/examples/libraries/layers.js';

await load();
const { length, startIndices, attributes: { getPath } } = deckPaths(readFileSync('lines.twkb'));
console.log(length, 'paths from', startIndices.join(' '), 'of', getPath.value.length / getPath.size, 'points');
const { type, data } = mapLibreSource(readFileSync('lines.twkb'), at => ({ id: at }));
console.log(type, JSON.stringify(data.features[1]));
END
node layers.mjs >> seen.txt

cat > due.txt << 'END'
{"type":"LineString","coordinates":[[7.44781,46.94797],[7.44432,46.94758],[7.44107,46.9469],[7.4391,46.94886]]}
{"type":"Polygon","coordinates":[[[0,0],[60,0],[60,40],[0,40],[0,0]],[[20,10],[20,30],[40,30],[40,10],[20,10]]]}
{"type":"GeometryCollection","geometries":[{"type":"MultiPoint","coordinates":[[7.44781,46.94797],[7.44107,46.9469]],"ids":[101,102]},{"type":"LineString","coordinates":[]}],"ids":[1,2]}
2 geometries, and then byte 80: truncated
2 paths from 0 4 5 of 5 points
geojson {"type":"Feature","properties":{"id":1},"geometry":{"type":"LineString","coordinates":[[0.00002,0.00001]]}}
END
cat seen.txt
cmp seen.txt due.txt
