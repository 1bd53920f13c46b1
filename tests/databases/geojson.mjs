// GeoJSON of the databases beside the geometries and the text of the package for JavaScript:
//
//   node geojson.mjs FILE
//
// FILE has a line for each blob, its hexadecimal digits and its GeoJSON. The text is the same; numbers are compared with
// those of the geometries as JavaScript has them.
import assert from 'node:assert/strict';
import {createReadStream} from 'node:fs';
import {createInterface} from 'node:readline';
import {geometries, load, toGeojson} from '../../js/polytwkb.js';

await load();

// an id past 2^53 is a BigInt in the package, and a number that is near it in JSON
const plain = (_, value) => (typeof value === 'bigint' ? Number(value) : value);

let count = 0;
for await (const line of createInterface({input: createReadStream(process.argv[2])})) {
    const space = line.indexOf(' '), blob = Buffer.from(line.slice(0, space), 'hex');
    const [expected] = geometries(blob), text = line.slice(space + 1);
    assert.equal(toGeojson(blob), `${text}\n`);
    assert.deepEqual(JSON.parse(text), JSON.parse(JSON.stringify(expected, plain)), line);
    count++;
}
assert.ok(count > 50, `${count} blobs`);
console.log(`${count} blobs, none differs`);
