// Text of GeoJSON: by hand, and beside the geometries of the package as JSON.parse reads it.
import assert from 'node:assert/strict';
import test from 'node:test';
import * as polytwkb from '../polytwkb.js';
import {bytes, hex, outcome, table, within, written} from './rows.mjs';

const {geometries, load, pack, stream, toGeojson, toGeojsonBytes, write} = polytwkb;

await load();

// Rows, and the line of each geometry.
const LINES = [
    ['0,point,,5,_p~iF~ps|U/', '{"type":"Point","coordinates":[-120.2,38.5]}'],
    ['0,point,,-2,AA/', '{"type":"Point","coordinates":[100,100]}'],
    ['0,point,,7,/', '{"type":"Point","coordinates":[]}'],
    ['0,point,,1,HH/', '{"type":"Point","coordinates":[-0.5,-0.5]}'],
    ['0,polygon,,0,/1,ring,,,AAGG/1,ring,,,/', '{"type":"Polygon","coordinates":[[[1,1],[5,5]],[]]}'],
    [
        '0,multipoint,,0,/1,point,7,,AC/1,point,-8,,GE/',
        '{"type":"MultiPoint","ids":[7,-8],"coordinates":[[2,1],[3,4]]}',
    ],
    [
        '0,collection,,0,/1,multipoint,3,0,/2,point,9,,AC/1,collection,4,0,/2,point,,1,AC/',
        '{"type":"GeometryCollection","ids":[3,4],"geometries":[{"type":"MultiPoint","ids":[9],"coordinates":[[2,1]]},' +
            '{"type":"GeometryCollection","geometries":[{"type":"Point","coordinates":[0.2,0.1]}]}]}',
    ],
];
const blobs = pack(table(LINES.map(([rows]) => rows).join('')));

test('lines by hand', () => {
    assert.deepEqual(toGeojson(blobs).split('\n'), [...LINES.map(([, line]) => line), '']);
    assert.deepEqual(toGeojsonBytes(blobs), new TextEncoder().encode(toGeojson(blobs)));
    assert.equal(toGeojson(new Uint8Array(0)), '');
});

test('both ends of the units have all their digits', () => {
    const arrays = precision => ({
        depths: Uint8Array.of(0),
        kinds: Uint8Array.of(1),
        precisions: Int8Array.of(precision),
        offsets: Uint32Array.of(0, 1),
        xy: BigInt64Array.of(-(2n ** 62n), 2n ** 62n - 1n),
    });
    const textOf = precision => /\[.*\]/.exec(toGeojson(write(arrays(precision))))[0];
    assert.equal(textOf(7), '[-461168601842.7387904,461168601842.7387903]');
    assert.equal(textOf(0), '[-4611686018427387904,4611686018427387903]');
    assert.equal(textOf(-8), '[-461168601842738790400000000,461168601842738790300000000]');
});

/** A value with plain numbers: ids past 2^53 are BigInt in geometries, and the nearest number in JSON. */
const plain = value => JSON.parse(JSON.stringify(value, (_, it) => (typeof it === 'bigint' ? Number(it) : it)));

test('each line reads as its geometry', () => {
    let count = 0;
    const streams = [...written(), ...[...within('streams', 'unpack')].map(({given}) => bytes(given))];
    for (const given of streams) {
        const [text, refusal] = outcome(toGeojson, given), [shapes, same] = outcome(geometries, given);
        assert.equal(refusal, same, hex(given));
        assert.deepEqual(text.split('\n').slice(0, -1).map(line => JSON.parse(line)), plain(shapes), hex(given));
        count += shapes.length;
    }
    assert.ok(count > 100, count);
});

test('a stream in parts gives the lines of the whole', async () => {
    const pieces = Array.from({length: blobs.length}, (_, at) => blobs.subarray(at, at + 1)), found = [];
    for await (const part of stream(pieces)) found.push(toGeojson(part));
    assert.equal(found.join(''), toGeojson(blobs));
});
