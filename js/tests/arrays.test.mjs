// Geometries as typed arrays: beside the rows of tables, and what is refused.
import assert from 'node:assert/strict';
import test from 'node:test';
import * as polytwkb from '../polytwkb.js';
import {bytes, postgis, table, within} from './rows.mjs';

const {decodeFlat, pack, read, split, unpack, Refused} = polytwkb;

await polytwkb.load();

const KINDS = [
    '',
    'point',
    'linestring',
    'polygon',
    'multipoint',
    'multilinestring',
    'multipolygon',
    'collection',
    'ring',
];
const NO_PRECISION = -128;
const COLLECTION = table(
    '0,collection,,5,/1,multipoint,1,5,/2,point,101,,yop}Gysml@/1,linestring,-2,-1,AAGG/0,point,,0,AC/',
);

/** Arrays as the rows of a table, with points for the polyline. */
function rowsOf({depths, kinds, precisions, hasIds, ids, offsets, xy}) {
    return Array.from(depths, (depth, row) => {
        const id = hasIds[row] ? String(ids[row]) : '';
        const precision = precisions[row] === NO_PRECISION ? '' : precisions[row];
        return [depth, KINDS[kinds[row]], id, precision, xy.slice(2 * offsets[row], 2 * offsets[row + 1])];
    });
}

function rowsOfText(text) {
    return text.split('\n').slice(1, -1).map(line => {
        const [depth, kind, id, precision, polyline] = line.split(',');
        return [Number(depth), kind, id, precision === '' ? '' : Number(precision), decodeFlat(polyline)];
    });
}

function* streams() {
    for (const {given, limits, expected} of within('tables', 'full')) {
        if (!expected[1]) yield [pack(table(given), limits), limits];
    }
    for (const {hex: blob} of postgis) yield [bytes(blob), {}];
}

test('arrays and rows of the table say the same', () => {
    let count = 0;
    for (const [stream, limits] of streams()) {
        assert.deepEqual(rowsOf(read(stream, {...limits, degrees: false})), rowsOfText(unpack(stream, limits)));
        count++;
    }
    assert.ok(count > 80);
});

test('degrees are those of geometries', () => {
    const {xy, offsets, precisions} = read(pack(COLLECTION));
    assert.deepEqual([...xy], [7.44781, 46.94797, 10, 10, 50, 50, 2, 1]);
    assert.deepEqual([...offsets], [0, 0, 0, 1, 3, 4]);
    assert.deepEqual([...precisions], [5, 5, NO_PRECISION, -1, 0]);
});

test('a cut stream is refused after its arrays', () => {
    const blobs = pack(COLLECTION), cut = blobs.subarray(0, -1), [first] = split(blobs);
    assert.throws(() => read(cut), fault => {
        assert.ok(fault instanceof Refused);
        const {message, code, place, done} = fault, at = blobs.length - 1;
        assert.deepEqual([message, code, place, done], [`byte ${at}: truncated`, 'BLOB_TRUNCATED', at, 1]);
        assert.deepEqual(fault.output, read(first));
        return true;
    });
});

test('wrong options', () => {
    assert.throws(() => read('text'), TypeError);
    assert.throws(() => read(new Uint8Array(0), {degrees: 'yes'}), TypeError);
    assert.throws(() => read(new Uint8Array(0), null), TypeError);
});
