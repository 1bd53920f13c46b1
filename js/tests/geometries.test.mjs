// Geometries for maps: beside a second decoder, beside the rows of the table, and as whole numbers.
import assert from 'node:assert/strict';
import test from 'node:test';
import * as polytwkb from '../polytwkb.js';
import * as plain from './plain_decoder.mjs';
import {bytes, hex, postgis, table, within, written} from './rows.mjs';

await polytwkb.load();

// Its numbers are exact up to 2^53, for precisions from 0 up.
test('geometries are those of the plain decoder', () => {
    let count = 0;
    for (const stream of written()) {
        if (polytwkb.show(stream).some(({precision}) => precision < 0)) continue;
        let expected;
        try {
            expected = plain.geometries(stream);
        } catch (fault) {
            assert.match(fault.message, /number past/);
            continue;
        }
        assert.deepEqual(polytwkb.geometries(stream), expected);
        count++;
    }
    assert.ok(count > 80, count);
});

/** The rows that a geometry would have in a table, with points for the polyline. */
function* rowsOf({type, coordinates, geometries, ids}, depth = 0, id = undefined) {
    const kind = type === 'GeometryCollection' ? 'collection' : type.toLowerCase();
    yield [depth, kind, id, kind === 'point' || kind === 'linestring' ? coordinates : null];
    const parts = {Polygon: 'ring', MultiPoint: 'point', MultiLineString: 'linestring'}[type];
    if (parts)
        for (const [place, part] of coordinates.entries()) yield [depth + 1, parts, ids?.[place], part];
    const polygons = type === 'MultiPolygon' && coordinates.map(part => ({type: 'Polygon', coordinates: part}));
    const members = polygons || geometries;
    if (members)
        for (const [place, member] of members.entries()) yield* rowsOf(member, depth + 1, ids?.[place]);
}

const POINTED = new Set(['linestring', 'ring']);

/** The rows of the text of a table, with the points that a reading of the polyline gives. */
function rowsOfText(lines, read) {
    let precision = 0;
    return lines.map(line => {
        const [depth, kind, id, decimals, text] = line.split(',');
        if (decimals) precision = Number(decimals);
        const points = read(text, precision), number = Number.isSafeInteger(Number(id)) ? Number(id) : BigInt(id);
        const coordinates = kind === 'point' ? points[0] ?? [] : POINTED.has(kind) ? points : null;
        return [Number(depth), kind, id === '' ? undefined : number, coordinates];
    });
}

function* streams() {
    for (const {given, limits, expected} of within('tables', 'full')) {
        if (!expected[1]) yield [polytwkb.pack(table(given), {...limits, style: 'plain'}), limits];
    }
    for (const {hex: blob} of postgis) yield [bytes(blob)];
}

const linesOf = (stream, limits) => postgis.find(vector => vector.hex === hex(stream))?.rows ??
    polytwkb.unpack(stream, limits).split('\n').slice(1, -1);

test('geometries and rows say the same', () => {
    for (const [stream, limits] of streams()) {
        const rows = polytwkb.geometries(stream, limits).flatMap(geometry => [...rowsOf(geometry)]);
        assert.deepEqual(rows, rowsOfText(linesOf(stream, limits), polytwkb.decode));
    }
});

const exactly = text => {
    const numbers = [...polytwkb.decodeFlat(text)];
    return Array.from({length: numbers.length / 2}, (_, place) => numbers.slice(2 * place, 2 * place + 2));
};

test('exact geometries and rows say the same', () => {
    for (const [stream, limits] of streams()) {
        const found = polytwkb.geometries(stream, {...limits, degrees: false});
        const rows = found.flatMap(geometry => [...rowsOf(geometry)]);
        assert.deepEqual(rows, rowsOfText(linesOf(stream, limits), exactly));
        const roots = polytwkb.show(stream, limits).filter(({level}) => level === 0);
        assert.deepEqual(found.map(({precision}) => precision), roots.map(({precision}) => precision));
    }
});

test('numbers of any size', () => {
    const most = 2n ** 62n - 1n, id = 2n ** 60n;
    const text = polytwkb.encode([[most, -(2n ** 62n)]]);
    const stream = polytwkb.pack(table(`0,collection,,0,/1,point,${id},7,${text}/1,point,-5,-3,${text}/`));
    const [geometry] = polytwkb.geometries(stream), [exact] = polytwkb.geometries(stream, {degrees: false});
    assert.deepEqual(geometry.ids, [id, -5]);
    assert.deepEqual(geometry.geometries[0].coordinates, [461168601842.7388, -461168601842.7388]);
    assert.deepEqual(geometry.geometries[1].coordinates, [4.611686018427388e21, -4.611686018427388e21]);
    assert.deepEqual(exact.geometries[1], {type: 'Point', coordinates: [most, -(2n ** 62n)], precision: -3});
});

test('large geometries', () => {
    const line = Array.from({length: 70000}, (_, place) => [place, 1 - place]);
    const stream = polytwkb.pack(table(`0,linestring,,0,${polytwkb.encode(line)}/`.repeat(3) + '0,point,,0,AC/'));
    const found = polytwkb.geometries(stream);
    assert.deepEqual(found.map(({type}) => type), ['LineString', 'LineString', 'LineString', 'Point']);
    for (const {coordinates} of found.slice(0, 3)) assert.deepEqual(coordinates, line);
});
