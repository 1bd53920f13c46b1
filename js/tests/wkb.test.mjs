// WKB beside that of PostGIS, GEOS and OGR (wkb.txt), hostile WKB, and boxes.
import assert from 'node:assert/strict';
import {readFileSync} from 'node:fs';
import test from 'node:test';
import * as polytwkb from '../polytwkb.js';
import {bytes, hex, outcome, written} from './rows.mjs';

const {Refused, boxes, fromWkb, geometries, load, packGeometries, read, split, toWkb, write} = polytwkb;

await load();

/** The geometries of the file: a WKT, and what is below it, as pairs of a word and the rest. */
function vectorsOf() {
    const vectors = [];
    for (const line of readFileSync(new URL('wkb.txt', import.meta.url), 'utf8').split('\n')) {
        if (!line || line.startsWith('#')) continue;
        const [, word, rest] = /^  (\w+) (.*)$/.exec(line) ?? [];
        if (word) vectors.at(-1).lines.push([word, rest]);
        else vectors.push({wkt: line, lines: []});
    }
    return vectors;
}

const VECTORS = vectorsOf(), RIGHT = VECTORS.filter(({lines}) => lines[0][0] === 'twkb');
const WKB = RIGHT.flatMap(({lines}) => lines.slice(1).map(([, digits]) => bytes(digits)));

/** What is due of each form: its blob in the plain style. */
const blobOf = ({lines}) => bytes(lines[0][1]);

test('WKB of blobs is that of PostGIS', () => {
    for (const vector of RIGHT) assert.deepEqual(toWkb(blobOf(vector)).map(hex), [vector.lines[1][1]], vector.wkt);
    const blobs = RIGHT.map(blobOf), due = RIGHT.map(({lines}) => lines[1][1]);
    assert.deepEqual(toWkb(Buffer.concat(blobs)).map(hex), due);
    assert.deepEqual(toWkb([null, ...blobs, undefined]).map(wkb => wkb && hex(wkb)), [null, ...due, null]);
});

test('blobs of WKB of each form are those of PostGIS', () => {
    assert.ok(WKB.length === 64);
    for (const vector of RIGHT) {
        for (const [, digits] of vector.lines.slice(1)) {
            const {blobs, offsets} = fromWkb(bytes(digits), 5, {style: 'plain'});
            assert.equal(hex(blobs), vector.lines[0][1], vector.wkt);
            assert.deepEqual([...offsets], [0, blobs.length]);
        }
    }
    const all = fromWkb([null, ...WKB, undefined], 5), shapes = RIGHT.flatMap(vector => geometries(blobOf(vector)));
    assert.deepEqual(geometries(split(all)), [null, ...shapes.flatMap(shape => Array(4).fill(shape)), null]);
    assert.deepEqual(fromWkb(new Set([WKB[0]]), 5), fromWkb([Buffer.from(WKB[0])], 5));
    assert.deepEqual(fromWkb([], 5), {blobs: new Uint8Array(0), offsets: Float64Array.of(0)});
});

test('what was read as WKB is the same again', () => {
    let count = 0;
    for (const stream of written()) {
        const wkb = toWkb(stream, {ids: 'drop'}), [{blobs}, said] = outcome(fromWkb, wkb, 7);
        if (said) assert.match(said, /^geometry \d+: byte \d+: coordinate out of range$/);
        else assert.deepEqual(toWkb(blobs).map(hex), wkb.map(hex));
        count += said ? 0 : wkb.length;
    }
    assert.ok(count > 100, count);
});

test('third and fourth coordinates, and other types, are refused by name', () => {
    let count = 0;
    for (const {wkt, lines} of VECTORS.filter(vector => !RIGHT.includes(vector))) {
        for (let at = 0; at < lines.length; at += 2, count++) {
            const wkb = bytes(lines[at][1]), [, place, text] = /^(\d+) (.*)$/.exec(lines[at + 1][1]);
            assert.throws(() => fromWkb(wkb, 5), {name: 'Refused', message: `byte ${place}: ${text}`}, wkt);
            const before = fromWkb([WKB[0], null], 5), message = `geometry 2: byte ${place}: ${text}`;
            assert.throws(() => fromWkb([WKB[0], null, wkb, WKB[1]], 5), {message, done: 2, output: before}, wkt);
        }
    }
    assert.equal(count, 17);
});

// a point, and a linestring of two points, little-endian: byte order, type, count, numbers
const POINT = bytes('0101000000000000000000f03f0000000000000040');
const LINE = bytes(`0102000000 02000000${'000000000000f03f'.repeat(4)}`);
const changed = (wkb, at, ...values) => {
    const other = wkb.slice();
    other.set(values, at);
    return other;
};
const collection = (...members) =>
    Uint8Array.from([1, 7, 0, 0, 0, members.length, 0, 0, 0, ...members.flatMap(member => [...member])]);
const nested = depth => depth ? collection(nested(depth - 1)) : POINT;
const [INFINITY, FAR] = ['000000000000f07f', '00000000000000c4'].map(bytes); // -2^65

test('each fault has its byte', () => {
    for (const [wkb, message, code, options] of [
             [new Uint8Array(0), 'byte 0: truncated', 'BLOB_TRUNCATED'],
             [changed(POINT, 0, 2), 'byte 0: byte order is neither 0 nor 1', 'BLOB_BAD_TYPE'],
             [changed(POINT, 1, 0), 'byte 1: unknown type', 'BLOB_BAD_TYPE'],
             [changed(POINT, 1, 0xa1, 0x0f), 'byte 1: unknown type', 'BLOB_BAD_TYPE'],
             [changed(POINT, 1, 0xe9, 0x03, 0, 0xc0), 'byte 1: Z and M coordinates', 'BLOB_EXTRA_DIMENSIONS'],
             [Uint8Array.of(...POINT, 0), 'byte 21: bytes after the geometry', 'BLOB_SIZE_MISMATCH'],
             [POINT.subarray(0, 20), 'byte 13: truncated', 'BLOB_TRUNCATED'],
             [changed(POINT, 5, ...INFINITY), 'byte 5: coordinate is no finite number', 'BLOB_RANGE'],
             [
                 changed(POINT, 13, 0, 0, 0, 0, 0, 0, 0xf8, 0x7f), 'byte 13: coordinate is no finite number',
                 'BLOB_RANGE'
             ],
             [changed(LINE, 17, ...INFINITY), 'byte 17: coordinate is no finite number', 'BLOB_RANGE'],
             [changed(LINE, 25, ...FAR), 'byte 25: coordinate out of range', 'BLOB_RANGE'],
             [changed(LINE, 33, ...FAR), 'byte 33: coordinate out of range', 'BLOB_RANGE'],
             // the first of two faults, also if the second one is of the form
             [changed(LINE, 17, ...FAR).subarray(0, 30), 'byte 17: coordinate out of range', 'BLOB_RANGE'],
             [collection(changed(LINE, 9, ...FAR), [7]), 'byte 18: coordinate out of range', 'BLOB_RANGE'],
             [changed(LINE, 5, 0xff, 0xff, 0xff, 0xff), 'byte 5: too many points', 'BLOB_TOO_MANY_POINTS'],
             [changed(LINE, 5, 0xff, 0xff, 0xff), 'byte 41: truncated', 'BLOB_TRUNCATED'],
             [LINE, 'byte 5: too many points', 'BLOB_TOO_MANY_POINTS', {points: 1}],
             [collection(POINT, POINT), 'byte 35: too many points', 'BLOB_TOO_MANY_POINTS', {points: 1}],
             [changed(collection(), 5, 0xff, 0xff, 0xff, 0xff), 'byte 5: too many nodes', 'BLOB_TOO_MANY_NODES'],
             [changed(collection(), 5, 0xff, 0xff), 'byte 9: truncated', 'BLOB_TRUNCATED'],
             [collection(POINT, POINT), 'byte 5: too many nodes', 'BLOB_TOO_MANY_NODES', {nodes: 2}],
             [nested(17), 'byte 153: nested too deep', 'BLOB_TOO_DEEP'],
             [nested(4), 'byte 27: nested too deep', 'BLOB_TOO_DEEP', {nest: 2}],
             [changed(collection(POINT), 1, 5), 'byte 10: kind not allowed there', 'BAD_PLACE'],
             [changed(collection(LINE), 1, 4), 'byte 10: kind not allowed there', 'BAD_PLACE'],
    ]) {
        assert.throws(() => fromWkb(wkb, 0, options), fault => {
            assert.ok(fault instanceof Refused);
            const {message: said, code: reason, place, done, output} = fault;
            assert.deepEqual([said, reason, done], [message, code, 0], hex(wkb));
            assert.equal(place, Number(/\d+/.exec(message)[0]));
            assert.deepEqual(output, {blobs: new Uint8Array(0), offsets: Float64Array.of(0)});
            return true;
        });
    }
    assert.equal(hex(toWkb(fromWkb(nested(16), 0).blobs)[0]), hex(nested(16)));
    assert.equal(hex(toWkb(fromWkb(nested(32), 0, {nest: 32}).blobs, {nest: 32})[0]), hex(nested(32)));
    // a fault of a geometry comes before one of the next, and the blobs before it are given
    const [far, cut] = [changed(LINE, 9, ...FAR), POINT.subarray(0, 5)], before = fromWkb([POINT], 0);
    assert.throws(() => fromWkb([POINT, far, cut], 0), {message: /^geometry 1: byte 9: coordinate/, output: before});
    assert.throws(() => fromWkb([POINT, cut, far], 0), {message: 'geometry 1: byte 5: truncated', output: before});
});

test('WKB that is cut or changed is refused, or is another geometry', () => {
    let refused = 0;
    for (const wkb of WKB) {
        for (let end = 0; end < wkb.length; end++) {
            const [, said] = outcome(fromWkb, wkb.subarray(0, end), 5);
            const place = /^byte (\d+): truncated$/.exec(said)?.[1];
            assert.ok(Number(place) <= end, `${hex(wkb)} cut at ${end}: ${said}`);
        }
        for (let bit = 0; bit < 8 * wkb.length; bit++) {
            const other = changed(wkb, bit >> 3, wkb[bit >> 3] ^ (1 << (bit & 7)));
            const [{blobs, offsets}, said] = outcome(fromWkb, other, 5);
            if (said) assert.match(said, /^byte \d+: /);
            else assert.equal(hex(fromWkb(toWkb(blobs), 5).blobs), hex(blobs));
            assert.equal(offsets.length, said ? 1 : 2);
            refused += Number(said !== '');
        }
    }
    assert.ok(refused > 5000, refused);
});

test('members have the precision of the call, and degrees are rounded as by write', () => {
    const numbers = [0.15, -0.15, 7.000005, -179.9832104, 1e-300, 89.99999995];
    const wkb = new Uint8Array(9 + 8 * numbers.length), view = new DataView(wkb.buffer);
    wkb.set([0, 0, 0, 0, 2, 0, 0, 0, numbers.length / 2]);
    for (const [at, number] of numbers.entries()) view.setFloat64(9 + 8 * at, number);
    for (const precision of [1, 5, 7, -2]) {
        const inside = fromWkb(collection(wkb, POINT), precision).blobs, {xy} = read(inside, {degrees: false});
        const arrays = read(fromWkb(wkb, precision).blobs);
        assert.deepEqual(
            xy.slice(0, -2), read(write({...arrays, xy: Float64Array.from(numbers)}), {degrees: false}).xy);
        const [{precision: own, geometries: members}] = geometries(inside, {degrees: false});
        assert.deepEqual([own, ...members.map(member => member.precision)], [precision, precision, precision]);
    }
});

test('ids are refused or left out', () => {
    const ids = {type: 'MultiPoint', coordinates: [[2, 1], [3, 4]], ids: [7, 8]}, {ids: _, ...none} = ids;
    const at = {type: 'Point', coordinates: [2, 1]}, within = {type: 'GeometryCollection', geometries: [ids]};
    for (const style of ['full', 'plain']) {
        for (const shape of [ids, within]) {
            const packed = packGeometries([at, shape, at], 0, {style}), [first] = toWkb(split(packed).slice(0, 1));
            const message = `byte ${packed.offsets[1]}: an id, which WKB cannot have: ids: 'drop' leaves ids out`;
            const expected = {name: 'Refused', message, code: 'ID_NOT_ALLOWED', done: 1, output: [first]};
            assert.throws(() => toWkb(packed.blobs), expected);
            assert.throws(() => toWkb(split(packed)), {message: /^blob 1: byte 0: an id, which WKB/, done: 1});
            const {wkb, refused} = toWkb(split(packed), {errors: 'collect'});
            assert.deepEqual([wkb, refused.map(({done}) => done)], [[first, null, first], [1]]);
            const dropped = fromWkb(toWkb(packed.blobs, {ids: 'drop'}), 0).blobs;
            const due = shape === ids ? none : {...within, geometries: [none]};
            assert.deepEqual(geometries(dropped), [at, due, at]);
        }
    }
});

test('wrong calls', () => {
    for (const [call, ...given] of [
             [toWkb, 'x'],
             [toWkb, null],
             [toWkb, POINT, null],
             [toWkb, POINT, {style: 'full'}],
             [toWkb, POINT, {errors: 'collect'}],
             [fromWkb, 'x', 5],
             [fromWkb, null, 5],
             [fromWkb, [7], 5],
             [fromWkb, POINT],
             [fromWkb, POINT, '5'],
             [fromWkb, POINT, 5, {ids: 'drop'}],
             [fromWkb, {}, 5],
             [boxes, 'x'],
             [boxes, new Uint8Array(0), {degrees: 1}],
             [boxes, POINT, {errors: 'collect'}],
    ])
        assert.throws(() => call(...given), TypeError, call.name);
    for (const [call, ...given] of [
             [toWkb, POINT, {ids: 'no'}],
             [toWkb, POINT, {nest: 33}],
             [fromWkb, POINT, 8],
             [fromWkb, POINT, 5, {style: 'Full'}],
             [boxes, [], {errors: 'ignore'}],
    ])
        assert.throws(() => call(...given), RangeError, call.name);
    assert.throws(() => fromWkb([POINT, 'x'], 5), {name: 'TypeError', message: 'WKB 1 is bytes, not string'});
});

test('boxes are those of the points', () => {
    const shapes = [
        {type: 'Point', coordinates: [2, -1]},
        {type: 'Point', coordinates: []},
        {type: 'LineString', coordinates: [[5, 6], [-7, 9], [1, 0.5]]},
        {type: 'Polygon', coordinates: [[[0, 0], [9, 0], [9, 9], [0, 0]], [[1, 1], [2, 1], [2, 2], [1, 1]]]},
        {type: 'MultiPolygon', coordinates: []},
        {type: 'MultiLineString', coordinates: [[], [[3, 4], [1, 2]], [[0, 8]]]},
        {type: 'GeometryCollection', geometries: [{type: 'GeometryCollection', geometries: []}]},
    ];
    const due = [[2, -1, 2, -1], null, [-7, 0.5, 5, 9], [0, 0, 9, 9], null, [0, 2, 3, 8], null];
    const packed = packGeometries([null, ...shapes], 1);
    for (const style of ['full', 'plain']) assert.deepEqual(boxes(packGeometries(shapes, 1, {style}).blobs), due);
    assert.deepEqual(boxes(split(packed)), [null, ...due]);
    const units = due.map(box => box && {box: box.map(number => BigInt(10 * number)), precision: 1});
    assert.deepEqual(boxes(packed.blobs, {degrees: false}), units);
    assert.deepEqual(boxes([Uint8Array.of(9)], {errors: 'collect'}).refused.map(({place}) => place), [0]);
    assert.throws(() => boxes(packed.blobs.subarray(0, -1)), {name: 'Refused', output: due.slice(0, -1)});
});

test('boxes of members of different precisions, and of numbers of any size', () => {
    const rows = (precision, point) => `1,point,,${precision},${polytwkb.encode([point])}\n`, most = 2n ** 62n - 1n;
    const text = `depth,kind,id,precision,polyline\n0,collection,,0,\n${rows(-1, [3, -4])}${rows(2, [-150, 25])}` +
        `0,point,,7,${polytwkb.encode([[most, -most]])}\n`;
    const blobs = polytwkb.pack(text);
    assert.deepEqual(boxes(blobs), [
        [-1.5, -40, 30, 0.25],
        [461168601842.7387903, -461168601842.7387903, 461168601842.7387903, -461168601842.7387903]
    ]);
    assert.deepEqual(boxes(blobs, {degrees: false}), [
        {box: [-150n, -4000n, 3000n, 25n], precision: 2},
        {box: [most, -most, most, -most], precision: 7},
    ]);
});
