// Columns of a database: lists of blobs to geometries, and geometries to blobs.
import assert from 'node:assert/strict';
import test from 'node:test';
import {Worker} from 'node:worker_threads';
import {bytes} from './rows.mjs';
import {Limits, Refused, geometries, load, packGeometries, read, split, stream, write} from '../polytwkb.js';

await load();

// by hand from the TWKB specification: type and precision, metadata (2: a size), size, x and y in zigzag form
const [POINT, LINE] = [bytes('0102020402'), bytes('0200020a0c0406')];
const [AT, ALONG] = [{type: 'Point', coordinates: [2, 1]}, {type: 'LineString', coordinates: [[5, 6], [7, 9]]}];
// a multipoint of (2, 1) and (3, 4), with the ids 7 and 8, its size, and its box
const MEMBERS = bytes('04070b04020206020e1004020206');
const BOTH = {
    type: 'MultiPoint',
    coordinates: [[2, 1], [3, 4]],
    ids: [7, 8]
};
const join = (...blobs) => Buffer.concat(blobs);

test('a column keeps its places', () => {
    for (const list
             of [[POINT, null, LINE],
                 [POINT.buffer.slice(POINT.byteOffset, POINT.byteOffset + 5), undefined, Buffer.from(LINE)]]) {
        assert.deepEqual(geometries(list), [AT, null, ALONG]);
    }
    assert.deepEqual(geometries(new Set([LINE, POINT])), [ALONG, AT]);
    assert.deepEqual(geometries([]), []);
    assert.deepEqual(geometries([null]), [null]);
    assert.deepEqual(geometries([MEMBERS], {degrees: false})[0].coordinates, [[2n, 1n], [3n, 4n]]);
});

test('an item that is not one blob is refused by its number', () => {
    const cut = POINT.subarray(0, 4);
    for (const [item, message, code, place] of [
             [new Uint8Array(0), 'blob 1: byte 0: truncated', 'BLOB_TRUNCATED', 0],
             [cut, 'blob 1: byte 4: truncated', 'BLOB_TRUNCATED', 4],
             [join(POINT, LINE), 'blob 1: byte 5: size mismatch', 'BLOB_SIZE_MISMATCH', 5],
             [join(POINT, cut), 'blob 1: byte 5: size mismatch', 'BLOB_SIZE_MISMATCH', 5],
             [join(POINT, Uint8Array.of(0)), 'blob 1: byte 5: size mismatch', 'BLOB_SIZE_MISMATCH', 5],
    ]) {
        assert.throws(() => geometries([LINE, item, POINT]), fault => {
            assert.ok(fault instanceof Refused);
            assert.deepEqual([fault.message, fault.code, fault.place, fault.done], [message, code, place, 1]);
            assert.deepEqual(fault.output, [ALONG]);
            return true;
        });
        const {geometries: found, refused} = geometries([LINE, item, null, POINT], {errors: 'collect'});
        assert.deepEqual(found, [ALONG, null, null, AT]);
        assert.deepEqual(refused.map(fault => fault.message), [message]);
    }
    // the bytes of both items together are two blobs
    assert.throws(
        () => geometries([join(POINT, LINE.subarray(0, 3)), LINE.subarray(3)]),
        {message: 'blob 0: byte 5: size mismatch'});
    assert.throws(() => geometries([join(POINT, LINE), new Uint8Array(0)]), {message: 'blob 0: byte 5: size mismatch'});
    assert.throws(() => geometries([POINT, '0102020402']), {name: 'TypeError', message: 'blob 1 is bytes, not string'});
    assert.deepEqual(geometries([POINT], {errors: 'collect'}), {geometries: [AT], refused: []});
    assert.throws(() => geometries(POINT, {errors: 'collect'}), TypeError);
    assert.throws(() => geometries([POINT], {errors: 'ignore'}), RangeError);
});

test('unknown options are refused', async () => {
    for (const options of [{maxNest: 2}, {exact: true}, {node: 5}]) {
        for (const call of [geometries, read]) assert.throws(() => call(POINT, options), /there is no option/);
        assert.throws(() => split(POINT, options), /there is no option/);
        assert.throws(() => packGeometries([AT], 0, options), /there is no option/);
        assert.throws(() => write(read(POINT), options), /there is no option/);
        assert.throws(() => new Limits(options), /there is no option/);
        await assert.rejects(stream([POINT], options).next(), /there is no option/);
    }
});

test('geometries are packed', () => {
    const {blobs, offsets} =
        packGeometries([AT, null, BOTH, {type: 'Feature', geometry: null}, ALONG], 0, {style: 'plain'});
    assert.deepEqual(
        Buffer.from(blobs).toString('hex'),
        '01000402' +
            '0404020e1004020206' +
            '0200020a0c0406');
    assert.deepEqual([...offsets], [0, 4, 4, 13, 13, 20]);
    assert.deepEqual(
        geometries(packGeometries({type: 'FeatureCollection', features: [{type: 'Feature', geometry: AT}]}, 0).blobs),
        [AT]);
    assert.deepEqual(packGeometries(BOTH, 0).blobs, MEMBERS);
    assert.deepEqual(geometries(packGeometries(BOTH, 0, {ids: false}).blobs)[0].ids, undefined);
});

test('what was read is packed to the same bytes', () => {
    const shapes = [
        AT,
        {type: 'Point', coordinates: []},
        ALONG,
        BOTH,
        {type: 'Polygon', coordinates: [[[0, 0], [9, 0], [9, 9], [0, 0]], [[1, 1], [2, 1], [2, 2], [1, 1]]]},
        {type: 'MultiLineString', coordinates: [[[1, 2], [3, 4]], []], ids: [-1, 2]},
        {type: 'MultiPolygon', coordinates: [[[[0, 0], [1, 0], [1, 1], [0, 0]]], []]},
        {type: 'GeometryCollection', geometries: [AT, {type: 'GeometryCollection', geometries: [ALONG]}], ids: [3, 4]},
    ];
    const {blobs} = packGeometries(shapes, 3);
    assert.deepEqual(geometries(blobs), shapes);
    const units = geometries(blobs, {degrees: false});
    assert.deepEqual(packGeometries(units).blobs, blobs);
    assert.equal(units[0].precision, 3);
});

test('ids of any size are packed again', () => {
    const safe = 2n ** 53n - 1n, exact = [safe, -safe], large = [safe + 1n, -safe - 1n, 2n ** 63n - 1n, -(2n ** 63n)];
    const ids = [...exact.map(Number), ...large], coordinates = ids.map((_, at) => [at, 0]);
    const {blobs} = packGeometries({type: 'MultiPoint', coordinates, ids}, 0), [found] = geometries(blobs);
    assert.deepEqual(found.ids, ids);
    assert.deepEqual(packGeometries([found], 0).blobs, blobs);
    for (const wrong of [2 ** 53, -(2 ** 53), 2n ** 63n]) {
        const given = {type: 'MultiPoint', coordinates: [[0, 0]], ids: [wrong]};
        assert.throws(() => packGeometries([given], 0), /^RangeError: geometry 0: an id is a whole number of 64 bits/);
    }
});

test('points may be typed arrays', () => {
    const line = {type: 'LineString', coordinates: [Float64Array.of(5, 6), Float32Array.of(7, 9)]};
    assert.deepEqual(packGeometries([{type: 'Point', coordinates: Int8Array.of(2, 1)}], 0).blobs, POINT);
    assert.deepEqual(Buffer.from(packGeometries([line], 0, {style: 'plain'}).blobs), Buffer.from(LINE));
    assert.throws(() => packGeometries([{type: 'LineString', coordinates: Float64Array.of(5, 6)}], 0), {
        name: 'TypeError',
        message: 'geometry 0: points are a list, not number',
    });
});

test('what cannot be packed is refused by its number', () => {
    for (const [given, Type, message] of [
             [{type: 'Point', coordinates: [1, 2, 3]}, TypeError, /^geometry 1: a point has a height/],
             [{type: 'Point', coordinates: [1]}, TypeError, /^geometry 1: a point is a pair/],
             [{type: 'Circle'}, RangeError, /^geometry 1: a geometry has no type Circle/],
             [{type: 'LineString'}, TypeError, /^geometry 1: coordinates are a list, not undefined/],
             [{...BOTH, ids: [1]}, RangeError, /^geometry 1: there are 1 ids for 2 members/],
             [{...BOTH, ids: [1, 1.5]}, RangeError, /^geometry 1: an id is a whole number/],
             ['x', TypeError, /^geometry 1: a geometry is an object/],
    ]) {
        assert.throws(
            () => packGeometries([AT, given], 0), fault => fault instanceof Type && message.test(fault.message));
    }
    const high = {type: 'LineString', coordinates: [[1, 2, 3], [4, 5, 6]]};
    assert.deepEqual(geometries(packGeometries([high], 0, {heights: 'drop'}).blobs)[0].coordinates, [[1, 2], [4, 5]]);
    assert.throws(() => packGeometries([AT, {...BOTH, ids: [1, null]}], 0), {
        code: 'MIXED_IDS',
        message: 'geometry 1: id on some children only',
        place: 1,
        output: {blobs: POINT, offsets: Float64Array.of(0, 5)},
    });
    assert.throws(() => packGeometries([AT], 8), RangeError);
    for (const number of [2n ** 62n, -(2n ** 62n) - 1n, 2n ** 64n + 5n]) {
        const far = {type: 'LineString', coordinates: [[0n, 0n], [1n, number]]};
        assert.throws(() => packGeometries([far], 0), {message: 'geometry 0: coordinate out of range', place: 0});
    }
    for (const wrong of [[1n, 2], [1, 2n], ['1', 2], [null, 2]]) {
        const given = [AT, {type: 'Point', coordinates: wrong}];
        assert.throws(
            () => packGeometries(given, 0), /^TypeError: geometry 1: coordinates are numbers, or all of them/);
    }
    for (const ids of ['no', 0, null]) {
        assert.throws(
            () => packGeometries([BOTH], 0, {ids}), {name: 'TypeError', message: /^ids is true or false, not /});
    }
    for (const heights of ['Drop', true, null]) assert.throws(() => packGeometries([AT], 0, {heights}), RangeError);
    assert.throws(() => packGeometries([AT]), /^TypeError: geometry 0: a precision is a whole number/);
    let deep = AT;
    for (let level = 0; level < 100; level++) deep = {type: 'GeometryCollection', geometries: [deep]};
    assert.throws(() => packGeometries([deep], 0), /^RangeError: geometry 0: it is in more than 32 collections/);
});

test('a refusal keeps its code and place across a worker', async () => {
    const worker = new Worker(
        `
        const { parentPort } = require('node:worker_threads');
        import(${JSON.stringify(new URL('../polytwkb.js', import.meta.url).href)}).then(async ({ load, unpack }) => {
            await load();
            try { unpack(Uint8Array.of(1, 2)); } catch (fault) { parentPort.postMessage(fault.toJSON()); }
        });`,
        {eval: true});
    const posted = await new Promise((resolve, reject) => worker.once('message', resolve).once('error', reject));
    const fault = Refused.fromJSON(posted);
    assert.ok(fault instanceof Refused);
    assert.deepEqual(
        [fault.name, fault.message, fault.code, fault.place], ['Refused', 'byte 2: truncated', 'BLOB_TRUNCATED', 2]);
    assert.equal(JSON.parse(JSON.stringify({fault})).fault.reason, fault.reason);
});
