// Typed arrays to streams: those that were read, those of tables, and what is refused.
import assert from 'node:assert/strict';
import test from 'node:test';
import * as polytwkb from '../polytwkb.js';
import {bytes, hex, postgis, table, within} from './rows.mjs';

const {encode, pack, read, split, write, OutOfMemory, Refused} = polytwkb;

await polytwkb.load();

const [POINT, LINE, MULTIPOINT] = [1, 2, 4];
const NO_PRECISION = -128;
const COLLECTION = table(
    '0,collection,,5,/1,multipoint,1,5,/2,point,101,,yop}Gysml@/1,linestring,-2,-1,AAGG/0,point,,0,AC/',
);

/** The arrays of linestrings of whole numbers or degrees, each a list x, y, x, y, .. */
function linesOf(lines, precision, type = BigInt64Array) {
    const count = lines.length, offsets = new Uint32Array(count + 1);
    for (const [row, line] of lines.entries()) offsets[row + 1] = offsets[row] + line.length / 2;
    return {
        depths: new Uint8Array(count),
        kinds: new Uint8Array(count).fill(LINE),
        offsets,
        xy: type.from(lines.flat()),
        precisions: new Int8Array(count).fill(precision),
    };
}

test('what was read is written, and what PostGIS wrote becomes canonical', () => {
    for (const {hex: blob, full = blob, plain = blob} of postgis) {
        const arrays = read(bytes(blob), {degrees: false});
        assert.equal(hex(write(arrays)), full.toLowerCase());
        assert.equal(hex(write(arrays, {style: 'plain'})), plain.toLowerCase());
    }
});

test('what was packed, read and written is the same again', () => {
    let count = 0;
    for (const {given, limits, expected} of within('tables', 'full')) {
        if (expected[1]) continue;
        const stream = pack(table(given), limits);
        assert.deepEqual(write(read(stream, {...limits, degrees: false}), limits), stream);
        count++;
    }
    assert.ok(count > 30, count);
    const stream = pack(COLLECTION);
    assert.deepEqual(write(read(stream)), stream);
});

test('lines without ids, in whole numbers and in degrees', () => {
    const whole = linesOf([[1n, 1n, 5n, 5n], [2n, 1n]], 5), lines = table('0,linestring,,5,AAGG/0,linestring,,5,AC/');
    assert.deepEqual(write(whole), pack(lines));
    assert.deepEqual(write(whole, {style: 'plain'}), pack(lines, {style: 'plain'}));
    const degrees = linesOf([[0.00001, 0.00001, 0.00005, 0.00005], [0.00002, 0.00001]], 5, Float64Array);
    assert.deepEqual(write(degrees), pack(lines));
    assert.deepEqual(write(linesOf([], 5)), new Uint8Array(0));
    // the numbers that a Float32Array has are written: 0.1 there is 0.100000001..
    const near = linesOf([[0.1, -0.5], [16777216, 3]], 7, Float32Array);
    assert.deepEqual(
        write(near), write({...near, xy: BigInt64Array.of(1000000n, -5000000n, 167772160000000n, 30000000n)}));
});

test('degrees are rounded as encode rounds them', () => {
    const points = [[0.000005, -0.000005], [1.000015, 2.5], [-179.9832104, 0], [1e9, 4503599627370.5], [4e13, -4e13]];
    for (const precision of [5, 0, -3, 7]) {
        const near = precision === 7 ? points.slice(0, 3) : points;
        const written = write(linesOf([near.flat()], precision, Float64Array));
        assert.deepEqual(written, pack(table(`0,linestring,,${precision},${encode(near, precision)}/`)));
    }
});

test('a refusal has its row, and the blobs before it', () => {
    const stream = pack(COLLECTION), [first] = split(stream), arrays = read(stream, {degrees: false});
    const {kinds, precisions, hasIds, offsets, xy} = arrays;
    const changed = (column, place, value) => column.with(place, value);
    for (const [change, message, code, place, done] of [
             [{kinds: changed(kinds, 4, 9)}, 'row 4: unknown kind', 'BAD_KIND', 4, 1],
             [{kinds: changed(kinds, 3, MULTIPOINT)}, 'row 3: polyline not allowed', 'POLYLINE_NOT_ALLOWED', 3, 0],
             [{xy: xy.slice(0, -2)}, 'row 4: points missing', 'POINTS_MISSING', 4, 1],
             [{offsets: changed(offsets, 5, 2 ** 32 - 1)}, 'row 4: points missing', 'POINTS_MISSING', 4, 1],
             [{xy: BigInt64Array.of(...xy, 1n, 1n)}, 'points left over', 'POINTS_LEFT', 5, 1],
             [{xy: changed(xy, 6, 2n ** 62n)}, 'row 4: point 0: coordinate out of range', 'POLYLINE_RANGE', 4, 1],
             [
                 {xy: Float64Array.from(xy, Number).fill(1e30, 6)}, 'row 4: point 0: coordinate out of range',
                 'POLYLINE_RANGE', 4, 1
             ],
             [
                 {precisions: changed(precisions, 4, NO_PRECISION)}, 'row 4: precision missing', 'PRECISION_MISSING', 4,
                 1
             ],
             [{hasIds: changed(hasIds, 4, 2)}, 'row 4: bad id', 'BAD_ID', 4, 1],
    ]) {
        assert.throws(() => write({...arrays, ...change}), fault => {
            assert.ok(fault instanceof Refused);
            assert.deepEqual([fault.message, fault.code, fault.place, fault.done], [message, code, place, done]);
            const blobs = done ? first : new Uint8Array(0);
            if (!(change.xy instanceof Float64Array)) assert.deepEqual(fault.output, blobs);
            return true;
        });
    }
    assert.throws(() => write(linesOf([[1n, 1n]], 0), {points: 0}), /row 0: too many points/);
});

test('wrong arrays', () => {
    const right = linesOf([[1n, 1n]], 0), {kinds, xy} = right;
    for (const given
             of [null,
                 undefined,
                 7,
                 'text',
                 [],
                 new Uint8Array(3),
                 {...right, kinds: [2]},
                 {...right, kinds: undefined},
                 {...right, depths: Uint16Array.of(0)},
                 {...right, precisions: Uint8Array.of(0)},
                 {...right, xy: [1, 1]},
                 {...right, offsets: [0, 1]},
                 {...right, ids: Int32Array.of(0)},
                 {...right, ids: null},
                 {...right, xy: new Int32Array(2)},
    ])
        assert.throws(() => write(given), TypeError);
    for (const change
             of [{depths: new Uint8Array(2)},
                 {kinds: new Uint8Array(0)},
                 {ids: new BigInt64Array(2)},
                 {hasIds: new Uint8Array(0)},
                 {offsets: Uint32Array.of(0)},
                 {offsets: Uint32Array.of(1, 1)},
                 {offsets: Uint32Array.of(0, 1, 1)},
                 {xy: xy.slice(1)},
                 {xy: Float64Array.of(NaN, 1)},
                 {xy: Float64Array.of(1, Infinity)},
    ]) {
        const isRange = fault => fault instanceof RangeError && !(fault instanceof OutOfMemory);
        assert.throws(() => write({...right, ...change}), isRange);
    }
    const infinite = linesOf([[1, 1], [2, 1, 3, -Infinity, NaN, 1]], 0, Float64Array);
    assert.throws(() => write(infinite), {message: 'row 1: point 1: a coordinate is a finite number, not -Infinity'});
    const kind = kinds[0];
    assert.throws(() => write({...right, kinds: Uint8Array.of(kind, kind), depths: new Uint8Array(2)}), RangeError);
    const two = linesOf([[1n, 1n], [2n, 2n]], 0);
    assert.throws(() => write({...two, offsets: Uint32Array.of(0, 2, 1)}), RangeError);
    assert.throws(() => write(right, null), TypeError);
    assert.throws(() => write(right, {style: 5}), TypeError);
    assert.throws(() => write(right, {style: 'Full'}), RangeError);
    assert.throws(() => write(right, {nest: 33}), RangeError);
    assert.equal(POINT, write({...right, kinds: Uint8Array.of(POINT)})[0]);
});

test('many points', () => {
    const line = Array.from({length: 140000}, (_, place) => BigInt(place % 2 ? place : -place * 999999937));
    const arrays = linesOf([line, line, [1n, 1n], line], -1);
    const text = encode(BigInt64Array.from(line)), row = `0,linestring,,-1,${text}/`;
    assert.deepEqual(write(arrays), pack(table(`${row}${row}0,linestring,,-1,AA/${row}`)));
});
