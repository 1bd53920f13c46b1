// What the calls take and refuse: types, limits, precisions, buffers, reasons, rounding.
import assert from 'node:assert/strict';
import {readFileSync} from 'node:fs';
import test from 'node:test';
import {inspect} from 'node:util';
import * as polytwkb from '../polytwkb.js';
import {Reason} from '../src/reasons.js';
import {HEADER} from './rows.mjs';

const {pack, unpack, unpackBytes, toGeojson, toGeojsonBytes, show, split, geometries, read, write} = polytwkb;
const {encode, decode, decodeFlat, Limits, Refused} = polytwkb;

const PRECISIONS = Array.from({length: 16}, (_, place) => place - 8);

await polytwkb.load();

const GOOGLE = [[-120.2, 38.5], [-120.95, 40.7], [-126.453, 43.252]];
const TEXT = '_p~iF~ps|U_ulLnnqC_mqNvxq`@';
const POINT = Uint8Array.of(1, 2, 2, 4, 2);
const ONE_POINT = `${HEADER}0,point,,0,AC\n`;

test('wrong types', () => {
    for (const [call, ...given] of [
             [pack, null],
             [pack, 7],
             [pack, ['a']],
             [pack],
             [pack, '', 0],
             [pack, '', null],
             [pack, '', 'plain'],
             [pack, '', {style: 0}],
             [pack, '', {limits: {nest: 1}}],
             [pack, '', {nest: 1.5}],
             [pack, '', {nest: '1'}],
             [unpack, ''],
             [unpack, null],
             [unpack, POINT, '16'],
             [show, 7],
             [toGeojson, ''],
             [toGeojsonBytes, [POINT]],
             [split, ''],
             [geometries, 'x'],
             [geometries, POINT, null],
             [geometries, POINT, {degrees: 1}],
             [decode, null],
             [decode, 7],
             [decode, '', 1.5],
             [decode, '', '5'],
             [decode, '', null],
             [encode, null],
             [encode, 'AA'],
             [encode, POINT],
             [encode, [1, 2]],
             [encode, [[1]]],
             [encode, [[1, 2, 3]]],
             [encode, [[1.5, 2]]],
             [encode, [['1', 2]]],
             [encode, [['1', 2]], 5],
             [encode, [[null, 2]], 5],
             [encode, [[NaN, 1]]],
             [encode, new Float64Array(2)],
             [encode, new Float32Array(2)],
             [encode, new Float64Array(3), 5],
             [encode, new Int32Array(2), 5],
             [encode, [new Set([1, 2])]],
             [encode, [null], 5],
             [decodeFlat, '', 1.5],
             [encode, BigInt64Array.of(1n)],
             [encode, BigInt64Array.of(1n, 2n), 5],
             [encode, {}],
    ])
        assert.throws(() => call(...given), TypeError, `${call.name} ${inspect(given)}`);
    assert.throws(() => unpack({byteLength: 1}), TypeError);
    assert.throws(() => new Limits(3), TypeError);
});

test('values out of range', () => {
    for (const [call, ...given] of [
             [pack, '', {style: 'Full'}],
             [pack, '', {style: 'toString'}],
             [pack, '', {nest: 33}],
             [pack, '', {nest: -1}],
             [unpack, POINT, {nodes: 0}],
             [unpack, POINT, {nodes: 2 ** 20 + 1}],
             [show, POINT, {points: 2 ** 24 + 1}],
             [split, POINT, {nest: 2 ** 32}],
             [decode, '', 8],
             [encode, [], -9],
             [encode, [[NaN, 0]], 5],
             [encode, [[0, Infinity]], 5],
             [encode, [[1n, NaN]], 5],
             [encode, Float64Array.of(1, 2, NaN, 1), 5],
             [encode, Float32Array.of(1, -Infinity), 5],
             [decodeFlat, '', 8],
    ])
        assert.throws(() => call(...given), RangeError, `${call.name} ${inspect(given)}`);
});

test('limits', () => {
    const limits = new Limits({nest: 3});
    assert.deepEqual({...limits}, {nest: 3, nodes: 2 ** 20, points: 2 ** 24});
    assert.deepEqual({...new Limits()}, {nest: 16, nodes: 2 ** 20, points: 2 ** 24});
    assert.equal(unpack(POINT, limits), ONE_POINT);
    assert.throws(() => unpack(POINT, new Limits({points: 0})), {code: 'BLOB_TOO_MANY_POINTS'});
    assert.throws(() => {
        limits.nest = 4;
    }, TypeError);
});

test('buffers of bytes', () => {
    const shared = new Uint8Array(new SharedArrayBuffer(5));
    shared.set(POINT);
    const inside = new Uint8Array(9);
    inside.set(POINT, 2);
    for (const given
             of [POINT,
                 POINT.buffer.slice(),
                 Buffer.from(POINT),
                 shared,
                 shared.buffer,
                 inside.subarray(2, 7),
                 new DataView(inside.buffer, 2, 5),
    ]) {
        assert.equal(unpack(given), ONE_POINT);
        assert.deepEqual(split(given), [POINT]);
    }
    assert.deepEqual(pack(Buffer.from(ONE_POINT)), POINT);
    assert.deepEqual(pack(ONE_POINT).buffer.byteLength, 5);
    assert.throws(() => pack(`${HEADER}0,point,,0,ä\n`), /record 2: polyline at 0: bad character/);
    assert.throws(() => pack(`${HEADER}0,point,,0,\ud800\n`), /record 2: polyline at 0: bad character/);
    assert.throws(() => pack(`${HEADER}0,ä,,0,AC\n`), /record 2: unknown kind/);
});

test('a refusal says why and where, and what came before', () => {
    const blobs = pack(`${HEADER}0,multipoint,,0,\n1,point,7,,AC\n1,point,8,,GE\n`);
    const cut = Uint8Array.of(...blobs, 2, 0, 2, 2, 2);
    for (const call of [unpack, unpackBytes, toGeojson, toGeojsonBytes, show, split, geometries]) {
        assert.throws(() => call(cut), fault => {
            assert.ok(fault instanceof Refused && fault instanceof Error);
            const {name, message, reason, code, text, place, textOffset, done} = fault;
            assert.deepEqual({name, message, reason, code, text, place, textOffset, done}, {
                name: 'Refused',
                message: 'byte 19: truncated',
                reason: 41,
                code: 'BLOB_TRUNCATED',
                text: 'truncated',
                place: 19,
                textOffset: 0,
                done: 1,
            });
            assert.deepEqual(fault.output, call(blobs));
            return true;
        });
    }
});

test('each reason has the number and the name of the header', () => {
    const header = readFileSync(new URL('../../include/polytwkb.h', import.meta.url), 'utf8');
    const others =
        /^(DONE|REFUSED|ARGUMENTS|DEVICE|MEMORY|TOO_SMALL|STOP_IF_FULL|FULL|PLAIN|PACK|UNPACK|SHOW|GEOJSON|HEADERS|KIND_\w+)$/;
    const defined =
        [...header.matchAll(/^#define POLYTWKB_(\w+) (\d+)u/gm)].map(([, name, number]) => [name, Number(number)]);
    assert.deepEqual(new Map(Object.entries(Reason)), new Map(defined.filter(([name]) => !others.test(name))));
});

test('the package, its code and the header have one version', () => {
    const told = JSON.parse(readFileSync(new URL('../package.json', import.meta.url), 'utf8')).version;
    const header = readFileSync(new URL('../../include/polytwkb.h', import.meta.url), 'utf8');
    assert.equal(polytwkb.version, told);
    assert.equal(/^#define POLYTWKB_VERSION "(.*)"$/m.exec(header)[1], told);
});

test('degrees', () => {
    assert.equal(encode(GOOGLE, 5), TEXT);
    assert.deepEqual(decode(TEXT, 5), GOOGLE);
    assert.equal(encode([[-179.9832104, 0]], 5), '?`~oia@');
    assert.deepEqual(decode(TEXT), [[-12020000, 3850000], [-12095000, 4070000], [-12645300, 4325200]]);
    const whole = BigInt64Array.of(-12020000n, 3850000n, -12095000n, 4070000n, -12645300n, 4325200n);
    assert.deepEqual(decodeFlat(TEXT), whole);
    assert.equal(encode(whole), TEXT);
    assert.equal(encode(new Set(GOOGLE), 5), TEXT);
    assert.equal(encode(GOOGLE.map(point => Float64Array.from(point)), 5), TEXT);
    // typed arrays, as `read` gives them and as drawing takes them: 1/8, which single precision has exactly
    assert.equal(encode(Float64Array.from(GOOGLE.flat()), 5), TEXT);
    assert.deepEqual(decodeFlat(TEXT, 5), Float64Array.from(GOOGLE.flat()));
    assert.equal(encode(Float32Array.of(0.125, -2.5), 3), encode([[125, -2500]]));
    assert.deepEqual(decodeFlat('', 5), new Float64Array(0));
    for (const [number, precision, expected] of [
             [0.5, 0, 1],
             [-0.5, 0, -1],
             [1.5, 0, 2],
             [2.5, 0, 3],
             [15, -1, 2],
             [-14, -1, -1],
             [-15, -1, -2],
             [25n, -1, 3],
             [-0, 5, 0],
             [0.000005, 5, 1],
             [2.5e-8, 7, 0],
             [1e-300, 7, 0],
             [7.000005, 5, 700001],
             [3n, 2, 300],
    ])
        assert.deepEqual(decode(encode([[number, 0]], precision)), [[expected, 0]], `${number} at ${precision}`);
});

// The same rounding by the digits of the number itself, which toFixed gives up to 100 places. A half is read from its
// decimal digits, as the number nearest to them.
function nearestOf(number, precision) {
    const [before, after] = Math.abs(number).toFixed(100).split('.');
    const digits = BigInt(before + after), unit = 10n ** BigInt(100 - precision), whole = digits / unit;
    const counts = whole < 10n ** 14n && Number(`${whole}5e${- precision - 1}`) === Math.abs(number);
    const nearest = whole + BigInt(counts || 2n * (digits % unit) >= unit);
    return number < 0 ? -nearest : nearest;
}

/** The numbers next to a number. */
function beside(number, step) {
    const bits = new BigInt64Array(Float64Array.of(number).buffer);
    bits[0] += BigInt(step);
    return new Float64Array(bits.buffer)[0];
}

test('a number that is the nearest one to a half counts as that half', () => {
    for (const [number, precision, unit] of [
             [0.15, 1, 2n],
             [-0.15, 1, -2n],
             [0.35, 1, 4n],
             [beside(0.15, -1), 1, 1n],
             [0.015915, 5, 1592n],
             [1.005, 2, 101n],
             [2 ** 53, 0, 2n ** 53n],
             [99999999999999.5, 0, 10n ** 14n],
             [0.49999999999999994, 0, 0n],
    ])
        assert.equal(decodeFlat(encode([[number, 0]], precision))[0], unit, `${number} at ${precision}`);
});

/** Numbers of each precision, with the units that they are due to become. */
function* rounded() {
    let state = 7;
    const random = () => (state = (state * 1103515245 + 12345) % 2 ** 31) / 2 ** 31;
    for (let round = 0; round < 100000; round++) {
        const precision = Math.floor(random() * 16) - 8, unit = 10 ** -precision;
        let number = (random() - 0.5) * 10 ** Math.floor(random() * 10);
        if (round % 4) number = Number(`${Math.floor(random() * 10 ** Math.floor(random() * 15))}5e${- precision - 1}`);
        if (round % 4 > 1) number = beside(number, Math.floor(random() * 5) - 2);
        if (Math.abs(number) > 1e20 || Math.abs(number) / unit > 2 ** 61) continue;
        if (Math.abs(number) < 2 ** -48) number = 0; // so it has at most 100 places
        yield [number, precision, nearestOf(number, precision)];
    }
}

test('rounding is exact', () => {
    for (const [number, precision, due] of rounded()) {
        const [got] = decodeFlat(encode([[number, 0]], precision));
        assert.equal(got, due, `${number} at ${precision}`);
        assert.equal(decodeFlat(encode(Float64Array.of(number, 0), precision))[0], due, `${number} at ${precision}`);
    }
});

/** The arrays of lines of these precisions, each with as many of the numbers. */
function linesOf(xy, precisions) {
    const {length} = precisions, points = xy.length / 2 / length;
    const [depths, kinds] = [new Uint8Array(length), new Uint8Array(length).fill(2)];
    const offsets = Uint32Array.from({length: length + 1}, (_, row) => row * points);
    return {depths, kinds, precisions: Int8Array.from(precisions), offsets, xy};
}

test('rounding of arrays is exact', () => {
    const all = [...rounded()];
    for (const precision of PRECISIONS) {
        const rows = all.filter(row => row[1] === precision);
        const xy = Float64Array.from(rows.flatMap(([number]) => [number, -number]));
        const due = BigInt64Array.from(rows.flatMap(([, , unit]) => [unit, -unit]));
        assert.deepEqual(read(write(linesOf(xy, [precision])), {degrees: false}).xy, due, `at ${precision}`);
    }
});

// Some are converted by the module; those from the first one on that is past 2^51 are not.
test('degrees of arrays of any size are the nearest ones', () => {
    const powers = [0n, 8n, 31n, 32n, 40n, 50n, 51n, 52n, 53n, 54n, 61n].map(bits => 2n ** bits);
    const sizes = powers.flatMap(power => [power - 1n, power, power + 1n]);
    const units = [...sizes.flatMap(size => [size, -size]), 2n ** 62n - 1n, -(2n ** 62n)];
    for (const numbers of [units, [...units].reverse(), units.filter(unit => unit * unit < 2n ** 102n)]) {
        const lines = linesOf(BigInt64Array.from(PRECISIONS.flatMap(() => numbers)), PRECISIONS);
        const due =
            Float64Array.from(PRECISIONS.flatMap(precision => numbers.map(unit => Number(`${unit}e${- precision}`))));
        assert.deepEqual(read(write(lines)).xy, due);
        for (const [at, precision] of PRECISIONS.entries()) {
            const text = encode(BigInt64Array.from(numbers)), degrees = decodeFlat(text, precision);
            assert.deepEqual(degrees, due.slice(at * numbers.length, (at + 1) * numbers.length));
            assert.deepEqual(Float64Array.from(decode(text, precision).flat()), degrees);
        }
    }
});

test('numbers of any size are read exactly', () => {
    const most = 2n ** 62n - 1n;
    assert.deepEqual(decodeFlat(encode([[most, -(2n ** 62n)]])), BigInt64Array.of(most, -(2n ** 62n)));
    for (const number of [2n ** 53n, -(2n ** 53n) - 1n]) assert.throws(() => decode(encode([[number, 0]])), RangeError);
    assert.deepEqual(decode(encode([[-(2n ** 53n), 0]])), [[-(2 ** 53), 0]]);
    assert.deepEqual(decode(encode([[2n ** 53n - 1n, -(2n ** 53n) + 1n]])), [[2 ** 53 - 1, -(2 ** 53) + 1]]);
    assert.deepEqual(decode(encode([[most, 2n ** 53n + 1n]]), 7), [[461168601842.7387903, 900719925.4740993]]);
    assert.deepEqual(decode(encode([[12345, -5]]), -3), [[12345000, -5000]]);
    assert.deepEqual(encode([[2 ** 61, -(2 ** 62)]]), encode([[2n ** 61n, -(2n ** 62n)]]));
});

test('a coordinate out of range is refused at its point', () => {
    const expected = {message: 'point 1: coordinate out of range', code: 'POLYLINE_RANGE', place: 1, output: ''};
    for (const number of [2n ** 62n, -(2n ** 62n) - 1n, 2n ** 63n, 10n ** 40n, 2 ** 62, 2 ** 63, -(2 ** 63), 1e40]) {
        for (const points of [[[0, 0], [1, number]], [[0, 0], [number, 1]], [[0, 0], [number, 1], [10n ** 40n, 0]]]) {
            assert.throws(() => encode(points), expected);
        }
    }
    assert.throws(() => encode([[1e30, 0]], 5), {place: 0});
    assert.throws(() => encode(BigInt64Array.of(0n, 2n ** 62n)), {place: 0});
});
