// Where the blobs of a stream are: beside the lines of show, of streams that were read, written, packed and refused.
import assert from 'node:assert/strict';
import test from 'node:test';
import * as polytwkb from '../polytwkb.js';
import {bytes, outcome, postgis, table, within} from './rows.mjs';

const {Refused, geometries, load, pack, packGeometries, read, show, split, write} = polytwkb;

// An instance that counts its calls.
const made = WebAssembly.instantiate, counts = {};
WebAssembly.instantiate = async module => {
    const {exports} = await made(module);
    const counted = name => (...given) => {
        counts[name] = (counts[name] ?? 0) + 1;
        return exports[name](...given);
    };
    const parsing = Object.fromEntries(['read', 'convert', 'write'].map(name => [name, counted(name)]));
    return {exports: {...exports, ...parsing}};
};
await load();

/** What a call returns, and how often it read a stream; calls that write are not counted, since each may run twice. */
function counting(call) {
    for (const name of Object.keys(counts)) delete counts[name];
    const result = call();
    return [result, (counts.read ?? 0) + (counts.convert ?? 0)];
}

const AT = {
    type: 'Point',
    coordinates: [2, 1]
},
      NONE = {
          type: 'Point',
          coordinates: []
      };
const ALONG = {
    type: 'LineString',
    coordinates: [[5, 6], [7, 9]]
};
const SHAPES = [
    AT,
    NONE,
    ALONG,
    {type: 'LineString', coordinates: []},
    {type: 'Polygon', coordinates: []},
    {type: 'Polygon', coordinates: [[[0, 0], [9, 0], [9, 9], [0, 0]], [[1, 1], [2, 1], [2, 2], [1, 1]]]},
    {type: 'MultiPoint', coordinates: [[2, 1], [3, 4]], ids: [7, 8]},
    {type: 'MultiPoint', coordinates: []},
    {type: 'MultiLineString', coordinates: [[[1, 2], [3, 4]], []], ids: [-1, 2]},
    {type: 'MultiPolygon', coordinates: [[[[0, 0], [1, 0], [1, 1], [0, 0]]], []]},
    {type: 'GeometryCollection', geometries: []},
    {
        type: 'GeometryCollection',
        geometries: [AT, {type: 'GeometryCollection', geometries: [ALONG, NONE]}],
        ids: [3, 4]
    },
    // bodies of 2^7 and of 2^14 bytes, whose sizes have a byte more
    {type: 'LineString', coordinates: Array.from({length: 70}, (_, at) => [at, 7 - at])},
    {type: 'LineString', coordinates: Array.from({length: 9000}, (_, at) => [at, 7 - at])},
];
const MANY = Array.from({length: 20000}, (_, at) => SHAPES[at % 12]);
const STYLES = ['full', 'plain'];

/** The offsets that the headers of a stream say. */
function ofHeaders(blobs, limits) {
    const roots = outcome(show, blobs, limits)[0].filter(({level}) => level === 0), last = roots.at(-1);
    return Float64Array.from([...roots.map(({offset}) => offset), last ? last.offset + last.length : 0]);
}

function* streams() {
    for (const {given, word, limits, expected} of within('tables', ...STYLES)) {
        if (!expected[1]) yield [pack(table(given), {...limits, style: word}), limits];
    }
    for (const {given, limits} of within('streams', 'unpack')) yield [bytes(given), limits];
    for (const {hex: blob} of postgis) yield [bytes(blob), {}];
    yield [Uint8Array.from(Buffer.concat(postgis.map(vector => bytes(vector.hex)))), {}];
}

test('of a stream that is read, also if it is refused', () => {
    let count = 0, refused = 0;
    for (const [stream, limits] of streams()) {
        const [arrays, fault] = outcome(read, stream, {...limits, degrees: false, blobOffsets: true});
        assert.deepEqual(arrays.blobOffsets, ofHeaders(stream, limits));
        const {blobOffsets, ...others} = arrays, without = outcome(read, stream, {...limits, degrees: false});
        assert.deepEqual([others, fault], without);
        assert.equal(blobOffsets.length, arrays.depths.filter(depth => depth === 0).length + 1);
        count++;
        refused += Number(fault !== '');
    }
    assert.ok(count > 150 && refused > 40, `${count} ${refused}`);
    assert.deepEqual([...read(new Uint8Array(0), {blobOffsets: true}).blobOffsets], [0]);
});

test('of points by hand, with and without a size and an extended byte', () => {
    // type and precision, metadata (2: a size, 8: an extended byte, of which bits 0 and 1 are clear), size, x and y
    for (const [point, length] of [
             ['0102020402', 5],
             ['01000402', 4],
             ['010a00020402', 6],
             ['010afc020402', 6],
             ['0108000402', 5],
             ['01028280000402', 7],
             ['010a0082000402', 7],
    ]) {
        const blob = bytes(point), stream = bytes(point + point);
        for (const [given, expected] of [[blob, [0, length]], [stream, [0, length, 2 * length]]]) {
            const [{blobOffsets}, done] = counting(() => read(given, {blobOffsets: true}));
            assert.deepEqual([[...blobOffsets], done], [expected, 1], point);
        }
        assert.deepEqual(geometries([blob, null, blob]), [AT, null, AT]);
    }
    const mixed = bytes(
        '0102020402' +
        '01000402' +
        '010a00020402');
    assert.deepEqual([...read(mixed, {blobOffsets: true}).blobOffsets], [0, 5, 9, 15]);
});

test('of what is written and packed, in both styles', () => {
    for (const shapes of [[], ...SHAPES.map(shape => [shape]), SHAPES, [...SHAPES].reverse(), MANY]) {
        for (const style of STYLES) {
            const {blobs, offsets} = packGeometries(shapes, 3, {style}), arrays = read(blobs, {blobOffsets: true});
            assert.deepEqual(offsets, ofHeaders(blobs));
            assert.deepEqual(arrays.blobOffsets, offsets);
            assert.deepEqual(write(arrays, {style, offsets: true}), {blobs, offsets});
            assert.deepEqual(write(arrays, {style}), blobs);
            assert.deepEqual(split({blobs, offsets}), split(blobs));
            assert.equal(split(blobs).length, shapes.length);
        }
    }
});

test('no stream is read twice, in either style', () => {
    const column = blobs => [null, ...split(blobs), null];
    for (const style of STYLES) {
        const [packed, ofPacking] = counting(() => packGeometries(SHAPES, 3, {style})), {blobs} = packed;
        const arrays = read(blobs), cells = column(blobs);
        assert.equal(ofPacking, 0);
        assert.deepEqual(counting(() => write(arrays, {style})), [blobs, 0]);
        assert.deepEqual(counting(() => write(arrays, {style, offsets: true})), [packed, 0]);
        assert.deepEqual(counting(() => read(blobs)), [arrays, 1]);
        assert.deepEqual(counting(() => read(blobs, {blobOffsets: true}))[1], 1);
        assert.deepEqual(counting(() => split(packed)), [cells.slice(1, -1), 0]);
        assert.deepEqual(counting(() => split(blobs)), [cells.slice(1, -1), 1]);
        assert.deepEqual(counting(() => geometries(cells)), [[null, ...SHAPES, null], 1]);
        assert.deepEqual(counting(() => geometries(blobs)), [SHAPES, 1]);
    }
});

test('a list with refused items is read together up to each, and gives what each item alone gives', () => {
    const blobs = [...SHAPES.slice(0, 12), ...SHAPES.slice(0, 12)].flatMap(shape => split(packGeometries([shape], 3)));
    const bad = at =>
        [blobs[at].subarray(0, -1), Buffer.concat([blobs[at], blobs[at]]), blobs[at].subarray(0, 0),
         Buffer.concat([blobs[at], blobs[at].subarray(0, 1)]), Uint8Array.of(8, ...blobs[at]),
         Uint8Array.of(2, 0, 2, 2)];
    const alone = item => geometries([item], {errors: 'collect'});
    for (let first = 0; first < blobs.length; first++) {
        for (const [which, item] of bad(first).entries()) {
            const list = [null, ...blobs], second = 1 + (first * 7 + which) % blobs.length;
            list[first + 1] = item;
            list[second] = bad(second - 1)[(which + 1) % 6];
            const found = geometries(list, {errors: 'collect'}),
                  each = list.map(it => it ? alone(it) : {geometries: [null]});
            assert.deepEqual(found.geometries, each.flatMap(it => it.geometries));
            assert.deepEqual(
                found.refused.map(fault => fault.message),
                each.flatMap(
                    ({refused = []}, at) => refused.map(({text, place}) => `blob ${at}: byte ${place}: ${text}`)));
        }
    }
    // of 20,000 items one is refused: all before it are read once, and those after it in ever longer runs
    const many = split(packGeometries(MANY, 3));
    many[9000] = many[9000].subarray(0, -1);
    const [{refused}, times] = counting(() => geometries(many, {errors: 'collect'}));
    assert.deepEqual([refused.length, refused[0].done], [1, 9000]);
    assert.ok(times < 20, times);
});

test('a geometry that is null has no bytes', () => {
    const given = [null, AT, undefined, {type: 'Feature', geometry: null}, ALONG, null];
    for (const style of STYLES) {
        const packed = packGeometries(given, 0, {style}), cells = split(packed);
        const [first, second] = split(packed.blobs), [from, to] = [first.length, first.length + second.length];
        assert.deepEqual([...packed.offsets], [0, 0, from, from, from, to, to]);
        assert.deepEqual(cells, [null, first, null, null, second, null]);
        assert.deepEqual(geometries(cells), [null, AT, null, null, ALONG, null]);
    }
    assert.deepEqual(split(packGeometries([null], 0)), [null]);
});

test('a refusal has the places of the blobs before it', () => {
    const mixed = {type: 'MultiPoint', coordinates: [[2, 1], [3, 4]], ids: [7, null]};
    for (const style of STYLES) {
        const before = packGeometries([null, AT, null, ALONG, null], 0, {style});
        assert.throws(() => packGeometries([null, AT, null, ALONG, null, mixed, AT], 0, {style}), fault => {
            assert.ok(fault instanceof Refused);
            const {message, code, place, done, output} = fault;
            assert.deepEqual([message, code, place, done], ['geometry 5: id on some children only', 'MIXED_IDS', 5, 5]);
            assert.deepEqual(output, before);
            return true;
        });
        const {blobs, offsets} = packGeometries([AT, ALONG], 0, {style}), arrays = read(blobs);
        arrays.kinds[1] = 9;
        const [output, said] = outcome(write, arrays, {style, offsets: true}), end = offsets[1];
        assert.equal(said, 'row 1: unknown kind');
        assert.deepEqual(output, {blobs: blobs.slice(0, end), offsets: Float64Array.of(0, end)});
        const [{blobOffsets}, cut] = outcome(read, blobs.subarray(0, -1), {blobOffsets: true});
        assert.deepEqual([[...blobOffsets], cut], [[0, end], `byte ${blobs.length - 1}: truncated`]);
    }
    // a size that is wrong is refused, and by its place
    const {blobs} = packGeometries([AT, ALONG], 0), wrong = blobs.slice();
    wrong[2]--;
    for (const call of [split, read, geometries]) assert.equal(outcome(call, wrong)[1], outcome(show, wrong)[1]);
    assert.equal(outcome(read, wrong, {blobOffsets: true})[0].blobOffsets.length, 1);
    assert.throws(() => geometries([wrong.slice(0, 5), wrong.slice(5)]), /^Refused: blob 0: byte \d: size mismatch$/);
});

test('a polygon may be in as many collections as a point', () => {
    let [point, area] = [AT, {type: 'MultiPolygon', coordinates: [[[[0, 0], [1, 0], [1, 1], [0, 0]]]]}];
    for (let level = 0; level < 32; level++) {
        [point, area] = [point, area].map(member => ({type: 'GeometryCollection', geometries: [member]}));
    }
    const {blobs} = packGeometries([point, area], 0, {nest: 32});
    assert.deepEqual(geometries(blobs, {nest: 32}), [point, area]);
});

test('limits are those of the call', () => {
    let deep = AT;
    for (let level = 0; level < 20; level++) deep = {type: 'GeometryCollection', geometries: [deep]};
    for (const style of STYLES) {
        const {blobs, offsets} = packGeometries([AT, deep], 0, {style, nest: 20});
        assert.deepEqual(read(blobs, {nest: 20, blobOffsets: true}).blobOffsets, offsets);
        assert.deepEqual(geometries(split({blobs, offsets}), {nest: 20}), [AT, deep]);
        assert.throws(() => split(blobs), /nested too deep/);
    }
});

test('wrong offsets and options', () => {
    const {blobs, offsets} = packGeometries([AT, ALONG], 0), arrays = read(blobs);
    for (const wrong
             of [[], [0], [0, 5], [0, 5, 11], [0, 5, 13], [1, 5, 12], [5, 12], [0, 13, 12], [0, 5.5, 12], [0, NaN, 12],
                 [-1, 5, 12]]) {
        assert.throws(() => split({blobs, offsets: Float64Array.from(wrong)}), RangeError, String(wrong));
    }
    for (const wrong of [[...offsets], Uint32Array.from(offsets), null, undefined]) {
        assert.throws(
            () => split({blobs, offsets: wrong}), {name: 'TypeError', message: /^offsets are a Float64Array, not/});
    }
    assert.throws(() => split({offsets}), TypeError);
    assert.throws(() => split(arrays), TypeError);
    assert.throws(() => split({blobs, offsets}, {nest: 2}), TypeError);
    for (const wrong of [1, null, 'yes']) {
        assert.throws(
            () => read(blobs, {blobOffsets: wrong}), {name: 'TypeError', message: /^blobOffsets is true or false/});
        assert.throws(() => write(arrays, {offsets: wrong}), {name: 'TypeError', message: /^offsets is true or false/});
    }
    assert.throws(() => read(blobs, {offsets: true}), /there is no option offsets: degrees, blobOffsets/);
    assert.throws(() => write(arrays, {blobOffsets: true}), /there is no option blobOffsets: style, offsets/);
    assert.deepEqual(split({blobs: Buffer.from(blobs), offsets}), split(blobs));
    assert.deepEqual(write(arrays, {offsets: false}), write(arrays, {offsets: undefined}));
    assert.equal('blobOffsets' in read(blobs, {blobOffsets: false}), false);
});

test('of a stream so large that the instance is given up after each call', () => {
    const count = 1250000,
          xy = BigInt64Array.from({length: 2 * count}, (_, at) => BigInt((at * 7919) % 100003) * 1000n);
    const lines = {
        depths: new Uint8Array(3),
        kinds: new Uint8Array(3).fill(2),
        precisions: new Int8Array(3),
        offsets: Uint32Array.of(0, count - 5, count - 3, count),
        xy,
    };
    const {blobs, offsets} = write(lines, {style: 'plain', offsets: true}), cut = blobs.subarray(0, -1);
    assert.deepEqual(offsets, ofHeaders(blobs));
    const whole = read(blobs, {degrees: false, blobOffsets: true});
    assert.deepEqual([whole.blobOffsets, whole.offsets], [offsets, lines.offsets]);
    assert.ok(whole.xy.every((number, at) => number === xy[at]));
    const [{blobOffsets, kinds}, fault] = outcome(read, cut, {degrees: false, blobOffsets: true});
    assert.deepEqual([blobOffsets, kinds.length, fault], [offsets.slice(0, 3), 2, outcome(show, cut)[1]]);
    assert.match(fault, /truncated/);
});
