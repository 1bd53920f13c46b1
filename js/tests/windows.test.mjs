// Streams that come in pieces of any size, as blobs, arrays and geometries, beside one call with the whole stream.
import assert from 'node:assert/strict';
import test from 'node:test';
import * as polytwkb from '../polytwkb.js';
import {bytes, outcome, postgis, within, written} from './rows.mjs';

const {Refused, geometries, read, split, stream, transform, write} = polytwkb;

await polytwkb.load();

const FORMS = {
    blobs: {gives: 'blobs'},
    degrees: {gives: 'arrays', blobOffsets: true},
    units: {gives: 'arrays', degrees: false},
    geometries: {gives: 'geometries'},
    exact: {gives: 'geometries', degrees: false},
};
const WHOLE = {
    blobs: (whole, limits) => {
        const [blobs, fault] = outcome(split, whole, limits);
        return [Buffer.concat(blobs), fault];
    },
    degrees: (whole, limits) => outcome(read, whole, {...limits, blobOffsets: true}),
    units: (whole, limits) => outcome(read, whole, {...limits, degrees: false}),
    geometries: (whole, limits) => outcome(geometries, whole, limits),
    exact: (whole, limits) => outcome(geometries, whole, {...limits, degrees: false}),
};

const cutBy = (whole, size) => Array.from(
    {length: Math.ceil(whole.length / size)}, (_, place) => whole.subarray(size * place, size * (place + 1)));

/** Pieces of 0 to so many bytes; the seed says where they are cut. */
function* cutAnywhere(whole, most, seed) {
    for (let at = 0, state = seed; at < whole.length;) {
        state = (state * 1103515245 + 12345) % 2 ** 31;
        const length = (state >> 8) % (most + 1);
        yield whole.subarray(at, at += length);
    }
}

/** All that a loop gives, and the message of the refusal after it. */
async function given(parts) {
    const found = [];
    try {
        for await (const part of parts) found.push(part);
    } catch (fault) {
        if (!(fault instanceof Refused)) throw fault;
        return [found, fault.message, fault];
    }
    return [found, '', null];
}

/** Arrays of parts as those of the whole: places of blobs are already those in the whole stream. */
function joined(parts, {degrees = true, blobOffsets = false}) {
    const whole = read(new Uint8Array(0), {degrees, blobOffsets});
    for (const [name, {constructor, length}] of Object.entries(whole)) {
        const numbers = length ? [0] : [];
        for (const part of parts) {
            const base = name === 'offsets' ? numbers.at(-1) : 0;
            for (const number of part[name].subarray(length)) numbers.push(base ? base + number : number);
        }
        whole[name] = constructor.from(numbers);
    }
    return whole;
}

function whole(name, parts) {
    if (name === 'blobs') return Buffer.concat(parts);
    return FORMS[name].gives === 'arrays' ? joined(parts, FORMS[name]) : parts.flat();
}

/** Compares pieces with the whole stream in each form. */
async function compare(bytesOfAll, pieces, limits, what) {
    for (const name of Object.keys(FORMS)) {
        const [expected, message] = WHOLE[name](bytesOfAll, limits);
        const [parts, said] = await given(stream(pieces(), {...limits, ...FORMS[name]}));
        assert.equal(said, message, `${name} ${what}`);
        assert.deepEqual(whole(name, parts), expected, `${name} ${what}`);
    }
}

// blobs of all kinds, none of which is refused
const SOME = Uint8Array.from(
    Buffer.concat([...written()].filter(blob => blob.length < 60 && !outcome(read, blob)[1]).slice(0, 80)));

test('pieces of each size give what one call gives', async () => {
    const few = Uint8Array.from(Buffer.concat(split(SOME).slice(0, 20)));
    for (let size = 1; size <= few.length; size++) await compare(few, () => cutBy(few, size), {}, `size ${size}`);
});

test('the vectors and the blobs of PostGIS, cut anywhere, end as one call ends', async () => {
    let seed = 1;
    for (const {given: text, limits} of within('streams', 'unpack')) {
        const blobs = bytes(text);
        for (const most of [1, 5, 40]) {
            await compare(blobs, () => cutAnywhere(blobs, most, seed), limits, `${text} ${most} ${seed}`);
            seed++;
        }
    }
    const blobs = Uint8Array.from(Buffer.concat(postgis.map(vector => bytes(vector.hex))));
    for (const most of [3, 50, 700, 9000]) await compare(blobs, () => cutAnywhere(blobs, most, most), {}, most);
});

test('a stream that is cut, that has a wrong blob in its middle, and an empty one', async () => {
    const middle = Buffer.concat([SOME, Uint8Array.of(8), SOME]);
    for (const blobs of [SOME.subarray(0, -1), middle, new Uint8Array(0)]) {
        await compare(blobs, () => cutAnywhere(blobs, 30, 9), {}, blobs.length);
    }
    for (const form of Object.values(FORMS)) {
        const [, , fault] = await given(stream(cutBy(middle, 7), form));
        assert.deepEqual([fault.place, fault.done, fault.code], [SOME.length, split(SOME).length, 'BLOB_BAD_TYPE']);
        assert.deepEqual(await given(stream([], form)), [[], '', null]);
        assert.deepEqual(await given(stream([new Uint8Array(0)], form)), [[], '', null]);
    }
});

test('more blobs, points and bytes of a blob than a window has room for', async () => {
    const count = 140000, xy = BigInt64Array.from({length: 2 * count}, (_, at) => BigInt((at * 7919) % 100003));
    const rows = (kind, ends) => ({
        depths: new Uint8Array(ends.length - 1),
        kinds: new Uint8Array(ends.length - 1).fill(kind),
        precisions: new Int8Array(ends.length - 1),
        offsets: Uint32Array.from(ends),
        xy,
    });
    const points = rows(1, Array.from({length: count + 1}, (_, at) => at)), lines = rows(2, [0, 9, count - 9, count]);
    for (const [arrays, style] of [[points, 'full'], [lines, 'full'], [lines, 'plain']]) {
        const {blobs, offsets} = write(arrays, {style, offsets: true}), cells = split(blobs);
        assert.ok(cells.every(({length}, at) => length === offsets[at + 1] - offsets[at]));
        assert.deepEqual(Buffer.concat(cells), Buffer.from(blobs));
        for (const [end, size] of [[blobs.length, blobs.length], [blobs.length - 1, 100000]]) {
            const options = {gives: 'arrays', degrees: false, blobOffsets: true}, last = end < blobs.length ? -2 : -1;
            const [parts, said] = await given(stream(cutBy(blobs.subarray(0, end), size), options));
            let place = 0;
            for (const part of parts) assert.ok(part.xy.every(number => number === xy[place++]));
            assert.equal(place, 2 * arrays.offsets.at(last));
            assert.equal(parts.at(-1).blobOffsets.at(-1), offsets.at(last));
            assert.equal(said, outcome(read, blobs.subarray(0, end))[1]);
        }
    }
});

test('what is given is gone on with, whatever other calls do meanwhile', async () => {
    const shapes = [];
    for await (const part of stream(cutBy(SOME, 100), {gives: 'geometries', nest: 20})) {
        outcome(read, SOME);
        shapes.push(...part);
        if (shapes.length > 30) break;
    }
    assert.deepEqual(shapes, outcome(geometries, SOME)[0].slice(0, shapes.length));
});

test('wrong options are refused', async () => {
    for (const [options, Type, message] of [
             [{gives: 'rows'}, RangeError, /gives is 'blobs' or 'arrays' or 'geometries', not rows/],
             [{degrees: false}, TypeError, /there is no option degrees: gives, nest/],
             [{gives: 'geometries', blobOffsets: true}, TypeError, /there is no option blobOffsets: gives, degrees/],
             [{gives: 'arrays', degrees: 1}, TypeError, /degrees is true or false/],
             [{gives: 'arrays', blobOffsets: 1}, TypeError, /blobOffsets is true or false/],
             [null, TypeError, /options are an object/],
             [{nest: 99}, RangeError, /nest/],
    ]) {
        await assert.rejects(
            stream([SOME], options).next(), fault => fault instanceof Type && message.test(fault.message));
        assert.throws(() => transform(options), fault => fault instanceof Type && message.test(fault.message));
    }
});

/** A stream of pieces that says whether it was cancelled. */
function streamOf(pieces, isEndless = false) {
    const left = [...pieces], seen = {cancelled: false, pulled: 0};
    const readable = new ReadableStream(
        {
            pull(controller) {
                seen.pulled++;
                if (left.length) controller.enqueue(left.shift());
                else if (!isEndless) controller.close();
                else return new Promise(() => {});
            },
            cancel() { seen.cancelled = true; },
        },
        {highWaterMark: 0});
    return {readable, seen};
}

test('a transform gives what stream gives', async () => {
    for (const form of Object.values(FORMS)) {
        for (const pieces of [cutBy(SOME, 50), [SOME, Uint8Array.of(8), SOME], [SOME.subarray(0, -1)], []]) {
            const expected = await given(stream(pieces, form)), {readable} = streamOf(pieces);
            const [parts, said] = await given(readable.pipeThrough(transform(form)));
            assert.deepEqual([parts, said], expected.slice(0, 2));
        }
    }
    const body = new Response(SOME).body.pipeThrough(transform({gives: 'geometries'}));
    assert.deepEqual((await given(body))[0].flat(), outcome(geometries, SOME)[0]);
});

test('a transform that is left or refused cancels its source, and reads no further than it must', async () => {
    for (const pieces of [Array(100).fill(SOME), [SOME]]) {
        const {readable, seen} = streamOf(pieces, true), reader = readable.pipeThrough(transform()).getReader();
        assert.equal((await reader.read()).done, false);
        assert.ok(seen.pulled < 6, seen.pulled);
        const next = pieces.length === 1 ? reader.read() : null; // waits for a piece that never comes
        await reader.cancel();
        assert.equal((await (next ?? reader.read())).done, true);
        assert.ok(seen.cancelled);
    }
    const {readable, seen} = streamOf([SOME, Uint8Array.of(8)], true),
                     ended = await given(readable.pipeThrough(transform()));
    assert.match(ended[1], /unknown type/);
    await new Promise(resolve => setTimeout(resolve));
    assert.ok(seen.cancelled);
});

test('a signal ends a stream that waits', async () => {
    const {readable, seen} = streamOf([SOME], true),
                     {signal, abort} = (it => ({signal: it.signal, abort: () => it.abort()}))(new AbortController());
    const parts = readable.pipeThrough(transform(), {signal}), found = [];
    await assert.rejects(async () => {
        for await (const part of parts) {
            found.push(part);
            abort();
        }
    }, {name: 'AbortError'});
    assert.equal(found.length, 1);
    assert.ok(seen.cancelled);
});
