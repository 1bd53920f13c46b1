// Streams whose bytes come in pieces: what is given when, refusals at their places, sources of all kinds.
import assert from 'node:assert/strict';
import test from 'node:test';
import * as polytwkb from '../polytwkb.js';
import {HEADER, bytes, outcome, postgis, within} from './rows.mjs';

const {pack, split, stream, Refused} = polytwkb;

await polytwkb.load();

const LINE = '0,linestring,,5,_p~iF~ps|U_ulLnnqC_mqNvxq`@\n';
const THREE = pack(`${HEADER}0,multipoint,,0,\n1,point,7,,AC\n1,point,8,,GE\n0,point,,0,AC\n${LINE}`);

const cutBy = (whole, size) => Array.from(
    {length: Math.ceil(whole.length / size)}, (_, place) => whole.subarray(size * place, size * (place + 1)));

/** All that a source gives, and the refusal after it. */
async function given(source, limits) {
    const parts = [];
    try {
        for await (const part of stream(source, limits)) parts.push(part);
    } catch (fault) {
        if (!(fault instanceof Refused)) throw fault;
        return [parts, fault];
    }
    return [parts, null];
}

test('each blob comes when its last byte has come', async () => {
    for (const whole of [THREE, pack(polytwkb.unpack(THREE), {style: 'plain'})]) {
        const seen = [], ends = [];
        for (const {length} of split(whole)) ends.push((ends.at(-1) ?? 0) + length);
        let fed = 0, sent = 0;
        const source = {
            * [Symbol.iterator]() {
                  for (const piece of cutBy(whole, 1)) {
                      fed++;
                      yield piece;
                  }
              }
        };
        for await (const part of stream(source)) seen.push([fed, sent += part.length]);
        assert.deepEqual(seen, ends.map(end => [end, end]));
    }
});

test('streams of the vectors, in pieces of each size, end as whole ones do', async () => {
    for (const {given: text, limits, expected} of within('streams', 'unpack')) {
        const whole = bytes(text), [blobs] = outcome(split, whole, limits);
        for (const size of [1, 2, 3, 7, 1000]) {
            const [parts, fault] = await given(cutBy(whole, size), limits);
            const said = Buffer.concat(parts).toString('hex');
            assert.deepEqual([said, fault?.message ?? ''], [Buffer.concat(blobs).toString('hex'), expected[1]], text);
            if (fault) assert.equal(fault.done, blobs.length);
        }
    }
});

test('a cut or wrong blob is refused at its place in the whole stream, after those before it', async () => {
    const [parts, fault] = await given([THREE, THREE, Uint8Array.of(1, 2, 2)]);
    assert.equal(Buffer.concat(parts).length, 2 * THREE.length);
    const place = 2 * THREE.length + 3;
    const {message, code, done} = fault;
    assert.deepEqual([message, code, done], [`byte ${place}: truncated`, 'BLOB_TRUNCATED', 6]);
    const [, wrong] = await given([THREE, Uint8Array.of(8), THREE]);
    assert.deepEqual([wrong.message, wrong.place, wrong.done], [`byte ${THREE.length}: unknown type`, THREE.length, 3]);
});

test('large blobs, with and without sizes, and a size that is wrong', async () => {
    const points = Array.from({length: 300000}, (_, place) => [place % 1000, place % 777]);
    const table = `${HEADER}0,linestring,,0,${polytwkb.encode(points)}\n${LINE}`;
    for (const style of ['full', 'plain']) {
        const whole = pack(table, {style}), [parts, fault] = await given(cutBy(whole, 5000));
        assert.deepEqual(Buffer.concat(parts), Buffer.from(whole));
        assert.equal(fault, null);
    }
    const wrong = Uint8Array.of(2, 2, 0xff, 0xff, 0xff, 0x7f, 0), rest = new Uint8Array(300000);
    const [parts, fault] = await given([wrong, ...cutBy(rest, 7000)]);
    assert.equal(parts.length, 0);
    assert.equal(fault.message, outcome(split, Buffer.concat([wrong, rest]))[1]);
});

test('responses, streams, buffers and pieces of none', async () => {
    const body = () => new Blob([THREE]).stream();
    async function* later() {
        for (const piece of cutBy(THREE, 10)) yield Buffer.from(piece);
    }
    for (const source
             of [new Response(THREE),
                 Promise.resolve(new Response(THREE)),
                 body(),
                 later(),
                 [THREE.buffer],
                 [new DataView(THREE.buffer)],
                 [new Uint8Array(0), THREE, new Uint8Array(0)],
    ]) {
        const [parts, fault] = await given(source);
        assert.deepEqual([Buffer.concat(parts), fault], [Buffer.from(THREE), null]);
    }
    assert.deepEqual(await given([]), [[], null]);
    assert.deepEqual(await given(new Response(null)), [[], null]);
    await assert.rejects(given(new Response('no', {status: 404})), /status 404/);
    for (const source of [null, 7, 'text', [7], ['text'], {}]) await assert.rejects(given(source), TypeError);
    await assert.rejects(given([THREE], {nest: 99}), RangeError);
});

test('leaving the loop cancels the source', async () => {
    let cancelled = false;
    const source = new ReadableStream({
        pull(controller) { controller.enqueue(THREE); },
        cancel() { cancelled = true; },
    });
    for await (const part of stream(source)) {
        assert.ok(part.length > 0);
        break;
    }
    assert.ok(cancelled);
});

test('the blobs of PostGIS in one stream', async () => {
    const whole = Uint8Array.from(Buffer.concat(postgis.map(vector => bytes(vector.hex))));
    const [parts, fault] = await given(cutBy(whole, 11));
    assert.equal(fault, null);
    assert.deepEqual(parts.flatMap(part => split(part)), split(whole));
});
