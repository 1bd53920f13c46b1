// A long stream, made while it is read, through the package in bounded memory.
//
//     node --expose-gc endless.mjs [MEGABYTES [FORM..]]
//
// (64, all). Reads it as blobs, as arrays, as geometries and through a transform, in pieces of any size, and compares
// the sums with those that the stream must have. After each MB all that is not held is given up, and what is left may
// be no more than MOST above what there was before. `endless.mjs 2000` reads 2 GB in each form, in some minutes.
import assert from 'node:assert/strict';
import * as polytwkb from '../polytwkb.js';

const {geometries, packGeometries, read, stream, transform} = polytwkb;
const MEGABYTE = 2 ** 20;
const MOST = 16 * MEGABYTE; // the module's memory for a window, the window, and what is made of it
const PIECE = 2 ** 17; // bytes, at most

let state = 7;
const random = most => ((state = (state * 1103515245 + 12345) % 2 ** 31) >> 8) % most;
const place = () => [random(36000) / 100 - 180, random(18000) / 100 - 90];
const line = count => Array.from({length: count}, place);

const SHAPES = [
    () => ({type: 'Point', coordinates: place()}),
    () => ({type: 'LineString', coordinates: line(2 + random(60))}),
    () => ({type: 'MultiPoint', coordinates: line(3), ids: [1, 2, 3]}),
    () => ({
        type: 'GeometryCollection',
        geometries: [{type: 'Point', coordinates: place()}, {type: 'LineString', coordinates: line(9)}]
    }),
    () => ({type: 'LineString', coordinates: line(random(400) ? 5 : 9000)}),
];

/** Blobs that come again and again: about a MB, of both styles. */
function blockOf() {
    const blobs = [];
    for (let length = 0; length < MEGABYTE; length += blobs.at(-1).length) {
        const shapes = Array.from({length: 500}, () => SHAPES[random(SHAPES.length)]());
        blobs.push(packGeometries(shapes, 5, {style: random(2) ? 'full' : 'plain'}).blobs);
    }
    return Buffer.concat(blobs);
}

/** So many bytes at least, which end with a block, in pieces of any size; and what is held, after each block. */
async function* piecesOf(block, count, hold) {
    let held = new Uint8Array(0);
    for (let turn = 0; turn < count; turn++) {
        for (let at = 0; at < block.length;) {
            const length = 1 + random(PIECE);
            held = block.slice(at, at += length);
            yield held;
        }
        await new Promise(resolve => setTimeout(resolve)); // what was given up in promises goes too
        hold();
    }
}

function readableOf(pieces) {
    return new ReadableStream(
        {
            async pull(controller) {
                const {done, value} = await pieces.next();
                if (done) controller.close();
                else controller.enqueue(value);
            },
        },
        {highWaterMark: 0});
}

const FORMS = {
    blobs: [pieces => stream(pieces), part => ({bytes: part.length})],
    arrays: [
        pieces => stream(pieces, {gives: 'arrays', blobOffsets: true}),
        ({blobOffsets, xy}) =>
            ({bytes: blobOffsets.at(-1) - blobOffsets[0], points: xy.length / 2, geometries: blobOffsets.length - 1}),
    ],
    geometries: [pieces => stream(pieces, {gives: 'geometries'}), part => ({geometries: part.length})],
    transform: [
        pieces => readableOf(pieces).pipeThrough(transform({gives: 'geometries', degrees: false})),
        part => ({geometries: part.length}),
    ],
};

/** The memory that is held: the engine's heap, and buffers, with the module's. */
function heldNow() {
    globalThis.gc();
    const {heapUsed, external} = process.memoryUsage();
    return heapUsed + external;
}

/** What a form gives of a stream of so many blocks, in sums, and the most memory that was held. */
async function run(block, count, [given, sumsOf]) {
    const sums = {}, before = heldNow();
    let most = 0;
    const pieces = piecesOf(block, count, () => {
        most = Math.max(most, heldNow() - before);
    });
    for await (const part of given(pieces)) {
        for (const [name, number] of Object.entries(sumsOf(part))) sums[name] = (sums[name] ?? 0) + number;
    }
    return {sums, most};
}

if (!globalThis.gc) throw new Error('node --expose-gc endless.mjs [MEGABYTES]');
await polytwkb.load();
const [megabytes = 64, ...names] = process.argv.slice(2), block = blockOf();
const count = Math.ceil(Number(megabytes) * MEGABYTE / block.length);
const due = {
    bytes: block.length,
    points: read(block).xy.length / 2,
    geometries: geometries(block).length
},
      told = [];
for (const name of names.length ? names : Object.keys(FORMS)) {
    const {sums, most} = await run(block, count, FORMS[name]);
    for (const [what, sum] of Object.entries(sums)) assert.equal(sum, count * due[what], `${what} of ${name}`);
    assert.ok(most < MOST, `${name}: ${most} bytes are held`);
    told.push(`${name} ${(most / MEGABYTE).toFixed(1)}`);
}
const peak = process.resourceUsage().maxRSS / 1024;
console.log(`${Math.round(count * block.length / 1e6)} MB; MB held: ${told.join(', ')}; ${
    Math.round(peak)} MB of memory at most`);
