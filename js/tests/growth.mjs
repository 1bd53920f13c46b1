// Memory refused in each growth: modules whose memory may have N pages at most, for each N from the first to enough.
// Each call answers as ever, or that memory was refused, after a prefix of the right output, and has given all back.
//
//     node growth.mjs MODULE.wasm
import assert from 'node:assert/strict';
import {readFileSync} from 'node:fs';
import * as polytwkb from '../polytwkb.js';
import {bytesOfArrays} from './compare.js';
import {HEADER, lineOf} from './rows.mjs';

const [DONE, MEMORY] = [0, 4];
const [HEAD, SECTION_OF_MEMORY, REPORT] = [8, 5, 48];
const [PACK, UNPACK, SHOW, GEOJSON] = [0, 1, 2, 3];
const LIMITS = [16, 2 ** 20, 2 ** 24];

function leb(bytes, at) {
    for (let value = 0, shift = 0;; shift += 7) {
        const byte = bytes[at++];
        value += (byte & 127) * 2 ** shift;
        if (byte < 128) return [value, at];
    }
}

const spelled = number => (number < 128 ? [number] : [number & 127 | 128, ...spelled(number >> 7)]);

/** The module with a limit of pages, and how many it has at first. */
function limited(bytes, most) {
    for (let at = HEAD;;) {
        const [size, start] = leb(bytes, at + 1), end = start + size;
        if (bytes[at] !== SECTION_OF_MEMORY) {
            at = end;
            continue;
        }
        const [first] = leb(bytes, start + 2), content = [1, 1, ...spelled(first), ...spelled(most)];
        const section = [SECTION_OF_MEMORY, ...spelled(content.length), ...content];
        return {first, bytes: Buffer.concat([bytes.subarray(0, at), Buffer.from(section), bytes.subarray(end)])};
    }
}

/** The arguments of a conversion. */
const converting = number => (from, length, to, room) => [number, from, length, to, room, ...LIMITS, 0];

/** The arguments of writing so many points and the rows after them. */
const writing = points => (from, length, to, room) => {
    const arrays = [from + 16 * points, (length - 16 * points) / 24, from, points], ends = [to, 0];
    return [...arrays, to, room, ...ends, ...LIMITS, 0, 0];
};

/** What a call answers, if there is memory for its buffers. */
function answered({exports}, name, input, room, given) {
    const from = exports.buffers(input.length + room + 16) >>> 0, to = from + Math.ceil(input.length / 16) * 16;
    if (!from) return null;
    new Uint8Array(exports.memory.buffer).set(input, from);
    const at = exports[name](...given(from, input.length, to, room)) >>> 0;
    assert.equal(exports.kept(), 0);
    const view = new DataView(exports.memory.buffer, at, REPORT), sent = Number(view.getBigUint64(32, true));
    return {status: view.getUint32(0, true), output: Buffer.from(exports.memory.buffer, to, sent)};
}

/** Tries a call with each limit; how many were refused. */
function refusals(bytes, name, input, expected, given) {
    let refused = 0;
    for (let most = limited(bytes, 9).first;; most++) {
        const module = new WebAssembly.Module(limited(bytes, most).bytes), instance = new WebAssembly.Instance(module);
        const found = answered(instance, name, input, expected.length, given);
        if (found?.status === DONE) {
            assert.deepEqual(found.output, expected);
            return refused;
        }
        if (found) assert.equal(found.status, MEMORY);
        if (found) assert.deepEqual(found.output, expected.subarray(0, found.output.length));
        assert.equal(answered(instance, 'convert', Buffer.from('x'), 1, converting(PACK))?.status, 1);
        refused += found ? 1 : 0;
    }
}

await polytwkb.load();
const bytes = readFileSync(process.argv[2]);
const line = polytwkb.encode(Array.from({length: 40000}, (_, place) => [place % 999, place % 77]));
const parts = '1,point,,5,_p~iF~ps|U\n1,multipoint,,5,\n2,point,,,AC\n'.repeat(3000);
const table = Buffer.from(`${HEADER}0,point,,0,AC\n0,linestring,,5,${line}\n0,collection,,5,\n${parts}`);
const blobs = Buffer.from(polytwkb.pack(table)), lines = Buffer.from(polytwkb.show(blobs).map(lineOf).join(''));
const found = polytwkb.read(blobs, {degrees: false}), {xy} = found, arrays = Buffer.from(bytesOfArrays(found));
const counts = [
    refusals(bytes, 'convert', table, blobs, converting(PACK)),
    refusals(bytes, 'convert', blobs, table, converting(UNPACK)),
    refusals(bytes, 'convert', blobs, lines, converting(SHOW)),
    refusals(bytes, 'convert', blobs, Buffer.from(polytwkb.toGeojson(blobs)), converting(GEOJSON)),
    refusals(bytes, 'write', arrays, blobs, writing(xy.length / 2)),
];
assert.ok(counts.every(count => count > 3), counts);
console.log(`memory refused ${counts.join(', ')} times in pack, unpack, show, GeoJSON, write`);
