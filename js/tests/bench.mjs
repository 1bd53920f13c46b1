// Times of the package, beside the native library and a decoder that checks nothing:
//
//     node bench.mjs LIBRARY.so [MEGABYTES [ROUNDS]]
//
// Tables of lines, of single points and of collections; the least processor time of each call.
import {execFileSync} from 'node:child_process';
import {mkdtempSync, readFileSync, rmSync, writeFileSync} from 'node:fs';
import {tmpdir} from 'node:os';
import {join} from 'node:path';
import {fileURLToPath} from 'node:url';
import {gzipSync} from 'node:zlib';
import * as polytwkb from '../polytwkb.js';
import * as plain from './plain_decoder.mjs';

const [library, megabytes = 1, rounds = 60] = process.argv.slice(2);
const WASM = new URL('../polytwkb.wasm', import.meta.url);
let state = 7;
const random = most => (state = (state * 1103515245 + 12345) % 2 ** 31) % most;
const place = () => [700000 + random(100000), 4600000 + random(100000)];

function lineOf(count) {
    const points = [place()];
    while (points.length < count) points.push(points.at(-1).map(number => number + random(200) - 100));
    return polytwkb.encode(points);
}

const ROWS = {
    'lines of 1,000 points': () => `0,linestring,,5,${lineOf(1000)}\n`,
    'lines of 27 points': () => `0,linestring,,5,${lineOf(27)}\n`,
    'single points': () => `0,point,,5,${lineOf(1)}\n`,
    'collections of a point and a line': () =>
        `0,collection,,5,\n1,point,7,5,${lineOf(1)}\n1,linestring,8,5,${lineOf(2)}\n`,
};

function tableOf(row) {
    const parts = ['depth,kind,id,precision,polyline\n'];
    for (let length = 0; length < megabytes * 1e6; length += parts.at(-1).length) parts.push(row());
    return Buffer.from(parts.join(''));
}

/** The least processor times of calls by turns, in milliseconds. */
function leastOf(calls) {
    const least = {};
    for (let round = 0; round < rounds; round++) {
        for (const [name, call] of Object.entries(calls)) {
            const start = process.cpuUsage();
            call();
            const {user, system} = process.cpuUsage(start), time = (user + system) / 1000;
            least[name] = Math.min(least[name] ?? time, time);
        }
    }
    return least;
}

/** The same in nanoseconds a point. */
function eachOf(calls, points) {
    return Object.entries(leastOf(calls))
        .map(([call, time]) => `${call} ${((time * 1e6) / points).toFixed(0)}`)
        .join(', ');
}

function nativeTimes(table, blobs) {
    const folder = mkdtempSync(join(tmpdir(), 'polytwkb-bench-'));
    const files = ['table', 'blobs'].map(name => join(folder, name));
    writeFileSync(files[0], table);
    writeFileSync(files[1], blobs);
    const script = fileURLToPath(new URL('native_times.py', import.meta.url));
    const said = execFileSync('python3', [script, library, ...files, String(rounds)], {encoding: 'utf8'});
    rmSync(folder, {recursive: true});
    return Object.fromEntries([...said.matchAll(/(\w+) (.*)/g)].map(([, name, time]) => [name, Number(time)]));
}

/** The module's own call, with no strings and objects of JavaScript around it. */
async function moduleOf() {
    const {exports} = await WebAssembly.instantiate(await WebAssembly.compile(readFileSync(WASM)));
    return (number, input, room) => {
        const from = exports.buffers(input.length + room + 16) >>> 0, to = from + Math.ceil(input.length / 16) * 16;
        new Uint8Array(exports.memory.buffer).set(input, from);
        const at = exports.convert(number, from, input.length, to, room, 16, 2 ** 20, 2 ** 24, 0) >>> 0;
        const status = new DataView(exports.memory.buffer, at, 48).getUint32(0, true);
        if (status) throw new Error(`status ${status}`);
    };
}

/** From the start of `load` to the end of a first call, in milliseconds: the least of some new processes. */
function firstCall() {
    const code =
        `import * as p from '${new URL('../polytwkb.js', import.meta.url).href}'; const start = performance.now();
        await p.load(); p.decode('AC'); console.log(performance.now() - start);`;
    const words = ['--input-type=module', '-e', code];
    return Math.min(...Array.from({length: 9}, () => Number(execFileSync(process.execPath, words))));
}

await polytwkb.load();
const module = await moduleOf(), wasm = readFileSync(WASM);
console.log(`the first call is done ${firstCall().toFixed(0)} ms after the start of load()`);
console.log(`module: ${wasm.length} bytes, ${gzipSync(wasm, {level: 9}).length} compressed`);
for (const [name, row] of Object.entries(ROWS)) {
    const table = tableOf(row), blobs = polytwkb.pack(table), headers = polytwkb.show(blobs), room = 8 * table.length;
    const points = headers.filter(({level}) => level === 0).reduce((sum, header) => sum + header.points, 0);
    const native = nativeTimes(table, blobs);
    const calls = {
        pack: () => module(0, table, table.length + 64),
        unpack: () => module(1, blobs, room),
        show: () => module(2, blobs, room),
        geojson: () => module(3, blobs, room),
    };
    const told = Object.entries(leastOf(calls))
                     .map(
                         ([call, time]) => `${call} ${(table.length / time / 1000).toFixed(0)} MB/s, ${
                             (time / native[call]).toFixed(2)} of native`);
    console.log(`${name}: ${table.length} bytes of table, ${points} points; ${told.join('; ')}`);
    const shapes = polytwkb.geometries(blobs);
    const times = {
        'pack of a string': () => polytwkb.pack(table.toString()),
        unpack: () => polytwkb.unpack(blobs),
        show: () => polytwkb.show(blobs),
        toGeojson: () => polytwkb.toGeojson(blobs),
        geometries: () => polytwkb.geometries(blobs),
        packGeometries: () => polytwkb.packGeometries(shapes, 5),
        'plain decoder': () => plain.geometries(blobs),
    };
    console.log(`  ns a point: ${eachOf(times, points)}`);
    const degrees = polytwkb.read(blobs), units = polytwkb.read(blobs, {degrees: false});
    const arrays = {
        'read to units': () => polytwkb.read(blobs, {degrees: false}),
        'to degrees': () => polytwkb.read(blobs),
        'write of units': () => polytwkb.write(units),
        'of degrees': () => polytwkb.write(degrees),
    };
    console.log(`  arrays, ns a point: ${eachOf(arrays, points)}`);
}
