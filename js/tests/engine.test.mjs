// The module in its engine: loading, calls inside of calls, the engine's stack, memory.
import assert from 'node:assert/strict';
import {execFileSync} from 'node:child_process';
import {readFileSync} from 'node:fs';
import {tmpdir} from 'node:os';
import test from 'node:test';
import {fileURLToPath} from 'node:url';
import * as polytwkb from '../polytwkb.js';
import {HEADER} from './rows.mjs';

const {pack, unpack, show, encode, geometries, Refused} = polytwkb;
const PACKAGE = new URL('../polytwkb.js', import.meta.url).href;
const WASM = fileURLToPath(new URL('../polytwkb.wasm', import.meta.url));
const POINT = Uint8Array.of(1, 2, 2, 4, 2);
const ONE_POINT = `${HEADER}0,point,,0,AC\n`;

await polytwkb.load();

/** What another process of node prints, in which the package is `p`. */
function child(code, ...flags) {
    const words = [...flags, '--input-type=module', '-e', `import * as p from '${PACKAGE}'; ${code}`];
    return execFileSync(process.execPath, words, {encoding: 'utf8'});
}

test('before load, and a module of another version', () => {
    const early = 'try { p.unpack(new Uint8Array()) } catch (fault) { console.log(fault.message) }';
    assert.match(child(early), /load\(\) first/);
    assert.match(
        child(`
        import { readFileSync } from 'node:fs';
        const bytes = readFileSync('${WASM}'), other = Buffer.from(bytes);
        other.write('9', bytes.indexOf('${polytwkb.version}'));
        await p.load(other).catch(fault => console.log(fault.message));
        await p.load(Uint8Array.of(0, 97, 115, 109, 1, 0, 0, 0)).catch(fault => console.log(fault.message));
        await Promise.all([p.load(), p.load(new WebAssembly.Module(bytes)), p.load(Promise.resolve(bytes))]);
        console.log(p.unpack(new Uint8Array()));
    `),
        /needs the module \S+, and this one is 9\.\S+\n.*and this one is another one\ndepth,kind/);
});

test('two calls of load at once fetch the module once, and one that fails leaves the next to its own', () => {
    const said = child(`
        import { readFileSync } from 'node:fs';
        const bytes = readFileSync('${WASM}'), asked = [];
        globalThis.fetch = async url => {
            asked.push(url.pathname);
            const isThere = url.pathname === '/right.wasm';
            const headers = { get: () => 'application/octet-stream' };
            return { ok: isThere, url: url.href, status: 404, headers, arrayBuffer: async () => bytes };
        };
        const loaded = name => p.load('https://here.example/' + name).then(() => name, fault => fault.message);
        console.log(String(await Promise.all([loaded('lacking.wasm'), loaded('right.wasm'), loaded('right.wasm')])));
        console.log(String(asked), p.unpack(new Uint8Array()));
        await p.load('https://here.example/right.wasm');
        console.log(asked.length);
    `);
    assert.equal(
        said,
        'polytwkb: https://here.example/lacking.wasm: status 404,right.wasm,right.wasm\n' +
            `/lacking.wasm,/right.wasm ${HEADER}\n2\n`);
});

test('where a module is', () => {
    assert.match(
        child(`
        import { copyFileSync, mkdtempSync, rmSync } from 'node:fs';
        const folder = mkdtempSync('${tmpdir()}/polytwkb-'), asked = [];
        copyFileSync('${WASM}', folder + '/other.wasm');
        globalThis.fetch = async url => { asked.push(url.href); return { ok: false, url: url.href, status: 404, arrayBuffer() {} }; };
        const failed = source => p.load(source).catch(fault => console.log(fault.name + ': ' + fault.message));
        await failed(42);
        await failed({});
        process.chdir(folder);
        await failed('lacking.wasm');
        globalThis.document = { baseURI: 'https://here.example/map/index.html' };
        await failed('a.wasm');
        await failed('/b.wasm');
        delete globalThis.document;
        globalThis.location = { href: 'https://there.example/worker.js' };
        await failed('c.wasm');
        delete globalThis.location;
        await p.load('other.wasm');
        rmSync(folder, { recursive: true });
        console.log(asked.join(' '), p.unpack(new Uint8Array()));
    `),
        new RegExp([
            'TypeError: a module is a URL, a response, bytes or compiled, not number',
            'TypeError: .*, not Object',
            'Error: polytwkb: \\S*/lacking.wasm cannot be read .*',
            ...Array(3).fill('Error: polytwkb: https://\\S* status 404'),
            'https://here.example/map/a.wasm https://here.example/b.wasm https://there.example/c.wasm depth,kind',
        ].join('\n')));
});

test('the size of the module', () => {
    assert.ok(readFileSync(WASM).length <= 320000);
});

test('calls inside of calls', () => {
    const inner = [[-120.2, 38.5], [-120.95, 40.7]];
    const points = {
        * [Symbol.iterator]() {
              for (const point of inner) {
                  assert.equal(unpack(POINT), ONE_POINT);
                  assert.throws(() => unpack(POINT.subarray(0, 3)), Refused);
                  yield point;
              }
          }
    };
    assert.equal(encode(points, 5), encode(inner, 5));
    const limits = {
        get nest() {
            pack(HEADER);
            return 3;
        }
    };
    assert.equal(unpack(POINT, limits), ONE_POINT);
});

test('a buffer that is taken away while limits are asked for is refused', () => {
    for (const call of [unpack, show, geometries, pack]) {
        const given = POINT.slice(), limits = {
            get nest() {
                structuredClone(0, {transfer: [given.buffer]});
                return 3;
            }
        };
        assert.throws(() => call(given, limits), TypeError);
    }
});

// Each round ends the stack at other places: in the module, before it and after it.
test('the stack of the engine ends in a call', () => {
    const table = `${HEADER}${'0,linestring,,5,AAGG\n'.repeat(50)}`, blobs = pack(table);
    const cut = () => {
        try {
            unpack(blobs.subarray(1));
        } catch (fault) {
            if (!(fault instanceof Refused)) throw fault;
        }
    };
    const calls = [() => unpack(blobs), () => pack(table), () => geometries(blobs), () => show(blobs), cut];
    let faults = 0;
    const deep = (depth, round, ...more) => {
        try {
            if (depth % 7 === round % 7) calls[round % calls.length]();
            deep(depth + 1, round, ...more);
        } catch (fault) {
            if (!(fault instanceof RangeError)) throw fault;
            faults++;
        }
    };
    for (let round = 0; round < 200; round++) {
        deep(0, round, ...Array(round % 13).fill(0));
        assert.equal(unpack(blobs), table);
        assert.deepEqual(pack(table), blobs);
    }
    assert.ok(faults >= 200);
});

// As on a page of Chromium before 115, which makes no instance of a large module at once.
test('an instance that is not made at once is made a moment later', () => {
    const said = child(`
        const { instantiate } = WebAssembly, made = [], sizes = () => made.map(it => it.exports.memory.buffer.byteLength);
        WebAssembly.instantiate = async module => { made.push(await instantiate(module)); return made.at(-1); };
        WebAssembly.Instance = function () { throw new RangeError('not at once'); };
        const later = () => new Promise(resolve => setTimeout(resolve, 100));
        await p.load();
        const table = ${JSON.stringify(HEADER)} + '0,linestring,,5,_p~iF~ps|U_ulLnnqC_mqNvxq\`@\\n'.repeat(50);
        const blobs = p.pack(table), many = count => Buffer.concat(Array(count).fill(blobs));
        const isRight = () => p.unpack(blobs) === table;
        p.unpackBytes(many(22000));
        console.log(sizes()[0] > 2 ** 27, isRight());
        while (made.length < 2) await later();
        await later();
        const before = sizes();
        p.unpackBytes(many(6000));
        const grown = sizes().filter((size, place) => size > before[place]);
        console.log(grown.length, sizes()[0] === before[0], isRight());
        let told = 0, wrong = 0;
        const deep = (depth, round, ...more) => {
            try {
                if (depth % 7 === round % 7) p.unpack(blobs);
                deep(depth + 1, round, ...more);
            } catch (fault) {
                if (!(fault instanceof RangeError)) throw fault;
            }
        };
        for (let round = 0; round < 100; round++) {
            deep(0, round, ...Array(round % 13).fill(0));
            try {
                wrong += !isRight();
            } catch (fault) {
                if (!/wait for load\\(\\) again/.test(fault.message)) throw fault;
                told++;
                await p.load();
                wrong += !isRight();
            }
        }
        console.log(told > 0, wrong);
    `);
    assert.equal(said, 'true true\n1 true true\ntrue 0\n');
});

test('100,000 calls leak nothing', () => {
    const said = child(
        `
        await p.load();
        const text = '_p~iF~ps|U_ulLnnqC_mqNvxq\`@';
        const table = ${JSON.stringify(HEADER)} + ('0,linestring,,5,' + text + '\\n').repeat(20);
        const blobs = p.pack(table), cut = blobs.subarray(0, 30);
        const refused = call => { try { call(); } catch {} };
        const calls = [
            () => p.pack(table), () => p.unpack(blobs), () => p.show(blobs), () => refused(() => p.unpack(cut)),
            () => refused(() => p.pack('x')), () => p.decode(text, 5), () => p.encode([[1, 2], [3, 4]]),
            () => p.geometries(blobs),
        ];
        const round = count => { for (let i = 0; i < count; i++) calls[i % calls.length](); };
        const used = () => { gc(); const m = process.memoryUsage(); return [m.heapUsed, m.external, m.arrayBuffers]; };
        round(5000);
        const before = used();
        round(100000);
        console.log(JSON.stringify(used().map((bytes, i) => bytes - before[i])));
    `,
        '--expose-gc');
    assert.ok(JSON.parse(said).every(bytes => bytes < 1e6), said);
});

test('memory grows and is given up again', () => {
    const said = child(
        `
        await p.load();
        const header = ${JSON.stringify(HEADER)}, small = p.pack(header + '0,point,,0,AC\\n');
        const table = header + '0,linestring,,5,_p~iF~ps|U_ulLnnqC_mqNvxq\`@\\n'.repeat(700000);
        const rss = [];
        for (let round = 0; round < 6; round++) {
            const blobs = p.pack(table);
            if (p.unpack(blobs) !== table || p.unpack(small).length !== 47) throw new Error('differs');
            try { p.unpack(blobs.subarray(1)); } catch {}
            gc();
            rss.push(Math.round(process.memoryUsage().rss / 1e6));
        }
        console.log(JSON.stringify(rss));
    `,
        '--expose-gc');
    const rss = JSON.parse(said);
    assert.ok(rss.at(-1) < 1.5 * rss[1], said);
});

// V8 gives the module at most 100 MB, less than the first guess at the output takes.
test('an output is counted first if there is no memory for a guess', () => {
    const said = child(
        `
        await p.load();
        // a linestring of 500,000 points, 60 times; and one of 800,000 points whose differences have 9 bytes each
        const short = new Uint8Array(1000005), long = new Uint8Array(5 + 18 * 800000);
        short.set([2, 0, 0xa0, 0xc2, 0x1e]);
        long.set([2, 0, 0x80, 0xea, 0x30]);
        const [there, back] = [[...Array(8).fill(0x80), 0x20], [...Array(8).fill(0xff), 0x1f]];
        for (let at = 5, way = there; at < long.length; at += 18, way = way === there ? back : there) long.set([...way, ...way], at);
        const headers = p.show(Buffer.concat(Array(60).fill(short))), { xy } = p.read(long, { degrees: false });
        console.log(headers.length, headers.every(header => header.points === 500000), xy.length, xy[0], xy[1599999]);
    `,
        '--wasm-max-mem-pages=1600');
    assert.equal(said, `60 true 1600000 ${2n ** 60n}n 0n\n`);
});

// V8 gives the module at most 100 MB: each call answers, is refused, or says that memory is lacking; the next works.
test('no memory', () => {
    const said = child(
        `
        await p.load();
        const points = '?'.repeat(16 << 20);
        const table = ${JSON.stringify(HEADER)} + '0,linestring,,0,' + points + '\\n';
        let lacked = 0;
        for (const call of [
            () => p.decodeFlat(points), () => p.pack(table), () => p.unpack(new Uint8Array(200 << 20)),
            () => p.pack(new Uint8Array(100 << 20)), () => p.encode(new BigInt64Array(12 << 20)),
        ]) {
            try { call(); } catch (fault) {
                if (fault instanceof p.OutOfMemory && fault instanceof RangeError) lacked++;
                else if (!(fault instanceof p.Refused)) throw fault;
            }
            if (p.decode('AAGG').length !== 2) throw new Error('differs');
        }
        console.log(lacked);
    `,
        '--wasm-max-mem-pages=1600');
    assert.ok(Number(said) >= 3, said);
});
