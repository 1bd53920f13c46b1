/** The module of WebAssembly: loaded, called, and its memory. */
import {kindOf} from './kinds.js';
import {Status} from './reasons.js';
import {OutOfMemory, Refused, whereOf} from './refused.js';

export const version = '0.1.0';

export const POINT = 16; // bytes of a point

// An instance whose memory has grown past this is given up after the call, since memory never shrinks.
const KEPT = 128 * 2 ** 20;
// What the module can reach: less than 2^32 bytes. A longer buffer is refused before anything is copied.
const REACHED = 2 ** 32 - 2 ** 20;
const TEXT_ROOM = 32;

/** @type {WebAssembly.Module} */
let compiled = null;
// The module that a call of load() fetches and compiles: others that come meanwhile wait for it.
/** @type {Promise<WebAssembly.Module>} */
let compiling = null;
/** @type {any} */
let wasm = null;
// The module is at work. If that is so between two calls, it was left without an answer: the stack of the engine
// ended inside it. That leaves the module's own stack lowered, so the next call takes a new instance. (At once there
// may be no stack left to make one.)
let inside = false;

/** Loads the module: from the file beside the package, or from where it is said to be. */
export async function load(source) {
    compiled = await compiledOnce(source);
    if (!wasm || inside) {
        wasm = (await WebAssembly.instantiate(compiled)).exports;
        inside = false;
    }
    const found = wasm.version ? textAt(wasm.version()) : 'another one';
    if (found !== version) {
        compiled = compiling = wasm = null;
        throw new Error(`polytwkb ${version} needs the module ${version}, and this one is ${found}`);
    }
}

/** The module that an earlier call asked for; the first call, or the next if that one fails, asks for its own. */
async function compiledOnce(source) {
    while (compiling) {
        const earlier = await compiling.catch(() => null);
        if (earlier) return earlier;
    }
    const own = given(source).then(compiledOf);
    compiling = own;
    own.catch(() => {
        if (compiling === own) compiling = null;
    });
    return own;
}

async function given(source) {
    const found = await source;
    if (found !== undefined && found !== null) return found;
    // a bundle that is no module has no place of its own
    if (!import.meta.url)
        throw new Error('polytwkb: load() needs the place of polytwkb.wasm in a bundle that is no module');
    return new URL('../polytwkb.wasm', import.meta.url);
}

async function fileOf(url) {
    // a bundler for browsers would look for a name that stands in the call
    const files = 'node:fs/promises';
    const {readFile} = await import(/* webpackIgnore: true */ /* @vite-ignore */ files);
    try {
        return await readFile(url);
    } catch (cause) {
        throw new Error(`polytwkb: ${url.pathname} cannot be read (in a clone, make wasm makes it): ${cause.message}`);
    }
}

const isNode = () => Boolean(globalThis.process?.versions?.node);

/** What a relative URL is relative to: the page or the worker, as for `fetch`; in Node the current folder. */
function baseOf() {
    const here = globalThis.document?.baseURI ?? globalThis.location?.href;
    return here ?? (isNode() ? new URL(`file://${globalThis.process.cwd()}/`) : undefined);
}

async function compiledOf(source) {
    if (source instanceof WebAssembly.Module) return source;
    if (source instanceof ArrayBuffer || ArrayBuffer.isView(source)) return WebAssembly.compile(source);
    if (typeof source === 'string' || source instanceof URL) {
        const url = new URL(source, baseOf());
        if (url.protocol === 'file:' && isNode()) return WebAssembly.compile(await fileOf(url));
        source = await fetch(url);
    }
    if (typeof source?.arrayBuffer !== 'function') {
        throw new TypeError(`a module is a URL, a response, bytes or compiled, not ${kindOf(source)}`);
    }
    if (!source.ok) throw new Error(`polytwkb: ${source.url}: status ${source.status}`);
    if (source.headers.get('Content-Type') === 'application/wasm') return WebAssembly.compileStreaming(source);
    return WebAssembly.compile(await source.arrayBuffer());
}

/** Runs a call, in which no code of the caller's runs. */
export function called(work) {
    if (!wasm) throw new Error('polytwkb: wait for load() first');
    if (inside && !renew()) throw new RangeError('polytwkb: the stack ended in an earlier call: wait for load() again');
    try {
        return work(wasm);
    } finally {
        if (!inside && wasm.memory.buffer.byteLength > KEPT) renew();
    }
}

/** Takes a new instance, and answers whether it is there at once. Chromium before 115 makes none on a page at once. */
function renew() {
    try {
        wasm = new WebAssembly.Instance(compiled).exports;
        inside = false;
        return true;
    } catch {
        renewLater(wasm);
        return false;
    }
}

async function renewLater(old) {
    const fresh = await WebAssembly.instantiate(compiled).catch(() => null);
    if (!fresh || wasm !== old) return;
    wasm = fresh.exports;
    inside = false;
}

/** What a call of the module returns: where its report, a text or a buffer is, or a count. */
export function answered(conversion) {
    inside = true;
    const at = conversion() >>> 0;
    inside = false;
    return at;
}

/** Where the module has room for so many bytes of ours; 0 if the engine gives none. What lies there stays. */
export const tryRoom = size => (size <= REACHED ? answered(() => wasm.buffers(size)) : 0);

/** The same, or OutOfMemory. */
export function roomFor(size) {
    const at = tryRoom(size);
    if (!at) throw new OutOfMemory(`polytwkb: no memory for buffers of ${size} bytes`);
    return at;
}

export const memory = () => wasm.memory.buffer;

export const bytesAt = (at, length) => new Uint8Array(wasm.memory.buffer, at, length);

function textAt(at) {
    const bytes = bytesAt(at, TEXT_ROOM);
    return String.fromCharCode(...bytes.subarray(0, bytes.indexOf(0)));
}

export const reasonText = reason => textAt(answered(() => wasm.reason_text(reason)));

/** The refusal that a report tells of a table or a stream, with the output before it. */
export const refusalOf = (report, output) =>
    new Refused(report.reason, reasonText(report.reason), whereOf(report), report, output);

/**
 * Reads the numbers of 32 and of 64 bits of a struct of include/polytwkb.h.
 * @returns {any}
 */
function fieldsAt(at, longs) {
    const view = new DataView(wasm.memory.buffer, at, 8 + 8 * longs.length);
    const fields = {status: view.getUint32(0, true), reason: view.getUint32(4, true)};
    for (const [place, name] of longs.entries()) {
        fields[name] = view.getUint32(8 + 8 * place, true) + view.getUint32(12 + 8 * place, true) * 2 ** 32;
    }
    return fields;
}

const REPORT = ['place', 'textOffset', 'done', 'sent', 'needed', 'taken'];
const COUNTS = ['place', 'done', 'rows', 'points', 'neededRows', 'neededPoints', 'taken'];

export const reportAt = at => fieldsAt(at, REPORT);

/** What a reading into arrays reports. */
export const countsAt = at => fieldsAt(at, COUNTS);

export const padded = size => Math.ceil(size / POINT) * POINT;

/**
 * Puts the input into memory and calls the module with room for the output after it; with more room, as much as the
 * module names, if that was too small. Returns the report and where the output is.
 */
export function filled(input, room, unit, call) {
    const output = padded(input.length);
    let at = tryRoom(output + room * unit);
    if (!at) {
        // the first guess may be far more than is needed: what is needed is counted first
        room = 0;
        at = roomFor(output);
    }
    input.put(at);
    for (;;) {
        const report = reportAt(answered(() => call(at, at + output, room)));
        const {status} = report;
        if (status === Status.DONE || status === Status.REFUSED) return {report, base: at, start: at + output};
        if (status !== Status.TOO_SMALL || report.needed <= room) throw new OutOfMemory('polytwkb: out of memory');
        room = report.needed;
        at = roomFor(output + room * unit);
    }
}
