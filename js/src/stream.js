/** A stream of blobs whose bytes come in pieces, as those of `fetch` do. */
import {makingArrays} from './arrays.js';
import {makingGeometries} from './geometries.js';
import {checkObject, degreesOf, flagOf, limitsAmong, viewOf, wordOf} from './inputs.js';
import {kindOf} from './kinds.js';
import {refusalOf} from './module.js';
import {Windows} from './windows.js';

async function* read(stream) {
    const reader = stream.getReader();
    try {
        for (let part = await reader.read(); !part.done; part = await reader.read()) yield part.value;
    } finally {
        await reader.cancel().catch(() => {});
    }
}

/** The pieces of a source. */
async function* piecesOf(source) {
    if (globalThis.Response && source instanceof Response) {
        if (!source.ok) throw new Error(`polytwkb: ${source.url}: status ${source.status}`);
        if (source.body) yield* read(source.body);
    } else if (typeof source?.getReader === 'function') {
        yield* read(source);
    } else if (source?.[Symbol.asyncIterator] || source?.[Symbol.iterator] && typeof source !== 'string') {
        yield* source;
    } else {
        throw new TypeError(`a source is a response, a stream or pieces of bytes, not ${kindOf(source)}`);
    }
}

/** The windows of a stream, and whether what is made of each is given, and not its blobs; as options say. */
function windowsOf(options) {
    checkObject(options, 'options');
    const gives = wordOf(options, 'gives', 'blobs', 'arrays', 'geometries');
    if (gives === 'blobs')
        return {windows: new Windows(limitsAmong(options, 'gives'), () => null, false), gives: false};
    const isArrays = gives === 'arrays', names = isArrays ? ['degrees', 'blobOffsets'] : ['degrees'];
    const limits = limitsAmong(options, 'gives', ...names), degrees = degreesOf(options);
    const hasOffsets = isArrays && flagOf(options, 'blobOffsets', false);
    const made = isArrays ? makingArrays(degrees, hasOffsets) : makingGeometries(degrees);
    return {windows: new Windows(limits, made, hasOffsets), gives: true};
}

/** The blobs that are whole, one after the other, or what is made of those of each window; and the fault after them. */
function* taken({windows, gives}, isEnd) {
    const {bytes, start} = windows;
    for (const part of windows.take(isEnd))
        if (gives) yield part;
    if (!gives && windows.start > start) yield bytes.slice(start, windows.start);
    if (windows.fault) throw refusalOf(windows.fault, new Uint8Array(0));
}

async function* parts(source, reading) {
    for await (const piece of piecesOf(await source)) {
        reading.windows.add(viewOf(piece, 'a piece is bytes'));
        yield* taken(reading, false);
    }
    yield* taken(reading, true);
}

export async function* stream(source, options = {}) { yield* parts(source, windowsOf(options)); }

export function transform(options = {}) {
    const reading = windowsOf(options), {readable, writable} = new TransformStream(), reader = readable.getReader();
    const given = parts({getReader: () => reader}, reading);
    // One part at a time, so that those before a fault are not lost when the fault ends the stream.
    const source = {
        async pull(controller) {
            const {done, value} = await given.next();
            if (done) controller.close();
            else controller.enqueue(value);
        },
        cancel: reason => reader.cancel(reason),
    };
    return {writable, readable: new ReadableStream(source, {highWaterMark: 0})};
}
