/** Tables to streams, and streams to tables, headers and blobs. */
import {bytesOf, limitsAmong, limitsOf, styleOf, textOf} from './inputs.js';
import {bytesAt, called, filled, refusalOf} from './module.js';
import {Status} from './reasons.js';

// The numbers of the conversions, as in include/polytwkb.h.
export const Conversion = {
    PACK: 0,
    UNPACK: 1,
    SHOW: 2,
    GEOJSON: 3,
    HEADERS: 4,
};

const LARGE = 2 ** 24;
export const HEADER = 32; // bytes of a header
const KINDS = ['', 'point', 'linestring', 'polygon', 'multipoint', 'multilinestring', 'multipolygon', 'collection'];

const decoder = new TextDecoder('utf-8', {ignoreBOM: true});

/** What `result` makes of the bytes that a conversion writes; if the input is refused, of those before the fault. */
function converted(conversion, input, room, result, limits, style = 0) {
    return called(wasm => {
        const call = (from, to, most) => wasm.convert(conversion, from, input.length, to, most, ...limits, style);
        const {report, start} = filled(input, room, 1, call);
        const output = result(bytesAt(start, report.sent));
        if (report.status === Status.REFUSED) throw refusalOf(report, output);
        return output;
    });
}

/** A first guess at what is written for a stream: so many times as much. If it is too small, the work is done again. */
const roomOf = ({length}, times) => (length < LARGE ? 7 : times) * length + 64;

const copied = bytes => bytes.slice();

/** The string of bytes. If it would be too long, another call, if there is one, gives the bytes. */
export function spelled(bytes, other = '') {
    try {
        return decoder.decode(bytes);
    } catch {
        const tip = other && `: ${other} gives them`;
        throw new RangeError(`polytwkb: ${bytes.length} bytes are too long for a string here${tip}`);
    }
}

export function pack(table, options = {}) {
    const most = limitsOf(limitsAmong(options, 'style')), form = styleOf(options);
    const input = textOf(table, 'a table is a string or bytes');
    return converted(Conversion.PACK, input, input.length + 64, copied, most, form);
}

/** What `result` makes of what is written for a stream: for a large one, so many times as much, by a first guess. */
function listed(conversion, times, blobs, limits, result) {
    const most = limitsOf(limits), input = bytesOf(blobs, 'a stream of blobs is bytes');
    return converted(conversion, input, roomOf(input, times), result, most);
}

const textOr = other => bytes => spelled(bytes, other);

const listedTable = (blobs, limits, result) => listed(Conversion.UNPACK, 3, blobs, limits, result);

export const unpack = (blobs, limits) => listedTable(blobs, limits, textOr('unpackBytes'));

export const unpackBytes = (blobs, limits) => listedTable(blobs, limits, copied);

const listedGeojson = (blobs, limits, result) => listed(Conversion.GEOJSON, 6, blobs, limits, result);

export const toGeojson = (blobs, limits) => listedGeojson(blobs, limits, textOr('toGeojsonBytes'));

export const toGeojsonBytes = (blobs, limits) => listedGeojson(blobs, limits, copied);

/** The header at a place, as include/polytwkb.h has it. Streams in memory are shorter than 2^32 bytes. */
function headerAt(view, at) {
    return {
        level: view.getUint32(at + 24, true),
        offset: view.getUint32(at, true),
        kind: KINDS[view.getUint8(at + 28)],
        precision: view.getInt8(at + 29),
        metadata: view.getUint8(at + 30),
        length: view.getUint32(at + 8, true),
        points: view.getUint32(at + 16, true),
    };
}

/** The headers that the module wrote. */
function headersOf(bytes) {
    const view = new DataView(bytes.buffer, bytes.byteOffset, bytes.length);
    return Array.from({length: bytes.length / HEADER}, (_, place) => headerAt(view, HEADER * place));
}

export const show = (blobs, limits) => listed(Conversion.HEADERS, 3, blobs, limits, headersOf);
