/** Geometries in typed arrays as a stream. */
import {END, ROW, ROW_WORDS, offsetsAt} from './arrays.js';
import {checkObject, flagOf, limitsAmong, limitsOf, styleOf} from './inputs.js';
import {kindOf} from './kinds.js';
import {POINT, answered, bytesAt, called, filled, memory, reasonText} from './module.js';
import {Reason, Status} from './reasons.js';
import {Refused} from './refused.js';

const COLUMNS = {
    depths: [Uint8Array],
    kinds: [Uint8Array],
    precisions: [Int8Array],
    hasIds: [Uint8Array],
    ids: [BigInt64Array],
    offsets: [Uint32Array],
    xy: [Float64Array, Float32Array, BigInt64Array],
};
const LARGE = 2 ** 16; // points and rows
// A first guess at the output: of a few as much as they may take, of many as much as they mostly do.
const [MOST_OF_ROW, MOST_OF_POINT, SOME_OF_ROW, SOME_OF_POINT] = [72, 20, 24, 8];

/** Arrays of the types that `read` gives; degrees may be a Float32Array too. Without `hasIds` and `ids` no row has an id. */
function columnsOf(arrays) {
    checkObject(arrays, 'arrays');
    const {depths, kinds, precisions, offsets, xy} = arrays, count = kinds?.length ?? 0;
    const {hasIds = new Uint8Array(count), ids = new BigInt64Array(count)} = arrays;
    const columns = {depths, kinds, precisions, hasIds, ids, offsets, xy};
    for (const [name, types] of Object.entries(COLUMNS)) {
        if (types.some(type => columns[name] instanceof type)) continue;
        const known = types.map(type => type.name).join(' or ');
        throw new TypeError(`${name} are a ${known}, not ${kindOf(columns[name])}`);
    }
    return columns;
}

/** The same, of lengths that go together. */
function checked(arrays) {
    const columns = columnsOf(arrays), {kinds: {length}, offsets, xy} = columns;
    const lengths = {depths: length, precisions: length, hasIds: length, ids: length, offsets: length + 1};
    const wrong = Object.keys(lengths).find(name => columns[name].length !== lengths[name]);
    if (wrong) throw new RangeError(`${wrong} have ${columns[wrong].length} items, not ${lengths[wrong]}`);
    if (xy.length % 2) throw new RangeError('xy have x and y of each point');
    const back = offsets.findIndex((offset, row) => offset < (row ? offsets[row - 1] : 0));
    if (offsets[0] !== 0 || back >= 0) throw new RangeError('offsets begin at 0 and never go back');
    return columns;
}

/** Which number of a point is none of degrees, as an error. */
function notFinite({offsets, xy}, point) {
    const row = offsets.findIndex(offset => offset > point) - 1, [x, y] = xy.subarray(2 * point);
    const number = Number.isFinite(x) ? y : x;
    return new RangeError(`row ${row}: point ${point - offsets[row]}: a coordinate is a finite number, not ${number}`);
}

/** Has the module round degrees to units, each in its place. */
function roundDegrees(wasm, arrays, points, rows) {
    const count = arrays.xy.length / 2, done = answered(() => wasm.to_units(rows, arrays.kinds.length, points, count));
    if (done < count) throw notFinite(arrays, done);
}

function putRows(at, {depths, kinds, precisions, hasIds, ids, offsets}) {
    const words = new Uint32Array(memory(), at, ROW_WORDS * kinds.length);
    const longs = new BigInt64Array(memory(), at, (ROW_WORDS / 2) * kinds.length);
    for (let row = 0, word = 0; row < kinds.length; row++, word += ROW_WORDS) {
        longs[word / 2] = ids[row];
        words[word + 2] = offsets[row + 1] - offsets[row];
        words[word + 3] = 0;
        words[word + 4] = depths[row];
        words[word + 5] = kinds[row] | (hasIds[row] << 16) | (precisions[row] << 24);
    }
}

/** Points, in whole numbers and in their order, and the rows; after them there is room for ends, if they are asked for. */
function inputOf(wasm, arrays, hasOffsets) {
    const {xy, kinds} = arrays, isDegrees = !(xy instanceof BigInt64Array);
    const points = POINT * (xy.length / 2), ends = points + ROW * kinds.length;
    return {
        points,
        ends,
        length: ends + (hasOffsets ? END * kinds.length : 0),
        put(at) {
            const Numbers = isDegrees ? Float64Array : BigInt64Array;
            new Numbers(memory(), at, xy.length).set(xy);
            putRows(at + points, arrays);
            if (isDegrees) roundDegrees(wasm, arrays, at, at + points);
        },
    };
}

function roomOf(points, rows) {
    if (points < LARGE && rows < LARGE) return MOST_OF_ROW * rows + MOST_OF_POINT * points;
    return SOME_OF_ROW * rows + SOME_OF_POINT * points;
}

/** The row that is refused, and which of its points, if it is one that is out of range. */
function whereOf({reason, place, textOffset}) {
    if (reason === Reason.POINTS_LEFT) return '';
    return reason === Reason.POLYLINE_RANGE ? `row ${place}: point ${textOffset}` : `row ${place}`;
}

/** What the module writes, and its report. */
function written(wasm, given, most, form, hasOffsets) {
    const input = inputOf(wasm, given, hasOffsets), rows = given.kinds.length, points = given.xy.length / 2;
    const call = (at, to, room) => {
        const ends = [at + input.ends, hasOffsets ? rows : 0];
        return wasm.write(at + input.points, rows, at, points, to, room, ...ends, ...most, form, 0);
    };
    const {report, base, start} = filled(input, roomOf(points, rows), 1, call);
    const blobs = bytesAt(start, report.sent).slice();
    return {report, output: hasOffsets ? {blobs, offsets: offsetsAt(base + input.ends, report.done)} : blobs};
}

export function write(arrays, options = {}) {
    const limits = limitsAmong(options, 'style', 'offsets'), form = styleOf(options);
    const hasOffsets = flagOf(options, 'offsets', false), given = checked(arrays);
    const {report, output} = called(wasm => written(wasm, given, limitsOf(limits), form, hasOffsets));
    if (report.status === Status.REFUSED) {
        throw new Refused(report.reason, reasonText(report.reason), whereOf(report), report, output);
    }
    return output;
}
