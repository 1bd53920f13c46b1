/** The geometries of a stream as typed arrays, a row for each row of its table. */
import {bytesOf, degreesOf, flagOf, limitsAmong, limitsOf} from './inputs.js';
import {POINT, answered, bytesAt, called, countsAt, memory, padded, refusalOf, roomFor, tryRoom} from './module.js';
import {Status} from './reasons.js';
import {OutOfMemory} from './refused.js';
import {numberAt, scaleOf} from './rounding.js';

export const ROW = 24; // bytes of a row
export const ROW_WORDS = 6; // of 32 bits: id and points, two each, depth, and kind, has_id and precision in one
export const POINT_WORDS = 4;
export const END = 8; // bytes of an end
export const NO_PRECISION = -128;
const LARGE = 2 ** 24;
const STOP = 1; // a call that reads ends after the first geometry without room

/** From so many ends at a place of the module's memory: where each blob begins, and last where the last one ends. */
export function offsetsAt(at, count) {
    const words = new Uint32Array(memory(), at, (END / 4) * count), offsets = new Float64Array(count + 1);
    // streams in memory are shorter than 2^32 bytes
    for (let blob = 0; blob < count; blob++) offsets[blob + 1] = words[(END / 4) * blob];
    return offsets;
}

/** A stream, and its geometries as rows and points, in the module's memory. */
class Found {
    constructor(blobs, {done, rows, points}, places) {
        this.blobs = blobs;
        this.geometries = done;
        this.row = places.rows / 4;
        this.rows = rows;
        this.point = places.points / 4;
        this.points = points;
        this.words = new Int32Array(memory());
        this.ends = places.ends;
    }

    /** Where each blob begins in the stream, and last where the last one ends, if the ends were asked for. */
    get offsets() { return offsetsAt(this.ends, this.geometries); }

    depth(row) { return this.words[this.row + ROW_WORDS * row + 4]; }

    kind(row) { return this.words[this.row + ROW_WORDS * row + 5] & 0xffff; }

    hasId(row) { return (this.words[this.row + ROW_WORDS * row + 5] >> 16) & 0xff; }

    precision(row) { return this.words[this.row + ROW_WORDS * row + 5] >> 24; }

    count(row) { return this.words[this.row + ROW_WORDS * row + 2]; }

    id(row) {
        const word = this.row + ROW_WORDS * row, high = this.words[word + 1], low = this.words[word] >>> 0;
        const number = high * 2 ** 32 + low;
        return Number.isSafeInteger(number) ? number : (BigInt(high) << 32n) + BigInt(low);
    }
}

const NONE = {
    rows: 0,
    points: 0
};

/** A first guess at rows and points of a stream. */
const guessOf = ({length}) => ({rows: (length >> 2) + 64, points: (length >> 1) + 8});

/** The most rows and points that are read of a window at once, but for a first blob that has more. */
const MOST = {
    rows: 2 ** 16,
    points: 2 ** 17
};

/** Where a stream of so many bytes, points, rows and ends are, of which the last may be left out. */
function placesOf(base, length, rooms, hasEnds) {
    const points = base + padded(length), rows = points + POINT * rooms.points, ends = rows + ROW * rooms.rows;
    return {points, rows, ends, after: ends + (hasEnds ? END * rooms.rows : 0)};
}

/** A call of the module that reads a stream, which is put into its memory once. */
class Reading {
    constructor(wasm, input, most, hasEnds) {
        this.wasm = wasm;
        this.input = input;
        this.most = most;
        this.hasEnds = hasEnds;
        this.isPut = false;
    }

    /** Reads into so much room. With the flag 1 the call ends after the first geometry without room. */
    into(rooms, flags) {
        const {wasm, input, most, hasEnds} = this, {length} = input;
        const base = roomFor(placesOf(0, length, rooms, hasEnds).after);
        const places = placesOf(base, length, rooms, hasEnds);
        if (!this.isPut) input.put(base);
        this.isPut = true;
        const ends = hasEnds ? [places.ends, rooms.rows] : [0, 0];
        const given = [base, length, places.rows, rooms.rows, places.points, rooms.points, ...ends, ...most, flags];
        const counts = countsAt(answered(() => wasm.read(...given)));
        const more = counts.neededRows > rooms.rows || counts.neededPoints > rooms.points;
        const isKnown = counts.status === Status.DONE || counts.status === Status.REFUSED;
        if (!isKnown && (counts.status !== Status.TOO_SMALL || !more)) {
            throw new OutOfMemory('polytwkb: out of memory');
        }
        return {counts, rows: new Found(bytesAt(base, length), counts, places)};
    }

    /** A guess at the room; none if there is no memory for it, since it may be far more than is needed. */
    guessed(rooms) { return tryRoom(placesOf(0, this.input.length, rooms, this.hasEnds).after) ? rooms : NONE; }

    /** Reads all; with more room, as much as the module names, if that was too small. */
    all() {
        const {input} = this;
        // of a large one rows and points are counted first, which takes less memory
        const first = this.into(input.length < LARGE ? this.guessed(guessOf(input)) : NONE, 0);
        const {status, neededRows, neededPoints} = first.counts;
        return status === Status.TOO_SMALL ? this.into({rows: neededRows, points: neededPoints}, 0) : first;
    }

    /** Reads geometries as far as there is room for them, and at least one. */
    some() {
        const {rows, points} = guessOf(this.input);
        const guess = {rows: Math.min(rows, MOST.rows), points: Math.min(points, MOST.points)};
        const first = this.into(this.guessed(guess), STOP), {status, done, neededRows, neededPoints} = first.counts;
        const isNone = status === Status.TOO_SMALL && done === 0;
        return isNone ? this.into({rows: neededRows, points: neededPoints}, STOP) : first;
    }
}

const faultOf = counts => counts.status === Status.REFUSED ? counts : null;

/** What `result` makes of all rows and points of an input; and why it is refused after them, if it is. */
export function readAll(input, limits, result, hasEnds) {
    const most = limitsOf(limits);
    return called(wasm => {
        const {counts, rows} = new Reading(wasm, input, most, hasEnds).all(), output = result(rows, wasm);
        return {output, fault: faultOf(counts)};
    });
}

/**
 * What `result` makes of the rows and points of the geometries that are complete in a window, or of some of them; how
 * many they are, and how many bytes; and why the window is refused after them, if it is.
 */
export function readSome(window, limits, result, hasEnds) {
    const input = bytesOf(window, 'a window is bytes'), most = limitsOf(limits);
    return called(wasm => {
        const {counts, rows} = new Reading(wasm, input, most, hasEnds).some(), {done, taken} = counts;
        return {output: done ? result(rows, wasm) : null, done, taken, fault: faultOf(counts)};
    });
}

/** What `result` makes of the rows and points of a stream; if it is refused, of those before the fault. */
export function found(blobs, limits, result, hasEnds = false) {
    const {output, fault} = readAll(bytesOf(blobs, 'a stream of blobs is bytes'), limits, result, hasEnds);
    if (fault) throw refusalOf(fault, output);
    return output;
}

/** The coordinates of all points in degrees, in the places of their units in the module's memory. */
export function inDegrees(wasm, rows) {
    const xy = new Float64Array(memory(), 4 * rows.point, 2 * rows.points), {words, point} = rows;
    const done = 2 * answered(() => wasm.to_degrees(4 * rows.row, rows.rows, 4 * point, rows.points));
    // the module leaves the points from the first on that has a number past 2^51
    for (let row = 0, place = 0, scale = null; done < xy.length && row < rows.rows; row++) {
        const precision = rows.precision(row), end = place + 2 * rows.count(row);
        if (precision !== NO_PRECISION) scale = scaleOf(precision);
        for (; place < end; place++)
            if (place >= done) xy[place] = numberAt(words, point + 2 * place, scale);
    }
    return xy;
}

function arraysOf(wasm, rows, degrees) {
    const count = rows.rows, arrays = {
        depths: new Uint8Array(count),
        kinds: new Uint8Array(count),
        precisions: new Int8Array(count),
        hasIds: new Uint8Array(count),
        ids: new BigInt64Array(count),
        offsets: new Uint32Array(count + 1),
        xy: null,
    };
    const ids = new BigInt64Array(memory(), 4 * rows.row, (ROW / 8) * count);
    for (let row = 0; row < count; row++) {
        arrays.depths[row] = rows.depth(row);
        arrays.kinds[row] = rows.kind(row);
        arrays.precisions[row] = rows.precision(row);
        arrays.hasIds[row] = rows.hasId(row);
        arrays.ids[row] = ids[(ROW / 8) * row];
        arrays.offsets[row + 1] = arrays.offsets[row] + rows.count(row);
    }
    const xy = degrees ? inDegrees(wasm, rows) : new BigInt64Array(memory(), 4 * rows.point, 2 * rows.points);
    arrays.xy = xy.slice();
    return arrays;
}

/** What makes arrays of rows, and the offsets of blobs if they are asked for: after `base` bytes of the stream. */
export const makingArrays = (degrees, hasOffsets) => (rows, wasm, base = 0) => {
    const arrays = arraysOf(wasm, rows, degrees);
    return hasOffsets ? {...arrays, blobOffsets: rows.offsets.map(offset => base + offset)} : arrays;
};

export function read(blobs, options = {}) {
    const limits = limitsAmong(options, 'degrees', 'blobOffsets'), degrees = degreesOf(options);
    const hasOffsets = flagOf(options, 'blobOffsets', false);
    return found(blobs, limits, makingArrays(degrees, hasOffsets), hasOffsets);
}
