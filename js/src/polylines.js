/** Lists of points to encoded polylines and back. */
import {spelled} from './conversions.js';
import {ROW, toDegrees, toUnits} from './degrees.js';
import {precisionOf, textOf} from './inputs.js';
import {kindOf} from './kinds.js';
import {POINT, called, filled, memory, reasonText} from './module.js';
import {Status} from './reasons.js';
import {Refused} from './refused.js';
import {LONG, OUTSIDE, WHOLE, isCoordinate, pointsAt, scaleOf, unitsOf, whole} from './rounding.js';

/** The coordinates of pairs, one after the other. */
function listed(points) {
    const xy = [];
    for (const point of points) {
        if (point.length !== 2 || point[1] === undefined) throw new TypeError('a point is a pair of numbers');
        xy.push(point[0], point[1]);
    }
    return xy;
}

/** The coordinates of points, in a list or in a typed array, of which whole numbers have no precision. */
function coordinatesOf(points, precision) {
    const isWhole = points instanceof BigInt64Array;
    if (!isWhole && !(points instanceof Float64Array || points instanceof Float32Array)) {
        if (typeof points !== 'string' && !ArrayBuffer.isView(points) && points?.[Symbol.iterator])
            return listed(points);
        throw new TypeError(`points are pairs of numbers or a typed array, not ${kindOf(points)}`);
    }
    if (isWhole && precision !== undefined) throw new TypeError('a BigInt64Array has whole numbers, and no precision');
    if (!isWhole && precision === undefined) throw new TypeError(`a ${kindOf(points)} has degrees: give a precision`);
    if (points.length % 2) throw new TypeError(`a ${kindOf(points)} of points has x and y of each`);
    return points;
}

/** Puts coordinates that are whole numbers. */
function putWhole(at, xy) {
    const longs = new BigInt64Array(memory(), at, xy.length), words = new Int32Array(memory(), at, 2 * xy.length);
    if (xy instanceof BigInt64Array) {
        longs.set(xy);
        return;
    }
    for (let place = 0; place < xy.length; place++) {
        const number = whole(xy[place]);
        if (!isCoordinate(number)) {
            longs[place] = OUTSIDE;
        } else if (typeof number === 'bigint') {
            longs[place] = number;
        } else {
            words[2 * place] = number; // its lowest 32 bits
            words[2 * place + 1] = Math.floor(number / LONG);
        }
    }
}

/** Puts coordinates that are degrees, and has the module round them; BigInt are rounded here. */
function putDegrees(wasm, at, xy, precision) {
    const numbers = new Float64Array(memory(), at, xy.length), count = xy.length / 2, large = [];
    if (Array.isArray(xy)) putNumbers(numbers, xy, large);
    else numbers.set(xy);
    const done = toUnits(wasm, at + POINT * count, at, count, precision);
    if (done < count) {
        const wrong =
            [xy[2 * done], xy[2 * done + 1]].find(number => typeof number === 'number' && !Number.isFinite(number));
        throw new RangeError(`a coordinate is a finite number, not ${wrong}`);
    }
    const longs = new BigInt64Array(memory(), at, xy.length);
    for (const place of large) {
        const units = unitsOf(xy[place], precision);
        longs[place] = isCoordinate(units) ? units : OUTSIDE;
    }
}

/** Puts the numbers of a list, and lists the places of BigInt. */
function putNumbers(numbers, xy, large) {
    for (let place = 0; place < xy.length; place++) {
        const number = xy[place];
        if (typeof number === 'number') {
            numbers[place] = number;
        } else if (typeof number === 'bigint') {
            numbers[place] = 0;
            large.push(place);
        } else {
            throw new TypeError(`a coordinate is a number, not ${kindOf(number)}`);
        }
    }
}

export function encode(points, precision = undefined) {
    if (precision !== undefined) precisionOf(precision);
    const xy = coordinatesOf(points, precision), count = xy.length / 2;
    return called(wasm => {
        const put = at => precision === undefined ? putWhole(at, xy) : putDegrees(wasm, at, xy, precision);
        const call = (from, to, room) => wasm.encode(from, count, to, room);
        const {report, start} = filled({length: POINT * count + ROW, put}, 8 * count + 26, 1, call);
        if (report.status === Status.REFUSED) {
            const {reason, place} = report;
            throw new Refused(reason, reasonText(reason), `point ${place}`, {place}, '');
        }
        return spelled(new Uint8Array(memory(), start, report.sent));
    });
}

/** What `result` makes of the points of a text: of where they are, how many, and where a row may be put. */
function decoded(text, result) {
    const {length, put} = textOf(text, 'a polyline is a string or bytes'), input = {length: Math.max(length, ROW), put};
    return called(wasm => {
        const call = (from, to, room) => wasm.decode(from, length, to, room);
        const {report, base, start} = filled(input, Math.ceil(length / 2), POINT, call);
        const points = result(start, report.sent, wasm, base);
        if (report.status === Status.REFUSED) {
            const {reason, textOffset} = report, where = `polyline at ${textOffset}`;
            throw new Refused(reason, reasonText(reason), where, {place: textOffset, textOffset}, points);
        }
        return points;
    });
}

export function decodeFlat(text, precision = undefined) {
    if (precision !== undefined) precisionOf(precision);
    return decoded(text, (start, count, wasm, row) => {
        if (precision !== undefined) return toDegrees(wasm, row, start, count, precision).slice();
        return new BigInt64Array(memory(), start, 2 * count).slice();
    });
}

export function decode(text, precision = undefined) {
    const scale = precision === undefined ? WHOLE : scaleOf(precisionOf(precision));
    return decoded(text, (start, count) => pointsAt(new Int32Array(memory()), start / 4, count, scale));
}
