/** Numbers of JavaScript to and from the whole numbers of a precision. */
import {kindOf} from './kinds.js';

export const LONG = 2 ** 32;
const NEAR = 2 ** 21; // the high half of 2^53

export const FAR = 2 ** 62; // coordinates are from -FAR to below FAR
export const OUTSIDE = 2n ** 62n; // what takes the place of a number that is none: the module refuses it

export const isCoordinate = number => number >= -FAR && number < FAR;

/** A coordinate of a call that has no precision. */
export function whole(number) {
    if (typeof number === 'bigint' || Number.isInteger(number)) return number;
    if (typeof number !== 'number') throw new TypeError(`a coordinate is a number, not ${kindOf(number)}`);
    throw new TypeError(`a coordinate is a whole number if no precision is given, not ${number}: give a precision`);
}

/** The coordinate that whole degrees are rounded to, in units of 10^-precision: a half away from 0. */
export function unitsOf(degrees, precision) {
    if (precision >= 0) return degrees * 10n ** BigInt(precision);
    const unit = 10n ** BigInt(-precision), size = degrees < 0n ? -degrees : degrees;
    const nearest = (2n * size + unit) / (2n * unit);
    return degrees < 0n ? -nearest : nearest;
}

// A whole number becomes the number nearest to it times above / below.
export const WHOLE = {
    above: 1,
    below: 1,
    precision: null
};
const SCALES = Array.from({length: 16}, (_, place) => {
    const precision = place - 8;
    return {above: 10 ** Math.max(-precision, 0), below: 10 ** Math.max(precision, 0), precision};
});

export const scaleOf = precision => SCALES[8 + precision];

/** The coordinate in two words of 32 bits, the low one first. */
export function numberAt(words, word, scale) {
    const low = words[word], high = words[word + 1];
    if (high === low >> 31) return (low * scale.above) / scale.below;
    if (high < -NEAR || high >= NEAR) return farNumber((BigInt(high) << 32n) + BigInt(low >>> 0), scale);
    // below 2^53 the whole number is exact, and so is the power of ten: one of the two operations does nothing, and the
    // other gives the nearest
    return ((high * LONG + (low >>> 0)) * scale.above) / scale.below;
}

function farNumber(number, {precision}) {
    if (precision === null) throw new RangeError(`${number} is past 2^53: decodeFlat has such numbers`);
    return Number(`${number}e${- precision}`);
}

/** Points in memory, from a word on. */
export function pointsAt(words, word, count, scale) {
    const points = new Array(count);
    for (let place = 0; place < count; place++, word += 4) {
        points[place] = [numberAt(words, word, scale), numberAt(words, word + 2, scale)];
    }
    return points;
}

/** The same points, as whole numbers without a scale. */
export function exactPointsAt(words, word, count) {
    const numbers = new BigInt64Array(words.buffer, 4 * word, 2 * count), points = new Array(count);
    for (let place = 0; place < count; place++) points[place] = [numbers[2 * place], numbers[2 * place + 1]];
    return points;
}
