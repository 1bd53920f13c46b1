/** Points of one precision in the module's memory, from degrees to whole units and back, each in its place. */
import {answered, memory} from './module.js';
import {numberAt, scaleOf} from './rounding.js';

export const ROW = 24; // bytes of a row

/** A row of so many points of this precision, which is all that the module asks of it. */
function putRow(at, count, precision) {
    new BigInt64Array(memory(), at, ROW / 8).set([0n, BigInt(count), BigInt(precision) << 56n]);
}

/**
 * Rounds points up to the first that has a number which is not finite, and returns how many come before it. What has no
 * unit is out of range then. The row is put where `row` says.
 */
export function toUnits(wasm, row, at, count, precision) {
    putRow(row, count, precision);
    return answered(() => wasm.to_units(row, 1, at, count));
}

/** The degrees of points. */
export function toDegrees(wasm, row, at, count, precision) {
    putRow(row, count, precision);
    const done = answered(() => wasm.to_degrees(row, 1, at, count)), scale = scaleOf(precision);
    const xy = new Float64Array(memory(), at, 2 * count), words = new Int32Array(memory(), at, 4 * count);
    // the module leaves the points from the first on that has a number past 2^51
    for (let place = 2 * done; place < xy.length; place++) xy[place] = numberAt(words, 2 * place, scale);
    return xy;
}
