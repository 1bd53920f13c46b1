/** The box of each geometry, computed from its points. */
import {NO_PRECISION, inDegrees} from './arrays.js';
import {madeOf} from './column.js';
import {degreesOf, limitsAmong} from './inputs.js';
import {memory} from './module.js';

/** The least and the greatest coordinates of points from one to another; null if there are none. */
function sidesOf(xy, from, to) {
    if (from === to) return null;
    let left = xy[2 * from], right = left, bottom = xy[2 * from + 1], top = bottom;
    for (let at = 2 * from + 2; at < 2 * to; at += 2) {
        const x = xy[at], y = xy[at + 1];
        if (x < left) left = x;
        if (x > right) right = x;
        if (y < bottom) bottom = y;
        if (y > top) top = y;
    }
    return [left, bottom, right, top];
}

const lesser = (one, other) => one < other ? one : other;
const greater = (one, other) => one > other ? one : other;

/** The box around two, of which each may be null. */
function around(one, other) {
    if (!one || !other) return one ?? other;
    return [
        lesser(one[0], other[0]),
        lesser(one[1], other[1]),
        greater(one[2], other[2]),
        greater(one[3], other[3]),
    ];
}

/** Calls `take` with the row, its precision and its points, from one to another, of each row of a geometry. */
function eachRow(rows, take) {
    let point = 0, precision = 0;
    for (let row = 0; row < rows.rows; row++) {
        const own = rows.precision(row), start = point;
        if (own !== NO_PRECISION) precision = own;
        point += rows.count(row);
        take(rows.depth(row) === 0, precision, start, point);
    }
}

function inDegreesOf(rows, wasm) {
    const xy = inDegrees(wasm, rows), boxes = [];
    eachRow(rows, (isRoot, _, from, to) => {
        if (isRoot) boxes.push(null);
        boxes.push(around(boxes.pop(), sidesOf(xy, from, to)));
    });
    return boxes;
}

/** A box in units of more decimals. */
const finer = ({box, precision}, decimals) => box.map(number => number * 10n ** BigInt(decimals - precision));

/** The box around two in units of the one with more decimals, of which each may be null. */
function aroundUnits(one, other) {
    if (!one || !other) return one ?? other;
    const precision = Math.max(one.precision, other.precision);
    return {box: around(finer(one, precision), finer(other, precision)), precision};
}

function inUnitsOf(rows) {
    const xy = new BigInt64Array(memory(), 4 * rows.point, 2 * rows.points), boxes = [];
    eachRow(rows, (isRoot, precision, from, to) => {
        const box = sidesOf(xy, from, to);
        if (isRoot) boxes.push(null);
        boxes.push(aroundUnits(boxes.pop(), box && {box, precision}));
    });
    return boxes;
}

export function boxes(blobs, options = {}) {
    const limits = limitsAmong(options, 'degrees', 'errors');
    return madeOf(blobs, options, limits, 'boxes', degreesOf(options) ? inDegreesOf : inUnitsOf);
}
