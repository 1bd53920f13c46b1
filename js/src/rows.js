/** Rows of geometries and their points, put one after the other. */
import {NO_PRECISION} from './arrays.js';
import {OUTSIDE, isCoordinate} from './rounding.js';

/** The coordinates of points: all numbers, which are degrees, or all BigInt, which are whole units. */
class Coordinates {
    constructor() {
        this.type = '';
        /** @type {any} */
        this.numbers = new Float64Array(0);
        this.length = 0;
    }

    put(x, y) {
        if (typeof x !== this.type || typeof y !== this.type) this.begin(x, y);
        if (this.length === this.numbers.length) this.grow();
        const isWhole = this.type === 'bigint';
        this.numbers[this.length++] = isWhole && !isCoordinate(x) ? OUTSIDE : x;
        this.numbers[this.length++] = isWhole && !isCoordinate(y) ? OUTSIDE : y;
    }

    begin(x, y) {
        const type = typeof x;
        if (this.type || typeof y !== type || type !== 'number' && type !== 'bigint') {
            throw new TypeError('coordinates are numbers, or all of them are BigInt');
        }
        this.type = type;
        this.numbers = type === 'number' ? new Float64Array(64) : new BigInt64Array(64);
    }

    grow() {
        const {numbers} = this, longer = new numbers.constructor(2 * numbers.length);
        longer.set(numbers);
        this.numbers = longer;
    }

    get all() { return this.numbers.subarray(0, this.length); }
}

/** Rows in columns, and the coordinates of all points. */
export class Rows {
    constructor() {
        this.columns = {depths: [], kinds: [], precisions: [], hasIds: [], ids: []};
        this.offsets = [0];
        this.xy = new Coordinates();
    }

    /** A row; its points are those since the row before. */
    put(kind, depth, id = null, precision = NO_PRECISION) {
        const {columns} = this, hasId = id !== null;
        columns.depths.push(depth);
        columns.kinds.push(kind);
        columns.precisions.push(precision);
        columns.hasIds.push(hasId ? 1 : 0);
        columns.ids.push(hasId ? id : 0n);
        this.offsets.push(this.xy.length / 2);
    }

    /** What is written. */
    get arrays() {
        const {columns, offsets, xy} = this;
        return {
            depths: new Uint8Array(columns.depths),
            kinds: new Uint8Array(columns.kinds),
            precisions: new Int8Array(columns.precisions),
            hasIds: new Uint8Array(columns.hasIds),
            ids: new BigInt64Array(columns.ids),
            offsets: new Uint32Array(offsets),
            xy: xy.all,
        };
    }
}

/** A stream with the offsets of so many places of a list: a place without a geometry has no bytes. */
export function packed({blobs, offsets}, places, count) {
    const found = new Float64Array(count + 1);
    for (let place = 0, blob = 0; place < count; place++) {
        if (places[blob] === place) blob++;
        found[place + 1] = offsets[blob];
    }
    return {blobs, offsets: found};
}
