/** WKB as a stream of blobs: in either byte order, with the types of ISO and of EWKB. */
import {NO_PRECISION} from './arrays.js';
import {viewsOf} from './column.js';
import {isBuffer, limitsAmong, precisionOf, styleOf} from './inputs.js';
import {POINT as POINT_BYTES, reasonText} from './module.js';
import {Reason} from './reasons.js';
import {Refused} from './refused.js';
import {FAR} from './rounding.js';
import {Rows, packed} from './rows.js';
import {write} from './writing.js';

const [POINT, LINE, POLYGON, COLLECTION, RING] = [1, 2, 3, 7, 8];
const COUNT = 4; // bytes of a number of points or parts
const ROOT = 0; // in place of the kind of the geometry above
const TO_MULTI = 3; // from the kind of a part to that of the multi geometry
const [HAS_Z, HAS_M, HAS_SRID] = [31, 30, 29]; // bits of a type in EWKB
const THOUSANDS = ['', 'Z coordinates', 'M coordinates', 'Z and M coordinates']; // of a type in ISO

function refused(place, reason, text = reasonText(reason)) {
    return new Refused(reason, text, `byte ${place}`, {place}, null);
}

/** Reads one geometry into rows. The first fault in the order of its bytes is thrown. */
class Reader {
    constructor(bytes, {rows, starts, precision, limits: {nest, nodes, points}}) {
        this.rows = rows;
        this.starts = starts;
        this.precision = precision;
        this.nest = nest;
        this.nodes = nodes;
        this.mostPoints = points;
        this.view = new DataView(bytes.buffer, bytes.byteOffset, bytes.byteLength);
        this.length = bytes.byteLength;
        this.at = 0;
        this.count = 0; // of its rows
        this.firstPoint = rows.xy.length / 2;
    }

    get pointCount() { return this.rows.xy.length / 2 - this.firstPoint; }

    read() {
        this.part(ROOT, 0, 0, true);
        if (this.at < this.length) throw refused(this.at, Reason.BLOB_SIZE_MISMATCH, 'bytes after the geometry');
    }

    number(isLittle) {
        if (this.length - this.at < 4) throw refused(this.at, Reason.BLOB_TRUNCATED);
        this.at += 4;
        return this.view.getUint32(this.at - 4, isLittle);
    }

    /** A geometry that is in so many collections, or a ring; its row, its points, and its parts. */
    part(above, depth, inside, isLittle) {
        const begin = this.at, isOwn = above === ROOT || above === COLLECTION;
        if (this.count++ === this.nodes) throw refused(begin, Reason.BLOB_TOO_MANY_NODES);
        if (isOwn && inside > this.nest) throw refused(begin, Reason.BLOB_TOO_DEEP);
        const own = above === POLYGON ? {kind: RING, isLittle} : this.type(above), {kind} = own;
        let parts = 0;
        this.starts.push(kind === POINT ? this.at : this.at + COUNT);
        try {
            if (kind === POINT) this.point(own.isLittle, isOwn);
            else parts = this.counted(own);
        } finally {
            // if the row is refused, a coordinate before that may be out of range
            this.rows.put(kind, depth, null, isOwn ? this.precision : NO_PRECISION);
        }
        for (; parts > 0; parts--) this.part(kind, depth + 1, inside + Number(kind === COLLECTION), own.isLittle);
    }

    /** Byte order and kind. The number of a reference system is passed over. */
    type(above) {
        const begin = this.at, {length, view} = this;
        if (begin === length) throw refused(begin, Reason.BLOB_TRUNCATED);
        const order = view.getUint8(this.at++), isLittle = order === 1;
        if (order > 1) throw refused(begin, Reason.BLOB_BAD_TYPE, 'byte order is neither 0 nor 1');
        const type = this.number(isLittle), number = type & (2 ** HAS_SRID - 1), kind = number % 1000;
        if (number >= 4000 || kind < POINT || kind > COLLECTION) throw refused(begin + 1, Reason.BLOB_BAD_TYPE);
        const has = bit => (type >>> bit) & 1, dimensions = Math.floor(number / 1000) | has(HAS_Z) | 2 * has(HAS_M);
        if (dimensions) throw refused(begin + 1, Reason.BLOB_EXTRA_DIMENSIONS, THOUSANDS[dimensions]);
        const isPart = above === ROOT || above === COLLECTION || above === kind + TO_MULTI;
        if (!isPart) throw refused(begin + 1, Reason.BAD_PLACE);
        if (has(HAS_SRID)) this.number(isLittle);
        return {kind, isLittle};
    }

    /** The coordinates of a point: two that are no numbers are those of an empty one. */
    point(isLittle, isOwn) {
        const {at, view} = this, isEmpty = place => Number.isNaN(view.getFloat64(place, isLittle));
        if (this.length - at >= POINT_BYTES && isEmpty(at) && isEmpty(at + 8)) {
            if (!isOwn) throw refused(at, Reason.POINT_COUNT, 'empty point in a multipoint');
            this.at += POINT_BYTES;
        } else {
            if (this.pointCount === this.mostPoints) throw refused(at, Reason.BLOB_TOO_MANY_POINTS);
            this.points(1, isLittle);
        }
    }

    /** The points of a line or a ring; the number of the parts of another. */
    counted({kind, isLittle}) {
        const begin = this.at, count = this.number(isLittle);
        if (kind !== LINE && kind !== RING) {
            if (count > this.nodes - this.count) throw refused(begin, Reason.BLOB_TOO_MANY_NODES);
            return count;
        }
        if (count > this.mostPoints - this.pointCount) throw refused(begin, Reason.BLOB_TOO_MANY_POINTS);
        this.points(count, isLittle);
        return 0;
    }

    points(count, isLittle) {
        for (; count > 0; count--) {
            const left = this.length - this.at;
            if (left < POINT_BYTES) throw refused(left < 8 ? this.at : this.at + 8, Reason.BLOB_TRUNCATED);
            this.rows.xy.put(this.coordinate(isLittle), this.coordinate(isLittle));
        }
    }

    coordinate(isLittle) {
        const number = this.view.getFloat64(this.at, isLittle);
        if (!Number.isFinite(number)) throw refused(this.at, Reason.BLOB_RANGE, 'coordinate is no finite number');
        this.at += 8;
        return number;
    }
}

/** A list of WKB that is read, up to the first fault: rows, and of each where its points begin. */
class Reading {
    constructor(views, precision, limits) {
        this.precision = precision;
        this.limits = limits;
        this.rows = new Rows();
        this.starts = [];
        this.places = []; // of the items that are geometries
        this.fault = null;
        views.every((view, at) => view === null || this.take(view, at));
    }

    /** Whether an item is WKB. */
    take(view, at) {
        this.places.push(at);
        try {
            new Reader(view, this).read();
        } catch (fault) {
            if (!(fault instanceof Refused)) throw fault;
            this.fault = fault;
        }
        return !this.fault;
    }

    /** The refusal of rows that are written, at the byte of the first coordinate that has no unit. */
    refusedRange({place: row, textOffset, output}) {
        const point = this.rows.offsets[row] + textOffset, x = this.rows.xy.numbers[2 * point];
        const isX = Math.abs(x) * 10 ** this.precision >= FAR, place = this.starts[row] + POINT_BYTES * textOffset;
        return {fault: refused(isX ? place : place + 8, Reason.BLOB_RANGE), output};
    }

    /** The stream of all; and if there is a fault, that of the geometries before it. */
    written(options) {
        try {
            return {fault: this.fault, output: write(this.rows.arrays, {...this.limits, ...options, offsets: true})};
        } catch (fault) {
            if (!(fault instanceof Refused)) throw fault;
            if (fault.reason === Reason.POLYLINE_RANGE) return this.refusedRange(fault);
            return {fault: this.fault ?? fault, output: fault.output};
        }
    }
}

/** The blobs of so many geometries. */
const firstOf = ({blobs, offsets}, count) =>
    ({blobs: blobs.slice(0, offsets[count]), offsets: offsets.slice(0, count + 1)});

export function fromWkb(wkb, precision, options = {}) {
    const limits = limitsAmong(options, 'style'), {style} = options;
    const views = viewsOf(isBuffer(wkb) ? [wkb] : wkb, 'WKB');
    styleOf(options);
    const reading = new Reading(views, precisionOf(precision), limits), {places} = reading;
    const {fault, output} = reading.written({style});
    if (!fault) return packed(output, places, views.length);
    const before = Math.min(output.offsets.length, places.length) - 1, at = places[before];
    const {reason, text, place} = fault, where = isBuffer(wkb) ? `byte ${place}` : `geometry ${at}: byte ${place}`;
    throw new Refused(reason, text, where, {place, done: at}, packed(firstOf(output, before), places, at));
}
