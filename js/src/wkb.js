/** Geometries as WKB (OGC 06-103r4, ISO 13249-3): little-endian, in two dimensions. */
import {inDegrees} from './arrays.js';
import {madeOf} from './column.js';
import {limitsAmong, wordOf} from './inputs.js';
import {POINT as POINT_BYTES} from './module.js';
import {Reason} from './reasons.js';
import {Refused} from './refused.js';

const [POINT, RING] = [1, 8];
const HAS_POINTS = [false, true, true, false, false, false, false, false, true]; // by kind, up to a ring
const LITTLE = 1; // the byte of the order
const MOST_OF_ROW = 21; // bytes, without the points of lines and rings
const NO_NUMBER = 0x7ff80000; // the high half of what an empty point has in place of coordinates

/** Writes rows one after the other. */
class Writer {
    constructor(rows, xy) {
        this.rows = rows;
        this.xy = xy;
        this.bytes = new Uint8Array(MOST_OF_ROW * rows.rows + POINT_BYTES * rows.points);
        this.view = new DataView(this.bytes.buffer);
        this.at = 0;
        this.point = 0;
        this.counts = []; // by depth, where the number of parts is
        this.starts = [];
    }

    number(number) {
        this.view.setUint32(this.at, number, true);
        this.at += 4;
    }

    row(row) {
        const {rows, view, counts} = this, kind = rows.kind(row), depth = rows.depth(row), count = rows.count(row);
        if (depth === 0) this.starts.push(this.at);
        else view.setUint32(counts[depth - 1], view.getUint32(counts[depth - 1], true) + 1, true);
        if (kind !== RING) {
            this.bytes[this.at++] = LITTLE;
            this.number(kind);
        }
        counts[depth] = this.at;
        if (kind !== POINT) this.number(HAS_POINTS[kind] ? count : 0);
        else if (count === 0) this.noPoint();
        this.points(count);
    }

    points(count) {
        for (let place = 2 * this.point; place < 2 * (this.point + count); place++, this.at += 8) {
            this.view.setFloat64(this.at, this.xy[place], true);
        }
        this.point += count;
    }

    noPoint() {
        for (const word of [0, NO_NUMBER, 0, NO_NUMBER]) this.number(word);
    }

    /** The bytes of each geometry. */
    get all() {
        const {starts} = this;
        return starts.map((start, at) => this.bytes.slice(start, at + 1 < starts.length ? starts[at + 1] : this.at));
    }
}

/** The geometry with an id that WKB cannot have is refused where its blob begins. */
function refusedId(rows, geometry, output) {
    const place = rows.offsets[geometry], reason = Reason.ID_NOT_ALLOWED;
    const text = "an id, which WKB cannot have: ids: 'drop' leaves ids out";
    return new Refused(reason, text, `byte ${place}`, {place, done: geometry}, output);
}

/** How many rows come before the first geometry that has an id. */
function rowsWithoutIds(rows) {
    let root = 0;
    for (let row = 0; row < rows.rows; row++) {
        if (rows.depth(row) === 0) root = row;
        if (rows.hasId(row)) return root;
    }
    return rows.rows;
}

function wkbOf(rows, wasm, drops) {
    const end = drops ? rows.rows : rowsWithoutIds(rows), writer = new Writer(rows, inDegrees(wasm, rows));
    for (let row = 0; row < end; row++) writer.row(row);
    const {all} = writer;
    if (end < rows.rows) throw refusedId(rows, all.length, all);
    return all;
}

export function toWkb(blobs, options = {}) {
    const limits = limitsAmong(options, 'ids', 'errors'), drops = wordOf(options, 'ids', 'raise', 'drop') === 'drop';
    return madeOf(blobs, options, limits, 'wkb', (rows, wasm) => wkbOf(rows, wasm, drops), !drops);
}
