/** What takes time, outside of the page's thread: conversions, pictures, looking for a place. */
import * as polytwkb from '../polytwkb.js';
import {drawn, partAt} from './drawing.js';
import {Numbers, Shapes} from './shapes.js';

const PIECE = 2 ** 18;
const FIRST_LINE = new TextEncoder().encode('depth,kind,id,precision,polyline\n');
const LINE_FEED = 10;
const KINDS = ['point', 'linestring', 'polygon', 'multipoint', 'multilinestring', 'multipolygon', 'collection'];

let shapes = new Shapes();

const refusalOf = ({message, code, place, done}, isRecord) => ({message, code, place, done, isRecord});

/** Runs a call; what it gives, or gave before it was refused. */
function tried(call) {
    try {
        return {output: call(), fault: null};
    } catch (fault) {
        if (!(fault instanceof polytwkb.Refused)) throw fault;
        return {output: fault.output, fault};
    }
}

/** The headers of a stream in columns. */
class Headers {
    constructor() {
        this.columns = {
            offset: new Numbers(Float64Array),
            length: new Numbers(Uint32Array),
            points: new Numbers(Uint32Array),
            level: new Numbers(Uint8Array),
            kind: new Numbers(Uint8Array),
            precision: new Numbers(Int8Array),
            metadata: new Numbers(Uint8Array),
        };
        this.counts = {};
    }

    /** Adds headers of blobs that begin at a byte of the stream. */
    add(headers, base) {
        const {columns: {offset, length, points, level, kind, precision, metadata}, counts} = this;
        for (const header of headers) {
            offset.push(base + header.offset);
            length.push(header.length);
            points.push(header.points);
            level.push(header.level);
            kind.push(KINDS.indexOf(header.kind));
            precision.push(header.precision);
            metadata.push(header.metadata);
            counts[header.kind] = (counts[header.kind] ?? 0) + 1;
        }
    }

    get lists() {
        return Object.fromEntries(Object.entries(this.columns).map(([name, numbers]) => [name, numbers.list]));
    }
}

/** The bytes of a table that comes in parts. */
class Text {
    constructor() { this.parts = [FIRST_LINE]; }

    add(bytes) { this.parts.push(bytes.subarray(FIRST_LINE.length)); }

    get bytes() {
        const whole = new Uint8Array(this.parts.reduce((sum, part) => sum + part.length, 0));
        let at = 0;
        for (const part of this.parts) {
            whole.set(part, at);
            at += part.length;
        }
        return whole;
    }
}

/** Where the lines of a text begin. */
function linesOf(bytes) {
    const starts = new Numbers(Uint32Array);
    for (let at = 0; at < bytes.length;) {
        starts.push(at);
        const end = bytes.indexOf(LINE_FEED, at);
        at = end < 0 ? bytes.length : end + 1;
    }
    return starts.list;
}

function* piecesOf(bytes) {
    for (let at = 0; at < bytes.length; at += PIECE) yield bytes.subarray(at, at + PIECE);
}

/** Packs a table: its stream, where its lines begin, and its fault. */
function pack(table) {
    const {output: bytes, fault} = tried(() => polytwkb.pack(table));
    return {bytes, lines: linesOf(table), fault: fault && refusalOf(fault, true)};
}

/**
 * Reads a stream blob by blob: its shapes, its headers, its sizes in both styles, its table and its fault. If the stream
 * was packed here, its size in the full style is its own.
 */
async function read(bytes, isPacked) {
    const headers = new Headers(), text = new Text(), sizes = {full: 0, plain: 0};
    let base = 0, fault = null;
    shapes = new Shapes();
    try {
        for await (const blobs of polytwkb.stream(piecesOf(bytes))) {
            headers.add(polytwkb.show(blobs), base);
            shapes.add(polytwkb.read(blobs));
            const units = polytwkb.read(blobs, {degrees: false});
            sizes.full += isPacked ? blobs.length : polytwkb.write(units).length;
            sizes.plain += polytwkb.write(units, {style: 'plain'}).length;
            text.add(polytwkb.unpackBytes(blobs));
            base += blobs.length;
            postMessage({progress: base});
        }
    } catch (refused) {
        if (!(refused instanceof polytwkb.Refused)) throw refused;
        fault = refusalOf(refused, false);
    }
    const table = text.bytes;
    return {
        table,
        lines: linesOf(table),
        fault,
        headers: headers.lists,
        counts: headers.counts,
        rows: shapes.rows.list,
        sizes: {...sizes, table: table.length, points: shapes.points},
        bounds: shapes.bounds,
    };
}

/** The parts of a header: those from its first to the first of the next header that is no member of it. */
function partsOf(header, next) {
    const {parts, starts} = shapes, last = next < parts.length ? parts.all[next] : starts.length;
    return [parts.all[header], last];
}

/** The header that a part belongs to: the last that begins at it or before it. */
function headerOf(part) {
    let [low, high] = [0, shapes.parts.length];
    while (low + 1 < high) {
        const middle = (low + high) >> 1;
        if (shapes.parts.all[middle] <= part) low = middle;
        else high = middle;
    }
    return low;
}

const calls = {
    pack,
    read,
    picture: view => drawn(shapes, view),
    chosen: (view, header, next) => drawn(shapes, view, ...partsOf(header, next)),
    headerAt(x, y, near) {
        const part = partAt(shapes, x, y, near);
        return part < 0 ? -1 : headerOf(part);
    },
};

/** The buffers of the arrays in a value. Each call makes new ones, which are handed over and not copied. */
function buffersOf(value) {
    if (ArrayBuffer.isView(value)) return [value.buffer];
    return value && typeof value === 'object' ? Object.values(value).flatMap(buffersOf) : [];
}

const loaded = polytwkb.load();

onmessage = async ({data: {id, call, given}}) => {
    try {
        await loaded;
        const value = await calls[call](...given);
        postMessage({id, value}, buffersOf(value));
    } catch (fault) {
        postMessage({id, fault: `${fault.name}: ${fault.message}`});
    }
};
