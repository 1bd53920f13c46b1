/** Streams that are unpacked, shown or written as GeoJSON by windows of their blobs. */
import {HEADER as RECORD} from '../src/conversions.js';
import {bytesOf} from '../src/inputs.js';
import {answered, bytesAt, padded, roomFor} from '../src/module.js';
import {Status} from '../src/reasons.js';
import {Windows} from '../src/windows.js';
import {convertedOf} from './call.js';

const LINE = 80; // more than a line of `show` has
const WORD = 2 ** 32; // offsets are given to the module in two parts

/** The line that a table begins with. */
export const HEADER = new TextEncoder().encode('depth,kind,id,precision,polyline\n');

/** A copy of the rows of a table: the header is written once. */
const rowsOf = (wasm, {start, report: {sent}}) => bytesAt(start + HEADER.length, sent - HEADER.length).slice();

/** The lines of headers of blobs that begin at this offset. */
function linesOf(wasm, {base, start, report: {sent}}, offset) {
    const count = sent / RECORD, from = start - base, to = from + padded(sent), at = roomFor(to + LINE * count);
    const parts = [Math.floor(offset / WORD), offset % WORD];
    return bytesAt(at + to, answered(() => wasm.put_lines(at + from, count, at + to, ...parts))).slice();
}

/** A copy of all of the output. */
const allOf = (wasm, {start, report: {sent}}) => bytesAt(start, sent).slice();

/**
 * Each conversion of the command: that of the module, what is made of its output, and how many times as long this is as
 * the stream, by a first guess.
 */
const MADE = {
    unpack: {conversion: 'unpack', made: rowsOf, times: 7},
    geojson: {conversion: 'geojson', made: allOf, times: 12},
    show: {conversion: 'headers', made: linesOf, times: 7},
};

/** The blobs of a stream, each converted once, but for one that has not come whole. */
export class Streams extends Windows {
    constructor(limits, name) {
        super(limits, null, false);
        this.name = name;
    }

    read(window) {
        const {name, limits, offset} = this, {conversion, made, times} = MADE[name];
        const input = bytesOf(window, 'a stream is bytes'), room = times * input.length + 64;
        const making = {made: (wasm, found) => made(wasm, found, offset)};
        const {report, output} = convertedOf(conversion, input, room, limits, making), {done, taken, status} = report;
        const fault = status === Status.REFUSED ? report : null;
        return {output, done, taken, fault};
    }
}
