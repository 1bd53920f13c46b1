// Compares modules and the package with what the native library answered (cases.py). For node and for browsers.
const NAMES = ['pack', 'unpack', 'show', 'geojson', 'headers', 'encode', 'decode', 'read', 'write', 'round'];
const [, , , , , ENCODE, DECODE, READ, WRITE, ROUND] = NAMES.keys();
const [HEAD, POINT, ROW, END, HEADER, FILL, BEHIND] = [40, 16, 24, 8, 32, 0xa5, 64];
const KINDS = ['point', 'linestring', 'polygon', 'multipoint', 'multilinestring', 'multipolygon', 'collection'];
const OUTSIDE = 2n ** 62n; // what a number becomes that has no unit
const FAR = 2n ** 51n; // units of such a size are left to the package
const MOST_TOLD = 10;

const padded = size => (size + 15) & ~15;
const same = (left, right) => left.length === right.length && left.every((byte, place) => byte === right[place]);
const latin = bytes => new TextDecoder('latin1').decode(bytes);
const viewOf = bytes => new DataView(bytes.buffer, bytes.byteOffset, bytes.byteLength);

/** The records that are whole in some bytes, and how many bytes they take. */
export function records(bytes) {
    const view = viewOf(bytes), found = [];
    for (let at = 0;;) {
        if (at + HEAD > bytes.length) return {found, used: at};
        const numbers = Array.from({length: 9}, (_, place) => view.getUint32(at + 4 + 4 * place, true));
        const [nest, nodes, points, first, second, third, ...lengths] = numbers;
        const [source, report, output, end] = [0, ...lengths].map((sum => length => (sum += length))(at + HEAD));
        if (end > bytes.length) return {found, used: at};
        found.push({
            call: bytes[at],
            style: bytes[at + 1],
            limits: [nest, nodes, points],
            rooms: [first, second, third],
            source: bytes.subarray(source, report),
            report: bytes.subarray(report, output),
            output: bytes.subarray(output, end),
        });
        at = end;
    }
}

/** The arguments of a record's call, whose input and output are at places of the module's memory. */
function argumentsOf({call, style, limits, rooms: [first, second, third], source, output}, from, to) {
    const {length} = source, ends = [to + output.length - END * third, third];
    if (call === READ) return [from, length, to + POINT * second, first, to, second, ...ends, ...limits, style];
    if (call === WRITE) {
        const rows = POINT * second, arrays = [from + rows, (length - rows) / ROW, from, second];
        return [...arrays, to, first, ...ends, ...limits, style % 2, style >> 1];
    }
    if (call < ENCODE) return [call, from, length, to, first, ...limits, style];
    return [from, call === ENCODE ? length / POINT : length, to, first];
}

/** What a record of rounding finds wrong with a module, which rounds in place, and back. The style is the precision and 8. */
function roundingFault(exports, {style, source, report, output}) {
    const {length} = source, from = exports.buffers(length + ROW) >>> 0, row = from + length, {buffer} = exports.memory;
    const units = new BigInt64Array(buffer, from, length / 8), degrees = new Float64Array(buffer, from, length / 8);
    const count = length / POINT, due = Number(viewOf(report).getBigUint64(32, true));
    const expected = new BigInt64Array(new Uint8Array(output.subarray(0, 8 * due)).buffer);
    new Uint8Array(buffer, from, length).set(source);
    new BigInt64Array(buffer, row, ROW / 8).set([0n, BigInt(count), BigInt(style - 8) << 56n]);
    if (exports.to_units(row, 1, from, count) !== count) return 'points that are not rounded';
    if (expected.some((unit, place) => unit !== units[place])) return 'units';
    if (due < units.length) return units[due] === OUTSIDE ? '' : 'a number that has no unit';
    const far = expected.findIndex(unit => unit < -FAR || unit >= FAR), done = far < 0 ? count : far >> 1;
    if (exports.to_degrees(row, 1, from, count) !== done) return 'points that are not converted';
    const wrong = expected.findIndex((unit, place) => degrees[place] !== Number(`${unit}e${8 - style}`));
    return wrong < 0 || wrong >= 2 * done ? '' : `${degrees[wrong]} degrees of ${expected[wrong]}`;
}

/** What a record finds wrong with a module, or an empty text. */
export async function checking(bytes) {
    const {exports} = await WebAssembly.instantiate(await WebAssembly.compile(bytes));
    return record => {
        if (record.call === ROUND) return roundingFault(exports, record);
        const {call, source, report, output} = record, size = output.length;
        const from = exports.buffers(padded(source.length) + size + BEHIND) >>> 0, to = from + padded(source.length);
        const memory = (start, length) => new Uint8Array(exports.memory.buffer, start, length);
        memory(to, size + BEHIND).fill(FILL);
        memory(from, source.length).set(source);
        const run = exports[call < ENCODE ? 'convert' : NAMES[call]];
        const where = run(...argumentsOf(record, from, to)) >>> 0;
        if (exports.kept()) return 'keeps memory';
        const said = memory(where, report.length);
        if (!same(said, report)) return `report ${said}, not ${report}`;
        if (!same(memory(to, size), output)) return 'output';
        if (memory(to + size, BEHIND).some(byte => byte !== FILL)) return 'bytes after the output';
        return same(memory(from, source.length), source) ? '' : 'input';
    };
}

/** Headers of the package as the bytes of records. */
function bytesOfHeaders(headers) {
    const bytes = new Uint8Array(HEADER * headers.length), view = viewOf(bytes);
    for (const [place, {level, offset, kind, precision, metadata, length, points}] of headers.entries()) {
        for (const [at, number] of [offset, length, points].entries())
            view.setBigUint64(HEADER * place + 8 * at, BigInt(number), true);
        view.setUint32(HEADER * place + 24, level, true);
        bytes.set([KINDS.indexOf(kind) + 1, precision, metadata], HEADER * place + 28);
    }
    return bytes;
}

const metadataOf = number => number.toString(16).toUpperCase().padStart(2, '0');
const lineOf = ({level, offset, kind, precision, metadata, length, points}) =>
    `${[level, offset, kind, precision, metadataOf(metadata), length, points].join(' ')}\n`;

/** Arrays of the package as the bytes of points and rows. */
export function bytesOfArrays({depths, kinds, precisions, hasIds, ids, offsets, xy}) {
    const start = 8 * xy.length, bytes = new Uint8Array(start + ROW * depths.length), view = viewOf(bytes);
    new BigInt64Array(bytes.buffer, 0, xy.length).set(xy);
    for (let row = 0, at = start; row < depths.length; row++, at += ROW) {
        view.setBigInt64(at, ids[row], true);
        view.setUint32(at + 8, offsets[row + 1] - offsets[row], true);
        view.setUint32(at + 16, depths[row], true);
        view.setUint16(at + 20, kinds[row], true);
        bytes[at + 22] = hasIds[row];
        view.setInt8(at + 23, precisions[row]);
    }
    return bytes;
}

/** The arrays of the package that points and rows are; null if a row has a point more than a start can count. */
function arraysOfBytes(source, points) {
    const view = viewOf(source), first = POINT * points, count = (source.length - first) / ROW;
    const arrays = {
        depths: new Uint8Array(count),
        kinds: new Uint8Array(count),
        precisions: new Int8Array(count),
        hasIds: new Uint8Array(count),
        ids: new BigInt64Array(count),
        offsets: new Uint32Array(count + 1),
        xy: new BigInt64Array(new Uint8Array(source.subarray(0, first)).buffer),
    };
    for (let row = 0, at = first, start = 0; row < count; row++, at += ROW) {
        arrays.ids[row] = view.getBigInt64(at, true);
        arrays.offsets[row + 1] = start += view.getUint32(at + 8, true);
        if (start >= 2 ** 32) return null;
        arrays.depths[row] = view.getUint32(at + 16, true);
        arrays.kinds[row] = view.getUint16(at + 20, true);
        arrays.hasIds[row] = source[at + 22];
        arrays.precisions[row] = view.getInt8(at + 23);
    }
    return arrays;
}

/** The call of a record by the package, and the form in which its output is compared. */
function calling(polytwkb, {call, style, limits: [nest, nodes, points], rooms, source}) {
    const limits = {nest, nodes, points}, form = style % 2 ? 'plain' : 'full';
    const arrays = call === WRITE ? arraysOfBytes(source, rooms[1]) : null;
    if (call === WRITE && !arrays) return null;
    return [
        [() => polytwkb.pack(source, {...limits, style: form}), latin],
        [() => polytwkb.unpack(source, limits), text => text],
        [() => polytwkb.show(source, limits), headers => headers.map(lineOf).join('')],
        [() => polytwkb.toGeojson(source, limits), text => text],
        [() => polytwkb.show(source, limits), headers => latin(bytesOfHeaders(headers))],
        [() => polytwkb.encode(new BigInt64Array(new Uint8Array(source).buffer)), text => text],
        [() => polytwkb.decodeFlat(source), numbers => latin(new Uint8Array(numbers.buffer))],
        [() => polytwkb.read(source, {...limits, degrees: false}), found => latin(bytesOfArrays(found))],
        [() => polytwkb.write(arrays, {...limits, style: form}), latin],
    ][call];
}

/** The part of a record's output that is written, as its report says. */
function writtenOf({call, rooms, report, output}) {
    const long = at => Number(viewOf(report).getBigUint64(at, true));
    if (call !== READ) return output.subarray(0, long(32) * (call === DECODE ? POINT : 1));
    const start = POINT * rooms[1], points = output.subarray(0, POINT * long(32));
    const rows = output.subarray(start, start + ROW * long(24)), bytes = new Uint8Array(points.length + rows.length);
    bytes.set(points);
    bytes.set(rows, points.length);
    return bytes;
}

/** Why, where and after how many geometries a record's input is refused; an empty text if it is not. */
function refusalOf({call, report}) {
    const view = viewOf(report), long = at => Number(view.getBigUint64(at, true));
    if (!view.getUint32(0, true)) return '';
    const reason = view.getUint32(4, true);
    if (call === READ) return [reason, long(8), 0, long(16)];
    return [reason, call === DECODE ? long(16) : long(8), long(16), long(24)];
}

/** The same of the package, if the room was enough, since the package finds its room. */
export function checkingPackage(polytwkb) {
    return record => {
        const made = viewOf(record.report).getUint32(0, true) > 1 ? null : calling(polytwkb, record);
        if (!made) return ''; // also what is rounded
        const [run, form] = made;
        let got, found = '';
        try {
            got = run();
        } catch (fault) {
            if (!(fault instanceof polytwkb.Refused)) return String(fault.stack);
            const {reason, place, textOffset = 0, done} = fault;
            [got, found] = [fault.output, [reason, place, textOffset, done]];
        }
        if (form(got) !== latin(writtenOf(record))) return 'output of the package';
        const expected = String(refusalOf(record));
        return String(found) === expected ? '' : `${found} of the package, not ${expected}`;
    };
}

/** Runs records by each check; counts, and tells the first that differ. */
export class Comparing {
    constructor(checks) { Object.assign(this, {checks, count: 0, compared: 0, wrong: 0, ends: new Map(), told: []}); }

    add(record) {
        const view = viewOf(record.report);
        const end = `${NAMES[record.call]} ${view.getUint32(0, true)} ${view.getUint32(4, true)}`;
        this.ends.set(end, (this.ends.get(end) ?? 0) + 1);
        for (const [name, check] of this.checks) {
            const fault = check(record);
            this.compared++;
            if (!fault || ++this.wrong > MOST_TOLD) continue;
            const {call, style, limits, source} = record;
            const what = `${NAMES[call]} ${style} ${limits} ${latin(source).slice(0, 400)}`;
            this.told.push(`case ${this.count} by ${name}: ${fault}; ${what}`);
        }
        this.count++;
    }

    get line() {
        return `${this.count} cases, ${this.ends.size} outcomes, ${this.compared} comparisons, ${this.wrong} differ`;
    }
}
