// The rows of tests/vectors and the blobs of PostGIS, as tests read them.
import {readFileSync} from 'node:fs';
import * as polytwkb from '../polytwkb.js';

const TESTS = new URL('../../tests/', import.meta.url);
const read = name => readFileSync(new URL(name, TESTS), 'utf8');

export const HEADER = 'depth,kind,id,precision,polyline\n';
export const hex = bytes => Buffer.from(bytes).toString('hex');
export const bytes = text => Uint8Array.from(Buffer.from(text.replaceAll(' ', ''), 'hex'));
export const table = rows => HEADER + rows.replaceAll('/', '\n');

/** The rows of a file: a line, and the lines that belong to it. */
export function rowsOf(name) {
    const rows = [];
    for (const line of read(`vectors/${name}.txt`).split('\n')) {
        if (line.startsWith('  |')) rows.at(-1)[1][rows.at(-1)[1].length - 1] += line.slice(4) + '/';
        else if (line.startsWith('  ')) rows.at(-1)[1].push(line.slice(2));
        else if (line && !line.startsWith('#')) rows.push([line, []]);
    }
    return rows;
}

/** Rows that begin with one of the words: the word, what is given, the limits, how many are done, what is due. */
export function* within(name, ...words) {
    let limits;
    for (const [line, printed] of rowsOf(name)) {
        const [word, ...rest] = line.split(' '), given = rest.join(' ');
        if (word === 'limits') {
            const [nest, nodes, points] = rest.map(Number);
            limits = {nest, nodes, points};
        }
        if (!words.includes(word)) continue;
        const [, done, output, refusal] = new RegExp(`^${word} (\\d+) \\d+ ?([^;]*)(?:; (.*))?$`).exec(printed[0]);
        yield {word, given, limits, done: Number(done), expected: [output, refusal ?? '']};
    }
}

export const postgis = read('postgis/blobs.jsonl').trim().split('\n').map(line => JSON.parse(line));

/** What a call returns and an empty line, or the output and the line of a refusal. */
export function outcome(call, ...given) {
    try {
        return [call(...given), ''];
    } catch (fault) {
        if (!(fault instanceof polytwkb.Refused)) throw fault;
        return [fault.output, fault.message];
    }
}

const metadataOf = number => number.toString(16).toUpperCase().padStart(2, '0');

/** A header as the command prints it. */
export const lineOf = ({level, offset, kind, precision, metadata, length, points}) =>
    `${[level, offset, kind, precision, metadataOf(metadata), length, points].join(' ')}\n`;

/** Blobs of PostGIS, their canonical blobs, and those of the tables. */
export function* written() {
    for (const {hex: blob, full = blob, plain = blob} of postgis) yield* [blob, full, plain].map(bytes);
    for (const {given, expected} of within('tables', 'full', 'plain')) {
        if (expected[1]) continue;
        const [blobs, refusal] = outcome(polytwkb.pack, table(given));
        if (!refusal) yield blobs;
    }
}
