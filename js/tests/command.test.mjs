// The windows of the command: tables and streams whose bytes come in pieces of each size, beside calls for the whole.
import assert from 'node:assert/strict';
import test from 'node:test';
import {Streams} from '../command/streams.js';
import {Tables} from '../command/tables.js';
import * as polytwkb from '../polytwkb.js';
import {refusalOf} from '../src/module.js';
import {HEADER, bytes, hex, lineOf, outcome, postgis, table, within} from './rows.mjs';

await polytwkb.load();

/** What comes of windows that get pieces of a size, after each of which no more is there for now. */
function inPieces(windows, input, size) {
    const parts = [];
    for (let at = 0, isEnd = false; !isEnd && !windows.fault; at += size) {
        const piece = input.subarray(at, at + size);
        isEnd = !piece.length;
        windows.add(piece);
        parts.push(...windows.take(isEnd, true));
    }
    return [Buffer.concat(parts), windows.fault ? refusalOf(windows.fault, null).message : ''];
}

function checkTable(text, options) {
    const {style = 'full', ...limits} = options, input = Buffer.from(text);
    const [due, refusal] = outcome(polytwkb.pack, input, options);
    for (const size of [1, 2, 3, 5, 16, 33, 34, 49, 64, 1000]) {
        const [found, said] = inPieces(new Tables(new polytwkb.Limits(limits), style), input, size);
        assert.deepEqual([hex(found), said], [hex(due), refusal], `${size} bytes of ${JSON.stringify(text)}`);
    }
}

test('tables of the vectors in pieces', () => {
    for (const {word, given, limits} of within('tables', 'full', 'plain'))
        checkTable(table(given), {...limits, style: word});
});

const POINT = '0,point,,0,AC\n', LINE = '0,linestring,,0,ACAA\n';
const COLLECTION = '0,collection,,0,\n1,point,7,0,AA\n1,linestring,-1,0,\n';
const QUOTED = '"0","point","","0","AC"\n';
const STARTS = ['', POINT, POINT + LINE, COLLECTION, COLLECTION + COLLECTION, POINT + '\n' + LINE];
const ENDS = [
    '', POINT, '0,pont,,0,\n', '1,point,,,AC\n', '0,ring,,,\n', '0,point,,0,A', '0,point,,0,"AC', QUOTED,
    '0,point,,0,"A\n0,point,,0,AC\n', '0,point,,A"C,"x\n0,point,,0,"\n', '""0,point,,0,AC\n0,pont,,0,\n',
    '0,point,,0,"AC"x\n', '0,point\n', '\n\n', '0,point,,0,AC,\n', '"0",pont,,0,\n'
];

test('tables with quotes, line ends and faults in pieces', () => {
    for (const start of STARTS)
        for (const end of ENDS)
            for (const after of ['', POINT, LINE + COLLECTION + POINT]) checkTable(HEADER + start + end + after, {});
});

test('other spellings of a table in pieces', () => {
    const rows = HEADER + POINT + LINE + COLLECTION + POINT;
    const spelled = [
        rows.replaceAll('\n', '\r\n'), rows.replaceAll('\n', '\r'), '\ufeff' + rows, '\n\r\n' + rows, '\ufeff\n' + rows
    ];
    const quoted = QUOTED + QUOTED + QUOTED + QUOTED.replace('AC', 'A"",C') + QUOTED;
    const cut = ['', 'x', 'depth,kind', HEADER, rows.slice(0, -1), '"depth",kind,id,precision,polyline\n' + POINT];
    for (const text of [...spelled, HEADER + quoted, ...cut]) checkTable(text, {});
});

test('a table is given before its end', () => {
    const windows = new Tables(new polytwkb.Limits(), 'full');
    const given = (text, isPause) => {
        windows.add(Buffer.from(text));
        return hex(Buffer.concat([...windows.take(false, isPause)]));
    };
    assert.equal(given(HEADER + POINT + POINT, false), '');
    assert.equal(given(POINT, true), '01020204020102020402');
    assert.equal(given('0,pont,,0,\n', true), '');
    assert.equal(windows.fault.place, 5);
});

test('a record whose number is 2^32', () => {
    for (const [before, refusal] of [[2 ** 32 - 4, ''], [2 ** 32 - 3, 'too many records']]) {
        const windows = new Tables(new polytwkb.Limits(), 'full');
        windows.count = before;
        assert.equal(inPieces(windows, Buffer.from(HEADER + POINT + POINT), 1000)[1], refusal);
    }
});

function checkStream(input, limits) {
    const [rows, refusal] = outcome(polytwkb.unpack, input, limits), [headers] = outcome(polytwkb.show, input, limits);
    for (const size of [1, 2, 3, 7, 64, 1000]) {
        const [found, said] = inPieces(new Streams(new polytwkb.Limits(limits), 'unpack'), input, size);
        assert.deepEqual([HEADER + found, said], [rows, refusal], hex(input));
        const [geojson, third] = inPieces(new Streams(new polytwkb.Limits(limits), 'geojson'), input, size);
        assert.deepEqual([geojson.toString(), third], outcome(polytwkb.toGeojson, input, limits), hex(input));
        const [lines, same] = inPieces(new Streams(new polytwkb.Limits(limits), 'show'), input, size);
        assert.deepEqual([lines.toString(), same], [headers.map(lineOf).join(''), refusal], hex(input));
    }
}

test('lines of show far from the start of a stream', () => {
    const blobs = bytes('0102020402'.repeat(12));
    for (const offset of [1, 9, 90, 9999940, 9999995, 10 ** 7, 12345678901234, 99999999999990]) {
        const windows = new Streams(new polytwkb.Limits(), 'show'), headers = polytwkb.show(blobs);
        windows.offset = offset;
        const due = headers.map(header => lineOf({...header, offset: offset + header.offset})).join('');
        assert.equal(inPieces(windows, blobs, 1000)[0].toString(), due);
    }
});

test('streams of the vectors in pieces', () => {
    for (const {given, limits} of within('streams', 'unpack')) checkStream(bytes(given), limits);
});

test('blobs of PostGIS in pieces', () => {
    const blobs = postgis.map(({hex: blob}) => bytes(blob));
    checkStream(Uint8Array.from(Buffer.concat(blobs)), {});
    checkStream(Uint8Array.from(Buffer.concat([...blobs, bytes('08')])), {});
});
