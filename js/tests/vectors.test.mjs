// The package on the rows of tests/vectors and on the blobs of PostGIS, as python/tests/test_vectors.py has them.
import assert from 'node:assert/strict';
import test from 'node:test';
import * as polytwkb from '../polytwkb.js';
import {HEADER, bytes, hex, lineOf, outcome, postgis, rowsOf, table, within} from './rows.mjs';

await polytwkb.load();

const shown = headers => headers.map(lineOf).join('');

function optionsOf(words) {
    const limits = {}, geojson = words.includes('--geojson');
    let style = 'full';
    for (const [, option, value] of words.matchAll(/--(\S+)[ =](\w+)/g)) {
        if (option === 'max-nest') limits.nest = Number(value);
        else style = value;
    }
    return {limits, style, geojson};
}

function ran(command, given, {limits, style, geojson}) {
    if (command === 'pack') {
        const [output, said] = outcome(polytwkb.pack, given, {...limits, style});
        return [hex(output), said];
    }
    if (command === 'unpack') return outcome(geojson ? polytwkb.toGeojson : polytwkb.unpack, given, limits);
    const [output, said] = outcome(polytwkb.show, given, limits);
    return [shown(output), said];
}

const RUN = /^run polytwkb (pack|unpack|show)((?: --(?:max-nest|style)[ =]\w+| --geojson)*) < (rows|hex) ?(.*)$/;

test('runs of the command', () => {
    let count = 0;
    for (const [line, printed] of rowsOf('runs')) {
        const run = RUN.exec(line);
        if (!run || !['status 0', 'status 1'].includes(printed[0])) continue;
        const [, command, words, form, text] = run;
        const [output, said] = ran(command, form === 'rows' ? table(text) : bytes(text), optionsOf(words));
        const expected = [
            printed[1].slice('output'.length).trimStart(),
            printed[2].slice('errors'.length).replaceAll(' polytwkb: ', '').replace(/\/+$/, ''),
        ];
        assert.deepEqual([output.replaceAll('\n', '/'), said], expected, line);
        count++;
    }
    assert.ok(count > 60);
});

test('tables and their blobs', () => {
    let count = 0;
    for (const {word, given, limits, done, expected} of within('tables', 'full', 'plain')) {
        const [output, refusal] = outcome(polytwkb.pack, table(given), {...limits, style: word});
        assert.deepEqual([hex(output), refusal], expected, given);
        count++;
        if (refusal) continue;
        assert.equal(polytwkb.unpack(output, limits), table(given));
        assert.equal(hex(polytwkb.pack(Buffer.from(table(given)), {...limits, style: word})), hex(output));
        assert.equal(polytwkb.split(output, limits).length, done);
    }
    assert.ok(count > 60);
});

test('streams', () => {
    let count = 0;
    for (const {given, limits, expected} of within('streams', 'unpack')) {
        const [output, refusal] = outcome(polytwkb.unpack, bytes(given), limits);
        assert.deepEqual([output.replaceAll('\n', '/'), refusal], expected, given);
        assert.deepEqual(Buffer.from(outcome(polytwkb.unpackBytes, bytes(given), limits)[0]).toString(), output);
        count++;
    }
    assert.ok(count > 60);
});

const isSmall = number => number >= -(2n ** 53n) && number < 2n ** 53n;

function encodesBack(points, numbers, given) {
    const pairs = Array.from({length: numbers.length / 2}, (_, place) => numbers.slice(2 * place, 2 * place + 2));
    assert.equal(polytwkb.encode(points), given);
    assert.equal(polytwkb.encode(pairs), given);
    if (numbers.every(isSmall)) assert.deepEqual(polytwkb.decode(given), pairs.map(pair => pair.map(Number)));
    else assert.throws(() => polytwkb.decode(given), RangeError);
}

test('polylines', () => {
    let count = 0;
    for (const [line, printed] of rowsOf('polylines')) {
        const space = line.indexOf(' ', line.indexOf(' ') + 1), text = space < 0 ? '' : line.slice(space + 1);
        const numbers = [...printed[0].matchAll(/[xy]: (-?\d+)/g)].map(match => BigInt(match[1]));
        const fault = /; (.*) at (\d+)$/.exec(printed[0]);
        if (fault?.[1] === 'too many points') continue;
        const given = line.startsWith('polyline_of_bytes ') ? bytes(text) : text;
        const [points, refusal] = outcome(polytwkb.decodeFlat, given);
        const expected = fault ? `polyline at ${fault[2]}: ${fault[1]}` : '';
        assert.deepEqual([[...points], refusal], [numbers, expected], line);
        if (!fault) encodesBack(points, numbers, given);
        count++;
    }
    assert.ok(count > 200);
});

test('blobs of PostGIS', () => {
    assert.equal(postgis.length, 49);
    for (const {hex: blob, rows, full = blob, plain = blob} of postgis) {
        const text = HEADER + rows.map(row => row + '\n').join('');
        assert.equal(polytwkb.unpack(bytes(blob)), text);
        assert.equal(hex(polytwkb.pack(text)), full);
        assert.equal(hex(polytwkb.pack(text, {style: 'plain'})), plain);
    }
    const blobs = postgis.map(vector => bytes(vector.hex)), stream = Uint8Array.from(Buffer.concat(blobs));
    assert.deepEqual(polytwkb.split(stream).map(hex), blobs.map(hex));
    const [output, said] = outcome(polytwkb.split, Uint8Array.from([...stream, 8]));
    assert.deepEqual([output.map(hex), said], [blobs.map(hex), `byte ${stream.length}: unknown type`]);
});
