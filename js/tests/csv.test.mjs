// A column of a CSV to a stream and back: the rows of tests/vectors for the command, rows with ids, and other arguments.
import assert from 'node:assert/strict';
import test from 'node:test';
import * as polytwkb from '../polytwkb.js';
import {bytes, hex, outcome, rowsOf} from './rows.mjs';

await polytwkb.load();

const RUN = /^run polytwkb (pack|unpack) ((?:--(?!hex)[a-z]+ \S+ )+)< hex ?(\w*)$/;

// The CSV, and the stream or the line of a refusal, with ids in the column id at precision 5: written beside the design.
const IDS = [
    ['id,line\n', 'a51200'],
    ['line,id\nAC,1\nAC,07\n', 'record 3: bad id'],
    ['id,line\n1,AC\n,AC\n', 'record 3: id on some children only'],
    ['id,line\n,AC\n,\n', 'a50309040002000201040200'],
    ['id,line\n1,AC\n2,A\n', 'record 3: polyline at 1: latitude without longitude'],
    ['ids,line\n1,AC\n', 'record 1: no such column'],
    ['id,line,id\n1,AC,2\n', 'record 1: column twice'],
];

function ran(command, words, given) {
    const options = {}, nulls = [];
    let precision;
    for (const [, name, value] of words.matchAll(/--([a-z]+) (\S+)/g)) {
        if (name === 'null') nulls.push(value);
        else if (name === 'precision') precision = Number(value);
        else if (name !== 'column') options[name] = value;
    }
    if (command === 'unpack') return outcome(polytwkb.unpackColumn, given, 'line', options);
    const [output, said] = outcome(polytwkb.packColumn, given, 'line', precision, {...options, nulls});
    return [hex(output), said];
}

test('runs of the command with a column', () => {
    let count = 0;
    for (const [line, printed] of rowsOf('runs')) {
        const run = RUN.exec(line);
        if (!run?.[2].includes('--column line ') || !['status 0', 'status 1'].includes(printed[0])) continue;
        const [, command, words, given] = run, [output, said] = ran(command, words, bytes(given));
        const expected = [
            printed[1].slice('output'.length).trimStart(),
            printed[2].slice('errors'.length).replaceAll(' polytwkb: ', '').replace(/\/+$/, ''),
        ];
        assert.deepEqual([output.replaceAll('\n', '/'), said], expected, line);
        count++;
    }
    assert.ok(count > 15);
});

test('a column with ids', () => {
    for (const [csv, due] of IDS) {
        const [output, said] = outcome(polytwkb.packColumn, csv, 'line', 5, {ids: 'id'});
        assert.equal(said || hex(output), due);
    }
});

test('a refusal of a column names reason and place', () => {
    const refusedBy = call => {
        try {
            call();
        } catch (fault) {
            return fault;
        }
        return null;
    };
    const csv = refusedBy(() => polytwkb.packColumn('g\nAC\nAC\nNULL\n', 'g', 5));
    assert.deepEqual([csv.reason, csv.code, csv.text, csv.place], [84, 'MISSING_VALUE', 'missing value', 4]);
    assert.deepEqual([csv.done, csv.output.length], [1, 10]);
    const line = refusedBy(() => polytwkb.unpackColumn(bytes('a212000102020402'), 'g'));
    assert.deepEqual([line.reason, line.code, line.place, line.done], [91, 'NO_LINESTRING', 3, 1]);
    assert.equal(line.output, 'g\n""\n');
});

test('names and words of a column', () => {
    const csv = 'größe;line\nx;AC\ny;n. a.\nz;-\n', other = Buffer.from('-');
    const packed = polytwkb.packColumn(csv, 'line', 5, {nulls: new Set(['n. a.', other]), delimiter: ';'});
    assert.equal(polytwkb.unpackColumn(packed, '\ufeffgröße;', {delimiter: ';'}), '"\ufeffgröße;"\nAC\n""\n""\n');
    const latin = Buffer.from(csv.replace('line', 'länge'), 'latin1');
    const found =
        polytwkb.packColumn(latin, Buffer.from('länge', 'latin1'), 5, {nulls: ['n. a.', '-'], delimiter: ';'});
    assert.equal(polytwkb.split(found).length, 3);
    assert.equal(polytwkb.unpackColumn(new Uint8Array(), ''), '""\n');
});

test('a long column and back', () => {
    const lines = Array.from({length: 3000}, (_, at) => polytwkb.encode([[at / 100, 1], [2, -at / 100]], 5));
    for (const csv of ['line\n', `line\n${lines.join('\n')}\n`]) {
        const packed = polytwkb.packColumn(csv, 'line', 5, {delimiter: '\t', style: 'plain'});
        assert.equal(polytwkb.unpackColumn(packed, 'line', {delimiter: '\t'}), csv);
    }
});

test('other arguments of a column', () => {
    const {packColumn, unpackColumn} = polytwkb, pack = options => () => packColumn('g\n', 'g', 5, options);
    const delimiters = ['', 'ab', '"', '\r', '\n', '\0', '§'].map(delimiter => pack({delimiter}));
    const ranges = [
        () => packColumn('g\n', 'g\0', 5), () => packColumn('g\n', 'g', 8), () => packColumn('g\n', 'g', -9),
        pack({ids: ''}), pack({nulls: ['a\0b']}), pack({style: 'other'}), () => unpackColumn(bytes(''), 'g\0')
    ];
    for (const call of [...delimiters, ...ranges]) assert.throws(call, RangeError);
    const types = [
        () => packColumn(5, 'g', 5), () => packColumn('g\n', 5, 5), () => packColumn('g\n', 'g', 5.5), pack({ids: 5}),
        pack({nulls: 'NULL'}), pack({nulls: [5]}), pack({nulls: 5}), pack({delimiter: 44}), pack({null: ['NULL']}),
        () => unpackColumn('text', 'g'), () => unpackColumn(bytes(''), bytes('67'))
    ];
    for (const call of types) assert.throws(call, TypeError);
});
